#!/usr/bin/env python3
"""Makes the damaged boards of the gate: every rule R1 to R7 broken alone in each way it can be, at the first, a middle and the
last record, then boards that break several.

Written from documents 01 and 02 (Asks 1, 3 and 5) alone, with its own reading of the rules, so that the proved check is compared
with something else.
usage: damaged_boards.py CASES ANSWERS   (a case: length word, call of 9 bytes, board; an answer: a line of refusal, value,
running, delivered, rule, record and each byte that changed)"""
import random
import sys

from layout import CHECK, FRESH, MESSAGES, ON_TIMER, RUNNING, TASKS, message, place, task

CALLS, NO_CALLS = range(1, 20), (20, 21, 22, 64, 128, 252, 255)
WAIT, IWAT, BIT5, INTQ, DEBUG, MROB, MHBS, TCBB = 128, 64, 32, 16, 8, 4, 2, 1


def word(b, i):
    return b[i] + 256 * b[i + 1]


def put(b, i, w):
    b[i], b[i + 1] = w % 256, w // 256


def walk(b, x, link, members, number):
    """The numbers that links visit, or None where they stray, repeat, fall in number or do not end."""
    seen, low = [], 0
    while x:
        if x not in members or x in seen or number(x) < low:
            return None
        seen.append(x)
        low = number(x)
        x = word(b, link(x))
    return seen if set(seen) == members else None


def present(b):
    return {k for k in range(1, TASKS + 1) if any(b[task(k):task(k) + 10])}


def in_order(b):
    """The task queue, None where it is none."""
    return walk(b, b[0], lambda k: task(k) + 2, present(b), lambda k: b[task(k) + 1] >> 1)


def broken_records(b, has_timer=True):
    """What the board breaks of R2 to R6, as (rule, record), record 0 for R3; R6 is judged where R2 to R5 hold. Once there was no
    timer, and its place was like any that names no task."""
    out = set()
    stat = {k: b[task(k)] for k in range(1, TASKS + 1)}
    there = present(b)
    for k in there:
        if not stat[k] & TCBB or stat[k] & BIT5 or b[task(k) + 1] % 2 == 0 or not 3 <= b[task(k) + 1] <= 0xFD:
            out.add((2, k))
    if in_order(b) is None:
        out.add((3, 0))
    placed = {k: set() for k in stat}
    for m in range(1, MESSAGES + 1):
        r, p = b[message(m):message(m) + 8], b[place(m)]
        if p == 0:
            if any(r):
                out.add((4, m))
            continue
        if p == ON_TIMER and has_timer:
            if word(r, 2) or word(r, 4) > TASKS or word(r, 6) not in there or r[1] >= 0xFE:
                out.add((4, m))
            continue
        holder = p if p <= TASKS else p - 64
        if holder not in there or word(r, 4) > TASKS or word(r, 6) > TASKS:
            out.add((4, m))
        if p <= TASKS and word(r, 2):
            out.add((4, m))
        if p > 64:
            if r[1] % 2 == 0 or r[1] == 0xFF:
                out.add((4, m))
            if holder in placed:
                placed[holder].add(m)
    for k in stat:
        if walk(b, word(b, task(k) + 4), lambda m: message(m) + 2, placed[k], lambda m: b[message(m) + 1] >> 1) is None:
            out.add((5, k))
    if out:
        return out
    for k in there:
        s, empty = stat[k], not placed[k]
        waits_badly = s & WAIT and (s & (IWAT | MHBS) or not empty)
        if waits_badly or (s & IWAT and s & (INTQ | MHBS)) or (s & MHBS and empty):
            out.add((6, k))
    return out


def ready(b):
    """The ready tasks in queue order, of a board that keeps R1 to R6."""
    return [k for k in in_order(b) if not b[task(k)] & (WAIT | IWAT)]


def may_run(b):
    """What byte 1 may be: a ready task of the smallest ready number that is due no message; 0 exactly if none is ready."""
    number = {k: b[task(k) + 1] >> 1 for k in ready(b)}
    return {k for k in number if number[k] == min(number.values()) and not b[task(k)] & MHBS} if number else {0}


def broken(b):
    """What the board breaks, as (rule, record), record 0 for R1 and R3, byte 1 for R7, which is judged where R1 to R6 hold."""
    out = broken_records(b) | ({(1, 0)} if any(b[2:4]) else set())
    if not out and b[RUNNING] not in may_run(b):
        out.add((7, b[RUNNING]))
    return out


def named(b):
    """The rule that is told with 2, and the record: the lowest, then the smallest; zeros where the board breaks none."""
    return min(broken(b), default=(0, 0))


def queue(b, k, numbers, prios):
    put(b, task(k) + 4, numbers[0] if numbers else 0)
    for i, m in enumerate(numbers):
        b[message(m) + 1] = prios[i]
        put(b, message(m) + 2, numbers[i + 1] if i + 1 < len(numbers) else 0)
        b[place(m)] = 64 + k


def same(number):
    return number


def swapped(one, other):
    return lambda number: {one: other, other: one}.get(number, number)


def sound(t=same, m=same):
    """Five tasks in the order 5, 2, 7, 32, 9: one runs with a queue, one waits, one is parked with a queue, one is due a message.
    Functions t and m give the tasks and messages other numbers."""
    b = bytearray(1476)
    order = [(5, TCBB | DEBUG, 3), (2, TCBB | WAIT | INTQ, 21), (7, TCBB | IWAT | MROB, 21), (32, TCBB | MHBS, 0x33),
             (9, TCBB | INTQ, 0xFD)]
    b[0] = b[RUNNING] = t(5)
    for i, (k, s, p) in enumerate(order):
        at = task(t(k))
        b[at], b[at + 1] = s, p
        put(b, at + 2, t(order[i + 1][0]) if i + 1 < len(order) else 0)
        put(b, at + 6, 0xBEEF)
        put(b, at + 8, 0x4142)
    queue(b, t(5), [m(3), m(1), m(128)], [1, 1, 0xFD])
    queue(b, t(7), [m(64), m(2)], [9, 11])
    queue(b, t(32), [m(100)], [0x15])
    for n, k, prio in ((m(10), 2, 0xFF), (m(11), 2, 0xFE), (m(127), 5, 0)):
        b[place(n)], b[message(n) + 1] = t(k), prio
        put(b, message(n) + 4, 32)
        put(b, message(n) + 6, 31)
    return b


def full():
    """All 32 tasks in number order, all 128 messages queued, four at each."""
    b = bytearray(1476)
    b[0] = b[RUNNING] = 1
    for k in range(1, 33):
        b[task(k)], b[task(k) + 1] = TCBB, 1 + 2 * k
        put(b, task(k) + 2, k + 1 if k < 32 else 0)
        queue(b, k, [4 * k - 3, 4 * k - 1, 4 * k - 2, 4 * k], [3, 3, 5, 7])
    return b


def one_queue():
    """A lone task with all 128 messages in its queue: the longest legal walk."""
    b = bytearray(1476)
    b[0], b[RUNNING], b[task(32)], b[task(32) + 1] = 32, 32, TCBB, 3
    queue(b, 32, list(range(128, 0, -1)), [1] * 128)
    return b


def equals(running, due=(), asleep=()):
    """The full board with tasks of one priority, of which one runs, some are due a message and some wait for an interrupt."""
    b = full()
    b[RUNNING] = running
    for k in range(1, 33):
        b[task(k)], b[task(k) + 1] = TCBB | (MHBS if k in due else 0) | (IWAT if k in asleep else 0), 0x33
    return b


def changed(b, changes):
    for i, v in changes:
        b[i] = v
    return b


def to_word(i, w):
    """The changes that write a word."""
    return [(i, w % 256), (i + 1, w // 256)]


def on_timer(m, sptr, prio=0x14, rptr=0):
    """The changes that put a free message on the timer."""
    return [(place(m), ON_TIMER), (message(m) + 1, prio), *to_word(message(m) + 4, rptr), *to_word(message(m) + 6, sptr)]


def damages_of_no_record():
    """What breaks R1, R3, or R7 by a byte 1 that is no task, of the board sound() alone: (rule, record, [(offset, byte) ..])."""
    for i in (2, 3):
        for v in (1, 0x80, 0xFF):
            yield 1, 0, [(i, v)]
    for v in (0, 1, 2, 33, 255):                            # byte 0: none, absent, past the first, beyond the board
        yield 3, 0, [(0, v)]
    for v in (0, 1, 5, 2, 9, 33, 0x0107, 0x8000):           # LINK of task 2
        yield 3, 0, to_word(task(2) + 2, v)
    for v in (5, 9, 1, 33, 0x0100):                         # LINK of the last task
        yield 3, 0, to_word(task(9) + 2, v)
    yield 3, 0, [(task(5) + 1, 23)]                         # numbers fall behind the first
    yield 3, 0, [(task(9) + 1, 0x31)]                       # .. at the last link
    for v in (0, 33, 37, 64, 69, 96, 128, 133, 255):        # byte 1: nobody, or beyond the tasks
        yield 7, v, [(RUNNING, v)]


def damages(t=same, m=same):
    """What breaks each other rule of the board sound(t, m), as (the lowest rule broken, its record, [(offset, byte) ..])."""
    absent, runner, waiter, parked, due, idle = (t(k) for k in (20, 5, 2, 7, 32, 9))
    free, held, first, last, kept = (m(n) for n in (50, 10, 3, 128, 127))
    for i in range(10):                                     # an absent record that isn't zero
        yield 2, absent, [(task(absent) + i, 2 if i == 0 else 1)]
    for k, s in ((runner, TCBB | DEBUG), (idle, TCBB | INTQ)):
        yield 2, k, [(task(k), s | BIT5)]
    yield 2, idle, [(task(idle), INTQ)]                     # TCBB clear
    for p in (0x01, 0xFF, 0xFC, 0x02, 0x00):
        yield 2, idle, [(task(idle) + 1, p)]
    for i in range(8):                                      # a free message that isn't zero
        yield 4, free, [(message(free) + i, 1)]
    for n in (held, first):                                 # RPTR and SPTR beyond the tasks
        for i in (4, 6):
            for v in (33, 0x0100, 0xFFFF):
                yield 4, n, to_word(message(n) + i, v)
    for v in (1, 11, 129, 0x0100):                          # a held message with a LINK
        yield 4, held, to_word(message(held) + 2, v)
    for p in (0xFF, 0xFC, 0x00):                            # a queued message's PRIO
        yield 4, last, [(message(last) + 1, p)]
    for p in (1, 31, 33, 48, 64, 97, 120, 127, 129, 192, 255):  # places that name no present task
        yield 4, kept, [(place(kept), p)]
    timed = on_timer(free, runner)                          # on the timer: LINK, RPTR, SPTR and PRIO
    for field, v in ((2, 1), (2, 0x0100), (4, 33), (4, 0x0100), (6, 0), (6, absent), (6, 33), (6, 0x0100 + runner)):
        yield 4, free, timed + to_word(message(free) + field, v)
    for p in (0xFE, 0xFF):
        yield 4, free, timed + [(message(free) + 1, p)]
    yield 4, kept, [(place(kept), ON_TIMER)]                # its SPTR is absent
    for v in (0, 1, 128, 2, 10, 50, 129, 0x0103, 0x8000):   # MPTR of the running task
        yield 5, runner, to_word(task(runner) + 4, v)
    yield 5, waiter, to_word(task(waiter) + 4, 10)          # a queue that has only a held message
    yield 5, idle, to_word(task(idle) + 4, 100)             # .. another task's
    for v in (3, 1, 0, 50, 10, 64, 129, 0x0180):            # LINK in the middle: a cycle, a miss, a stranger
        yield 5, runner, to_word(message(1) + 2, v)
    for v in (3, 128, 2, 100, 129, 0x0100):                 # LINK at the end; 2 and 100 share a tail
        yield 5, runner, to_word(message(128) + 2, v)
    yield 5, runner, [(message(3) + 1, 3)]                  # numbers fall behind the first
    yield 5, parked, [(message(2) + 1, 7)]                  # .. at the last link
    yield 5, min(runner, parked), [(place(1), 64 + parked)]     # visited by one, placed at another
    yield 5, runner, [(place(1), runner)] + to_word(message(1) + 2, 0)  # visited and held
    yield 6, waiter, [(task(waiter), TCBB | WAIT | IWAT)]
    yield 6, parked, [(task(parked), TCBB | WAIT)]          # WAIT with a queue
    yield 6, waiter, [(task(waiter), TCBB | WAIT | MHBS)]
    yield 6, parked, [(task(parked), TCBB | IWAT | INTQ)]
    yield 6, parked, [(task(parked), TCBB | IWAT | MHBS)]
    yield 6, idle, [(task(idle), TCBB | MHBS)]              # MHBS with an empty queue
    yield 7, runner, [(task(runner), TCBB | MHBS)]
    for k in (absent, waiter, parked, due, idle):           # byte 1: absent, waits, or of a larger number
        yield 7, k, [(RUNNING, k)]
    sleeping = [(task(k), TCBB | IWAT) for k in (runner, due, idle)]    # nobody is ready
    for k in (absent, runner, waiter):
        yield 7, k, [(RUNNING, k), *sleeping]


def spots(rule):
    """The first, a middle and the last record of a rule that has any."""
    last = MESSAGES if rule == 4 else TASKS
    return 1, last // 2, last


def each_at_its_spots():
    """Each damage to a record, with the numbers on the board so exchanged that this is the first, a middle and the last one."""
    for i, (rule, record, _) in enumerate(damages()):
        for spot in spots(rule):
            swap = swapped(record, spot)
            t, m = (same, swap) if rule == 4 else (swap, same)
            _, there, changes = list(damages(t, m))[i]
            yield changed(sound(t, m), changes), (rule, there)


def of_the_full_board():
    """Boards with every task and message, broken at two tasks or one: the smaller is named, or the one that is wrong."""
    for k, other in ((1, 2), (2, 1), (1, 32), (32, 1), (16, 17), (17, 16), (31, 32), (32, 31)):
        strays = to_word(message(4 * k) + 2, 4 * other)     # the tail of the other is shared: its own walk is right
        yield changed(full(), strays), (5, k)
        cut = [change for j in (k, other) for change in to_word(message(4 * j - 1) + 2, 0)]
        yield changed(full(), cut), (5, min(k, other))
        yield changed(full(), [(task(k), TCBB | WAIT), (task(other), TCBB | MHBS | IWAT)]), (6, min(k, other))
        waits = [(task(j), TCBB | IWAT) for j in range(1, k)]
        yield changed(full(), waits + [(RUNNING, k)]), (0, 0)
        yield changed(full(), waits + [(RUNNING, k), (task(k), TCBB | MHBS)]), (7, k)
        yield changed(full(), waits), ((7, 1) if k > 1 else (0, 0))
        yield changed(full(), [(task(1), TCBB | MHBS), (task(k), TCBB | WAIT)]), (6, k)  # R7 would be broken too
        yield equals(k, {other}), (0, 0)                    # an equal may be due a message, earlier or later
        yield equals(k, {k}), (7, k)
        yield equals(k, {other}, {k}), (7, k)               # who runs waits


def of_equals():
    """Any of 32 equals may run, whoever else is due a message; nobody may where all wait."""
    everyone = set(range(1, 33))
    for k in everyone:
        yield equals(k), (0, 0)
        yield equals(k, everyone - {k}), (0, 0)
        yield equals(k, everyone), (7, k)
        yield equals(k, asleep=everyone), (7, k)
        yield equals(k, asleep=everyone - {k}), (0, 0)
    for byte in (0, 33, 64, 128, 255):
        yield equals(byte), (7, byte)
        yield equals(byte, asleep=everyone), ((7, byte) if byte else (0, 0))


def of_the_timer():
    """Boards with messages on the timer: any RPTR and any PRIO below FEH, and a present SPTR, whether it is ready or not."""
    for m in (4, 50, 126):
        for prio in (0x00, 0x01, 0x14, 0xFC, 0xFD):
            for rptr, sptr in ((0, 5), (5, 2), (32, 7), (31, 32)):
                yield changed(sound(), on_timer(m, sptr, prio, rptr)), (0, 0)
    everyone = [on_timer(m, 1 + m % TASKS) for m in range(1, MESSAGES + 1)]
    none_queued = [change for k in range(1, TASKS + 1) for change in to_word(task(k) + 4, 0)]
    no_links = [change for m in range(1, MESSAGES + 1) for change in to_word(message(m) + 2, 0)]
    yield changed(full(), none_queued + no_links + sum(everyone, [])), (0, 0)
    yield changed(full(), everyone[0]), (4, 1)              # it has a LINK still
    yield changed(full(), everyone[127]), (5, 32)           # the last of a queue has none, but is visited still


def cases():
    """Every board of the gate, with the rule and the record to be named, zeros for none, and None where it may be any."""
    yield bytearray(1476), (0, 0)
    for base in (sound(), full(), one_queue()):
        yield base, (0, 0)
    ways = list(damages_of_no_record()) + list(damages())
    for rule, record, changes in ways:
        yield changed(sound(), changes), (rule, record)
    yield from each_at_its_spots()
    yield from of_the_full_board()
    yield from of_equals()
    yield from of_the_timer()
    for byte in (1, 32, 33, 255):
        yield changed(bytearray(1476), [(RUNNING, byte)]), (7, byte)    # there is no task
    long_walk = one_queue()                                 # 129 links: the last one turns back to the first
    put(long_walk, message(1) + 2, 128)
    yield long_walk, (5, 32)
    rng = random.Random(1980)
    for _ in range(300):
        b = sound()
        for _, _, changes in rng.sample(ways, rng.choice((2, 2, 3))):
            changed(b, changes)
        yield b, None
    for _ in range(300):                                    # any byte of a sound board changed
        b = rng.choice((sound, full, one_queue))()
        for _ in range(rng.choice((1, 1, 2, 3))):
            b[rng.randrange(1476)] = rng.randrange(256)
        yield b, None
    for _ in range(20):
        yield bytearray(rng.randrange(256) for _ in range(1476)), None


def main(cases_file, answers_file):
    alone = set()
    with open(cases_file, "wb") as out, open(answers_file, "w") as said:
        def emit(board, kind, answer):
            out.write(bytes((len(board) % 256, len(board) // 256, kind)) + bytes(8) + bytes(board))
            said.write(answer + "\n")
        for b, wanted in cases():
            found = broken(b)
            if wanted is not None:
                assert named(b) == wanted, (wanted, found)
                alone.update(found if len(found) < 2 else ())
            if found:
                emit(b, CHECK, "2 0 0 0 %d %d" % named(b))
            else:
                emit(b, CHECK, "0 0 %d 0 0 0" % b[RUNNING])
        last_of_each = {way[0]: way for way in [*damages_of_no_record(), *damages()]}.values()
        for rule, record, changes in [*last_of_each, (7, 0, [(RUNNING, 0)]), (7, 255, [(RUNNING, 255)])]:
            for kind in CALLS:                              # every call says what the check does
                emit(changed(sound(), changes), kind, "2 0 0 0 %d %d" % (rule, record))
        for n in (0, 1, 4, 1475, 1477, 2854, 4000):         # wrong lengths
            emit(bytes(n), CHECK, "1 0 0 0 0 0")
            emit(bytes([7]) * n, FRESH, "1 0 0 0 0 0")
        mended = bytes([0xA5]) * 1476                       # fresh mends any board
        emit(mended, FRESH, "0 0 0 0 0 0" + "".join(" %d=0" % i for i in range(1476)))
        emit(bytes(1476), FRESH, "0 0 0 0 0 0")
        for kind in NO_CALLS:                               # no call, before the board is looked at
            for b in (sound(), mended, bytes(1475)):
                emit(b, kind, "255 0 0 0 0 0")
    assert alone >= {(1, 0), (3, 0), (7, 0), (7, 255)} | {(rule, spot) for rule in (2, 4, 5, 6, 7) for spot in spots(rule)}


if __name__ == "__main__":
    main(*sys.argv[1:])
