#!/usr/bin/env python3
"""Makes the cases of the station timer: starts, ticks, what is wrong with a timer buffer, and the other calls on boards that have
messages on the timer. Written from documents 01 and 02 (Ask 5) alone: every case says the buffers before and the answer, and
where it is accepted the buffers after.
usage: timer_boards.py CASES ANSWERS   (a case: length word, call of 9 bytes, board, and for start and tick the length word of the
timer buffer and the buffer; an answer: a line of refusal, value, running, delivered, rule, record, each byte of the board that
changed, and each of the timer buffer, marked by t)"""
import struct
import sys

from layout import CHECK, CONVERT, FRESH, ON_TIMER, RUNNING, START, TICK, entry, message, place, task

INSTALL, POST, FIND, CANCEL_TASK, CLAIM, PREPARE, RELEASE, SEND, SEND_AND_WAIT = 1, 2, 3, 4, 5, 6, 7, 8, 9
RECEIVE, CANCEL_MESSAGE, WAIT_FOR_INTERRUPT = 16, 18, 19
OF_HELD = range(PREPARE, RECEIVE)  # the calls that act on a held message
READY, WAIT, IWAT, MHBS = 0x01, 0x81, 0x41, 0x03  # STAT of a present task
FRESH_BOARD, LAST = bytes(1476), 65535


def station(runs, tasks, messages=()):
    """Who runs, tasks (number, STAT, PRIO) in queue order, and messages (number, place, PRIO, SPTR), in a queue in its order."""
    b = bytearray(1476)
    b[RUNNING], link = runs, 0
    for k, stat, prio in tasks:
        b[link], b[task(k)], b[task(k) + 1] = k, stat, prio
        link = task(k) + 2
    ends = {k: task(k) + 4 for k, _, _ in tasks}
    for m, where, prio, sptr in messages:
        b[place(m)], b[message(m) + 1], b[message(m) + 6] = where, prio, sptr
        if 64 < where < ON_TIMER:
            b[ends[where - 64]] = m
            ends[where - 64] = message(m) + 2
    return bytes(b)


def timer(now, *entries):
    """The buffer with this tick, and entries (number from 1 to 16, message, due)."""
    t = bytearray(now.to_bytes(2, "little") + bytes(48))
    for i, m, due in entries:
        t[entry(i):entry(i) + 3] = struct.pack("<BH", m, due)
    return bytes(t)


def changed(b, *changes):
    b = bytearray(b)
    for i, v in changes:
        b[i] = v
    return bytes(b)


def call(kind, *words):
    return kind, (*words, 0, 0, 0)[:3]


def start(m, delay):
    return call(START, m, delay)


def accepted(asked, b, t, runs, after, t_after, delivered=0, value=0):
    return asked, b, t, (0, value, runs, delivered, 0, 0), after, t_after


def refused(asked, b, t, number, rule=0, record=0):
    return asked, b, t, (number, 0, 0, 0, rule, record), b, t


def lone(m=1, prio=0x15, sptr=1, where=1, *others):
    """Task 1 runs, alone, and has one message or more."""
    return station(1, [(1, READY, 0x33)], [(m, where, prio, sptr), *others])


def starts():
    """A start that is accepted: the place becomes 128, the lowest free entry is taken, and nothing else changes."""
    for now, delay, due in ((0, 1, 1), (0, 255, 255), (0, 256, 256), (0, LAST, LAST), (300, 212, 512), (LAST, 1, 0), (LAST, 2, 1),
                            (LAST, LAST, LAST - 1), (1, LAST, 0), (5, LAST, 4), (40000, 30000, 4464), (65534, 1, LAST)):
        yield accepted(start(1, delay), lone(), timer(now), 1, lone(where=ON_TIMER), timer(now, (1, 1, due)))
    for m in (2, 64, 127, 128):
        yield accepted(start(m, 3), lone(m), timer(7), 1, lone(m, where=ON_TIMER), timer(7, (1, m, 10)))
    for prio in (0x00, 0x01, 0x14, 0xFC, 0xFD):             # an even PRIO stays even on the timer
        yield accepted(start(1, 3), lone(prio=prio), timer(0), 1, lone(prio=prio, where=ON_TIMER), timer(0, (1, 1, 3)))
    full = [(i, 100 + i, 9) for i in range(1, 17)]
    for free in ({1}, {16}, {2, 3, 16}, {15, 16}, {9}):
        used = [e for e in full if e[0] not in free]
        timed = [(m, ON_TIMER, 0x15, 1) for _, m, _ in used]
        yield accepted(start(1, 4), lone(1, 0x15, 1, 1, *timed), timer(2, *used), 1, lone(1, 0x15, 1, ON_TIMER, *timed),
                       timer(2, *used, (min(free), 1, 6)))
    for stat in (READY, WAIT, IWAT):                        # for another task, which need not be ready
        two = [(1, READY, 0x33), (32, stat, 0x35)]
        yield accepted(start(1, 9), station(1, two, [(1, 1, 0x15, 32)]), timer(0), 1,
                       station(1, two, [(1, ON_TIMER, 0x15, 32)]), timer(0, (1, 1, 9)))
    whole = ((message(1), 0xA5), (message(1) + 4, 32))      # STAT and RPTR stay; an absent receiver does no harm
    yield accepted(start(1, 3), changed(lone(), *whole), timer(0), 1, changed(lone(where=ON_TIMER), *whole), timer(0, (1, 1, 3)))


def refused_starts():
    """Each refusal of start, and the lowest where several apply; but 18 comes right behind 2."""
    full = timer(0, *((i, 100 + i, 9) for i in range(1, 17)))
    timed = [(100 + i, ON_TIMER, 0x15, 1) for i in range(1, 17)]
    crowded = lone(1, 0x15, 1, 1, *timed)
    two = [(1, READY, 0x33), (2, READY, 0x33)]
    none_runs = station(0, [(1, WAIT, 0x33)], [(1, 1, 0x15, 1)])
    bad = timer(0, (1, 0, 1))
    for m in (1, 0):
        yield refused(start(m, 0), none_runs, timer(0), 3)
        yield refused(start(m, 0), FRESH_BOARD, timer(0), 3)
    for m in (0, 129, 255, 256, 257, LAST):
        yield refused(start(m, 0), crowded, full, 4)
    yield refused(start(2, 0), lone(), timer(0), 5)         # free, another's, queued, on the timer
    yield refused(start(1, 0), station(1, two, [(1, 2, 0x15, 1)]), timer(0), 5)
    yield refused(start(1, 0), lone(where=65), timer(0), 5)
    yield refused(start(1, 1), lone(where=ON_TIMER), timer(0, (1, 1, 5)), 5)
    for sptr in (0, 2, 32):                                 # no task, or an absent one
        yield refused(start(1, 0), lone(sptr=sptr, prio=0xFE), timer(0), 6)
        yield refused(start(1, 1), lone(sptr=sptr), timer(0), 6)
    for prio in (0xFE, 0xFF):
        yield refused(start(1, 0), lone(prio=prio), timer(0), 7)
        yield refused(start(1, 1), lone(prio=prio), timer(0), 7)
    yield refused(start(1, 0), lone(), timer(0), 16)
    yield refused(start(1, 0), crowded, full, 16)
    for delay in (1, 9, LAST):
        yield refused(start(1, delay), crowded, full, 17)
    for b in (none_runs, FRESH_BOARD, lone(), lone(sptr=0), lone(prio=0xFE)):
        for m in (0, 1, 2):
            yield refused(start(m, 0), b, bad, 18)
    yield refused(start(0, 0), changed(lone(), (2, 1)), bad, 2, 1)
    yield refused(start(0, 0), changed(lone(), (2, 1))[:-1], bad, 1)


def quiet_ticks():
    """Ticks that return nothing: now alone changes. A free entry never is due, and one that is due now was so before."""
    for now in (0, 1, 254, 255, 256, 65279, 65534, LAST):
        for b, runs in ((FRESH_BOARD, 0), (lone(), 1)):
            yield accepted(call(TICK), b, timer(now), runs, b, timer((now + 1) % 65536))
    for now, due in ((0, 0), (0, 2), (0, LAST), (5, 5), (5, 4), (5, 7), (5, 0), (5, 262), (261, 6), (LAST, LAST), (LAST, 1),
                     (LAST, 256), (65534, 0)):
        b = lone(where=ON_TIMER)
        yield accepted(call(TICK), b, timer(now, (3, 1, due)), 1, b, timer((now + 1) % 65536, (3, 1, due)))
    b = station(0, [(1, IWAT, 0x33)], [(1, ON_TIMER, 0x15, 1)])
    yield accepted(call(TICK), b, timer(0, (16, 1, 2)), 0, b, timer(1, (16, 1, 2)))
    b = station(2, [(1, READY, 0x33), (2, READY, 0x33)])    # who runs stays
    yield accepted(call(TICK), b, timer(0), 2, b, timer(1))


def ticks():
    """A tick that returns one message: a full placement at its SPTR task, and dispatch."""
    for now, due in ((0, 1), (254, 255), (255, 256), (65534, LAST), (LAST, 0)):
        for i in (1, 8, 16):
            t, t_after = timer(now, (i, 1, due)), timer(due)
            yield accepted(call(TICK), lone(where=ON_TIMER), t, 1, lone(where=65), t_after)
            waiting = station(0, [(1, WAIT, 0x33)], [(1, ON_TIMER, 0x15, 1)])       # nobody ran
            yield accepted(call(TICK), waiting, t, 1, lone(), t_after, delivered=1)
    for prio in (0x00, 0x14, 0xFC, 0xFD):                   # bit 0 is set then
        b = lone(prio=prio, where=ON_TIMER)
        yield accepted(call(TICK), b, timer(0, (1, 1, 1)), 1, lone(prio=prio | 1, where=65), timer(1))
    for m in (2, 64, 127, 128):
        yield accepted(call(TICK), lone(m, where=ON_TIMER), timer(0, (1, m, 1)), 1, lone(m, where=65), timer(1))
    timed, queued, held = [(1, ON_TIMER, 0x15, 2)], [(1, 66, 0x15, 2)], [(1, 2, 0x15, 2)]

    def returned(runs, one, other, runs_after, other_after, left=queued, delivered=0):
        before = station(runs, sorted([one, other], key=lambda k: k[2]), timed)
        after = station(runs_after, sorted([one, other_after], key=lambda k: k[2]), left)
        return accepted(call(TICK), before, timer(0, (1, 1, 1)), runs_after, after, timer(1), delivered)

    one = (1, READY, 0x33)
    yield returned(1, one, (2, WAIT, 0x33), 1, (2, MHBS, 0x33))             # an equal does not push it aside
    yield returned(1, one, (2, WAIT, 0x35), 1, (2, MHBS, 0x35))
    yield returned(1, one, (2, WAIT, 0x31), 2, (2, READY, 0x31), held, 1)   # a more urgent task runs and has it
    yield returned(1, one, (2, IWAT, 0x31), 1, (2, IWAT, 0x31))             # it waits for an interrupt still
    yield returned(2, one, (2, READY, 0x31), 2, (2, READY, 0x31))           # it did not wait: it may receive
    yield returned(0, (1, IWAT, 0x33), (2, IWAT, 0x33), 0, (2, IWAT, 0x33))
    yield returned(0, (1, WAIT, 0x33), (2, WAIT, 0x35), 2, (2, READY, 0x35), held, 1)


def ticks_of_several():
    """Several are due at once: placed in entry order, and only then it is asked who runs and what it is handed."""
    waits, runs, idle = [(1, WAIT, 0x33)], [(1, READY, 0x33)], (2, READY, 0x35)

    def returned(tasks, timed, entries, runs_after, tasks_after, left, delivered=0, left_entries=()):
        ran = next((k for k, stat, _ in tasks if stat == READY), 0)
        before = station(ran, tasks, [(m, ON_TIMER, prio, sptr) for m, prio, sptr in timed])
        after = station(runs_after, tasks_after, left)
        return accepted(call(TICK), before, timer(0, *entries), runs_after, after, timer(1, *left_entries), delivered)

    # rank differs from entry order: 5 comes first and 2 is handed over; alike where somebody else ran
    timed, entries = [(5, 0x21, 1), (2, 0x15, 1)], [(3, 5, 1), (7, 2, 1)]
    left = [(2, 1, 0x15, 1), (5, 65, 0x21, 1)]
    yield returned(waits, timed, entries, 1, runs, left, 2)
    yield returned([*waits, idle], timed, entries, 1, [*runs, idle], left, 2)
    yield returned(runs, timed, entries, 1, runs, [(2, 65, 0x15, 1), (5, 65, 0x21, 1)])
    # equals: FIFO in entry order, LIFO the other way round, and mixed
    entries = [(1, 9, 1), (2, 4, 1), (16, 6, 1)]
    for prios, queue in (((0x15, 0x15, 0x15), (9, 4, 6)), ((0x14, 0x14, 0x14), (6, 4, 9)), ((0x15, 0x14, 0x15), (4, 9, 6)),
                         ((0x14, 0x15, 0x14), (6, 9, 4)), ((0x17, 0x16, 0x15), (6, 4, 9)), ((0x15, 0x16, 0x17), (9, 4, 6))):
        timed = [(m, prio, 1) for m, prio in zip((9, 4, 6), prios)]
        prio_of = {m: prio | 1 for m, prio, _ in timed}
        yield returned(runs, timed, entries, 1, runs, [(m, 65, prio_of[m], 1) for m in queue])
        handed = [(m, 65 if m != queue[0] else 1, prio_of[m], 1) for m in queue]
        yield returned(waits, timed, entries, 1, runs, handed, queue[0])
    # two tasks wake: one dispatch, for the more urgent one, whichever entry comes first
    for entries in ([(1, 3, 1), (2, 4, 1)], [(1, 4, 1), (2, 3, 1)]):
        yield returned([(1, WAIT, 0x31), (2, WAIT, 0x35)], [(3, 0x15, 2), (4, 0x15, 1)], entries, 1,
                       [(1, READY, 0x31), (2, MHBS, 0x35)], [(3, 66, 0x15, 2), (4, 1, 0x15, 1)], 4)
    # one is due and others are not; all sixteen are
    timed, later = [(3, 0x15, 1), (4, 0x15, 1), (5, 0x15, 1)], [(1, 3, 2), (3, 5, 0)]
    left = [(3, ON_TIMER, 0x15, 1), (4, 65, 0x15, 1), (5, ON_TIMER, 0x15, 1)]
    yield returned(runs, timed, [*later, (2, 4, 1)], 1, runs, left, left_entries=later)
    for prio in (0x15, 0x14):
        timed, entries = [(m, prio, 1) for m in range(101, 117)], [(i, 100 + i, 1) for i in range(1, 17)]
        order = range(101, 117) if prio & 1 else range(116, 100, -1)
        yield returned(runs, timed, entries, 1, runs, [(m, 65, 0x15, 1) for m in order])
        handed = [(order[0], 1, 0x15, 1), *((m, 65, 0x15, 1) for m in order[1:])]
        yield returned(waits, timed, entries, 1, runs, handed, order[0])


def into_queues():
    """A message that is due goes among those that are queued already."""
    queue = [(1, 65, 0x11, 1), (2, 65, 0x15, 1), (3, 65, 0x15, 1), (4, 65, 0x19, 1)]
    for prio, spot in ((0x00, 0), (0x10, 0), (0x11, 1), (0x12, 1), (0x14, 1), (0x15, 3), (0x16, 3), (0x18, 3), (0x19, 4),
                       (0xFC, 4)):
        before = station(1, [(1, READY, 0x33)], [*queue, (9, ON_TIMER, prio, 1)])
        after = station(1, [(1, READY, 0x33)], [*queue[:spot], (9, 65, prio | 1, 1), *queue[spot:]])
        yield accepted(call(TICK), before, timer(0, (1, 9, 1)), 1, after, timer(1))


def buffers():
    """What is wrong with a timer buffer: 18 of both calls, whatever else; and what is not."""
    two_on_timer = lone(1, 0x15, 1, ON_TIMER, (2, ON_TIMER, 0x15, 1), (3, 1, 0x15, 1), (4, 65, 0x15, 1))
    good = timer(6, (1, 1, 9), (5, 2, 9))
    wrong = [good[:n] for n in (0, 1, 2, 3, 47, 48, 49)] + [good + bytes(n) for n in (1, 2, 3, 50, 1426)] + [good + b"\x01"]
    for i in (2, 8, 16):                                    # a free entry that isn't zero
        wrong += [timer(6, (1, 1, 9), (5, 2, 9), (i, 0, due)) for due in (1, 6, 7, 255, 256, LAST)]
    for m in (129, 130, 192, 255, 1, 2, 3, 4, 5, 128):      # beyond the board, twice, held, queued, free
        wrong += [timer(6, (1, 1, 9), (5, 2, 9), (i, m, due)) for i, due in ((2, 9), (16, 7), (16, 0))]
        if m > 2:
            wrong.append(timer(6, (1, 1, 9), (5, m, 9)))
    wrong += [timer(6), timer(6, (1, 1, 9)), timer(6, (5, 2, 9)), timer(6, (1, 1, 9), (5, 1, 9)), timer(6, (1, 0, 9), (5, 2, 9))]
    for t in wrong:
        yield refused(call(TICK), two_on_timer, t, 18)
        yield refused(start(3, 1), two_on_timer, t, 18)
        yield refused(start(3, 0), two_on_timer, t, 18)
    for t in (timer(6, (1, 1, 6), (5, 2, 9)), timer(6, (16, 1, 0), (15, 2, 6)), timer(0, (3, 2, 0), (4, 1, 0))):
        yield accepted(call(TICK), two_on_timer, t, 1, two_on_timer, changed(t, (0, t[0] + 1)))
    for used in ([(1, 1, 9)], [(16, 128, 0)]):              # a used entry, and nothing on the timer
        yield refused(call(TICK), FRESH_BOARD, timer(0, *used), 18)
        yield refused(start(1, 1), lone(), timer(0, *used), 18)
    for t in (b"", bytes(49), bytes(51)):
        yield refused(call(TICK), FRESH_BOARD, t, 18)
        yield refused(start(1, 1), FRESH_BOARD, t, 18)      # before 3
    timed = [(m, ON_TIMER, 0x15, 1) for m in range(1, 18)]  # more than sixteen
    crowd = station(1, [(1, READY, 0x33)], timed)
    yield refused(call(TICK), crowd, timer(0, *((m, m, 9) for m in range(1, 17))), 18)
    yield accepted(call(CHECK), crowd, None, 1, crowd, None)    # no buffer is lent


def lengths_and_rules():
    """Boards that are refused, whatever the timer buffer is; R4 of a message on the timer."""
    for n in (0, 1, 1475, 1477, 2854):
        for t in (timer(0), b"", bytes(49), timer(0, (1, 0, 1))):
            yield refused(call(TICK), bytes(n), t, 1)
            yield refused(start(1, 1), bytes(n), t, 1)
    for m in (1, 64, 128):
        good = lone(m, where=ON_TIMER)
        at = message(m)
        bad = [((at + 2, 1),), ((at + 3, 1),), ((at + 2, m),)]                          # LINK
        bad += [((at + 4, 33),), ((at + 5, 1),)]                                        # RPTR
        bad += [((at + 6, k),) for k in (0, 2, 32, 33, 255)] + [((at + 7, 1),)]         # SPTR: none, absent, beyond
        bad += [((at + 1, prio),) for prio in (0xFE, 0xFF)]                             # PRIO
        bad += [((place(m), where),) for where in (127, 129, 130, 192, 255)]
        for changes in bad:
            b = changed(good, *changes)
            yield refused(call(CHECK), b, None, 2, 4, m)
            for t in (timer(0, (1, m, 1)), timer(0), b""):
                yield refused(call(TICK), b, t, 2, 4, m)
            yield refused(start(m, 0), b, timer(0, (1, m, 1)), 2, 4, m)
        for changes in ((), ((at, 255),), ((at + 4, 32),), ((at + 4, 9),), ((at + 1, 0),), ((at + 1, 0xFC),), ((at + 1, 0xFD),)):
            b = changed(good, *changes)
            yield accepted(call(CHECK), b, None, 1, b, None)
            yield refused(call(CONVERT), changed(b, (RUNNING, 0)), None, 2, 4, m)       # an old board has none
            yield refused(call(CONVERT), b, None, 2, 1)


def other_calls():
    """The nineteen calls where messages are on the timer: not held, not queued, not free; and whose SPTR they name stays."""
    tasks = [(1, READY, 0x33), (2, READY, 0x35), (3, READY, 0x37)]
    timed = (1, ON_TIMER, 0x15, 2)
    b = changed(station(1, tasks, [timed, (3, 1, 0x15, 3)]), (message(1) + 4, 3))       # RPTR 3

    def made(asked, after, value=0, runs=1, before=b):
        return accepted(asked, before, None, runs, after, None, value=value)

    for kind in OF_HELD:
        yield refused(call(kind, 1, 1), b, None, 5)
    for r in (1, 2, 3):
        yield refused(call(CANCEL_MESSAGE, 1, r), b, None, 12)
    yield refused(call(CANCEL_MESSAGE, 1, 4), b, None, 6)
    yield made(call(CLAIM), changed(b, (place(2), 1)), value=2)
    all_timed = [(m, ON_TIMER, 0x15, 2) for m in range(1, 129)]
    yield refused(call(CLAIM), station(1, tasks, all_timed), None, 11)
    but_one = station(1, tasks, all_timed[:-1])
    yield made(call(CLAIM), changed(but_one, (place(128), 1)), value=128, before=but_one)
    yield refused(call(CANCEL_TASK, 2), b, None, 10)        # its message is on the timer
    yield refused(call(CANCEL_TASK, 1), b, None, 10)        # it holds one
    without_3 = changed(station(1, tasks[:2], [timed, (3, 1, 0x15, 3)]), (message(1) + 4, 3))
    yield made(call(CANCEL_TASK, 3), without_3)             # only RPTR and a held message name it
    alone = lone(where=ON_TIMER)
    yield refused(call(CANCEL_TASK, 1), alone, None, 10)
    yield made(call(FIND, 1), b)
    yield made(call(RECEIVE), b)
    yield made(call(POST, 2), changed(b, (task(2), 0x11)))
    yield made(call(WAIT_FOR_INTERRUPT), changed(b, (RUNNING, 2), (task(1), IWAT)), runs=2)
    yield made(call(RELEASE, 3), changed(b, (message(3) + 1, 0), (message(3) + 6, 0), (place(3), 0)))
    sent = ((task(2) + 4, 3), (message(3) + 4, 2), (place(3), 66))
    yield made(call(SEND, 3, 2), changed(b, *sent))
    yield made(call(SEND_AND_WAIT, 3, 2), changed(b, *sent, (RUNNING, 2), (task(1), WAIT)), runs=2)
    yield made(call(INSTALL, 4), changed(b, (task(1) + 2, 4), (task(4), READY), (task(4) + 1, 0x33), (task(4) + 2, 2)))
    yield made(call(FRESH), FRESH_BOARD, runs=0)            # the timer buffer is its caller's
    yield made(call(CHECK), b)


def cases():
    for group in (starts, refused_starts, quiet_ticks, ticks, ticks_of_several, into_queues, buffers, lengths_and_rules,
                  other_calls):
        yield from group()


def changes(mark, before, after):
    return "".join(f" {mark}{i}={after[i]}" for i in range(len(before)) if before[i] != after[i])


def main(cases_file, answers_file):
    with open(cases_file, "wb") as out, open(answers_file, "w") as said:
        for (kind, words), b, t, answer, after, t_after in cases():
            out.write(struct.pack("<HBHHHBB", len(b), kind, *words, READY, 0x33) + b)
            line = " ".join(map(str, answer)) + changes("", b, after)
            if kind in (START, TICK):
                out.write(struct.pack("<H", len(t)) + t)
                line += changes("t", t, t_after)
            said.write(line + "\n")


main(*sys.argv[1:])
