"""Boards that pass the check, made from the rules R1 to R7 as `board check --help` lists them, and not by calls: the same every
time. None of them has a message on the timer, but there are ones like them that have. And the kinds of board that there are, so
that a test can say whether it met them all."""
import pathlib
import random
import struct
import sys

sys.path.append(str(pathlib.Path(__file__).resolve().parent / "cases"))
from layout import MESSAGES, ON_TIMER, RUNNING, TASKS, message, place, task

WAIT, IWAT, INTQ, DEBUG, MROB, MHBS, TCBB = 128, 64, 16, 8, 4, 2, 1
ASLEEP = WAIT | IWAT
# what rule 6 lets a task have of WAIT, IWAT, INTQ and MHBS, by whether it has a queue
ALLOWED = {False: (0, INTQ, WAIT, WAIT | INTQ, IWAT), True: (0, INTQ, MHBS, MHBS | INTQ, IWAT)}
UNUSED = (0, DEBUG, MROB, DEBUG | MROB)
TASK, MESSAGE = struct.Struct("<BBHHHH"), struct.Struct("<BBHHH")


def some(rng, most):
    """How many of so many: few, any number, nearly all, or all."""
    return min(most, rng.choice((1, 1 + rng.randrange(4), rng.randrange(most + 1), rng.randrange(most + 1), most - 1, most)))


def numbers(rng, least, most):
    """Priority numbers to choose from: one, so that all are equal, two, five, or all that there are."""
    return rng.sample(range(least, most + 1), rng.choice((1, 2, 5, most + 1 - least)))


def links(order):
    """Each of a queue with the one behind it, 0 behind the last."""
    return zip(order, [*order[1:], 0])


def placed(rng, present):
    """The messages queued at each task, and the holder of each that is held. Few tasks have them, or many; they are among the
    first of the board, or any."""
    queue, held = {k: [] for k in present}, {}
    having = rng.sample(present, max(1, some(rng, len(present)))) if present else present
    most, queued = rng.choice((4, 16, 48, MESSAGES)), rng.choice((0, 0.3, 0.8, 1))
    for m in rng.sample(range(1, most + 1), some(rng, most)) if having else []:
        k = rng.choice(having)
        if rng.random() < queued:
            queue[k].append(m)
        else:
            held[m] = k
    return queue, held


def statuses(rng, queue, number):
    """STAT of each task, and who runs. On three boards of ten all sleep."""
    all_sleep, sleepers = rng.random() < 0.3, rng.choice((0.2, 0.6, 0.9))
    stat = {}
    for k in queue:
        asleep = all_sleep or rng.random() < sleepers
        stat[k] = TCBB | rng.choice(UNUSED) | rng.choice([s for s in ALLOWED[bool(queue[k])] if bool(s & ASLEEP) == asleep])
    ready = [k for k in stat if not stat[k] & ASLEEP]
    least = min((number[k] for k in ready), default=0)
    runs = rng.choice([k for k in ready if number[k] == least]) if ready else 0
    if runs:
        stat[runs] &= ~MHBS
    return stat, runs


def any_board(rng):
    b = bytearray(1476)
    present = rng.sample(range(1, TASKS + 1), some(rng, TASKS))
    among, queued_among = numbers(rng, 1, 126), numbers(rng, 0, 126)
    number = {k: rng.choice(among) for k in present}
    queue, held = placed(rng, present)
    stat, b[RUNNING] = statuses(rng, queue, number)
    ends = rng.choice((range(1), present or range(1), range(TASKS + 1)))  # whom RPTR and SPTR name

    def put_message(m, prio, link, where):
        MESSAGE.pack_into(b, message(m), rng.randrange(256), prio, link, rng.choice(ends), rng.choice(ends))
        b[place(m)] = where

    for m, k in held.items():
        put_message(m, rng.choice((0xFF, 0xFE, rng.randrange(256))), 0, k)
    order = sorted(present, key=number.get)
    b[0] = next(iter(order), 0)
    for k, behind in links(order):
        prio = {m: 1 + 2 * rng.choice(queued_among) for m in queue[k]}
        queue[k].sort(key=prio.get)
        for m, link in links(queue[k]):
            put_message(m, prio[m], link, 64 + k)
        words = behind, next(iter(queue[k]), 0), rng.randrange(65536), rng.randrange(65536)
        TASK.pack_into(b, task(k), stat[k], 1 + 2 * number[k], *words)
    return bytes(b)


def passing_boards(count):
    """So many different ones."""
    rng, boards = random.Random(1980), {}
    while len(boards) < count:
        boards[any_board(rng)] = None
    return list(boards)


def timed(b):
    """The board with every held message on the timer that rule 4 lets be there, and the lowest of these, 0 if there is none."""
    board, lowest = bytearray(b), 0
    for m in range(MESSAGES, 0, -1):
        _, prio, _, _, sptr = MESSAGE.unpack_from(b, message(m))
        if 0 < b[place(m)] < 64 and prio < 0xFE and sptr and b[task(sptr)]:
            board[place(m)], lowest = ON_TIMER, m
    return bytes(board), lowest


def queue_order(b, tasks):
    order, k = [], b[0]
    while k:
        order.append(k)
        k = tasks[k][2]
    return order


def kinds(b):
    """The kinds of board that there are to meet, each with whether this one is of it."""
    tasks = {k: TASK.unpack_from(b, task(k)) for k in range(1, TASKS + 1) if b[task(k)]}
    used = {m: MESSAGE.unpack_from(b, message(m)) for m in range(1, MESSAGES + 1) if b[place(m)]}
    lengths = {k: sum(b[place(m)] == 64 + k for m in used) for k in tasks}
    held = {m: used[m][1] for m in used if b[place(m)] < 64}
    order, runs = queue_order(b, tasks), b[RUNNING]
    before = [tasks[k][0] for k in order[:order.index(runs)] if tasks[k][1] == tasks[runs][1]] if runs else []
    different = len({prio for _, prio, *_ in tasks.values()})
    stats = {(tasks[k][0] & ~TCBB, lengths[k] > 0) for k in tasks}
    return {f"a task with STAT {s | u | TCBB:02X}H, {'with a queue' if queue else 'without a queue'}": (s | u, queue) in stats
            for queue in ALLOWED for s in ALLOWED[queue] for u in UNUSED} | {
        "no task": not tasks, "one task": len(tasks) == 1, "32 tasks": len(tasks) == TASKS,
        "all priorities equal": different == 1 < len(tasks), "all priorities different": 1 < different == len(tasks),
        "no message used": not used, "every message used": len(used) == MESSAGES,
        "a free message before one that is used": len(used) < max(used, default=0),
        "RPTR of an absent task": any(u[3] and u[3] not in tasks for u in used.values()),
        "SPTR of an absent task": any(u[4] and u[4] not in tasks for u in used.values()),
        "RPTR of its holder": any(used[m][3] == b[place(m)] for m in held),
        "a held message with an even PRIO": any(prio % 2 == 0 and prio < 0xFE for prio in held.values()),
        "a held message with PRIO FEH": 0xFE in held.values(), "a held message with PRIO FFH": 0xFF in held.values(),
        "a queue of 20": 20 <= max(lengths.values(), default=0), "a queue of 128": MESSAGES in lengths.values(),
        "nobody runs": not runs, "a queue, and nobody runs": not runs and any(lengths.values()),
        "who runs has a queue": runs and lengths[runs] > 0,
        "an equal with MHBS before who runs": any(s & MHBS for s in before),
        "an equal that sleeps before who runs": any(s & ASLEEP for s in before)}
