#!/usr/bin/env python3
"""Makes claims on full and nearly full boards: none free, each message by itself the only free one, and whatever of a group of
four can be free, in the first group, one in the middle and the last. What is not free is held by one task, held by all in turn,
queued at all in turn, held and queued by turns, on the timer, or on the timer and queued by turns; each way another of the tasks
runs, which are equals. Written from documents 01 and 02 (Asks 2, 3 and 5) alone.
usage: full_boards.py CASES ANSWERS   (a case: length word, call of 9 bytes, board; an answer: a line of refusal, value,
running, delivered, rule, record and each byte that changed)"""
import struct
import sys

from layout import MESSAGES, ON_TIMER, RUNNING, TASKS, message, place, task

CLAIM = 5
# the running task, and the place of message m
WAYS = [(1, lambda m: 1), (32, lambda m: 1 + m % TASKS), (16, lambda m: 65 + m % TASKS),
        (2, lambda m: (65 if m % 3 else 1) + m // 7 % TASKS), (17, lambda m: ON_TIMER),
        (31, lambda m: ON_TIMER if m % 2 else 65 + m % TASKS)]


def board(running, way, free):
    """32 ready tasks in the order of their numbers; messages of one priority, in each queue in the order of their numbers."""
    b = bytearray(1476)
    b[0], b[RUNNING] = 1, running
    ends = {}
    for k in range(1, TASKS + 1):
        b[task(k):task(k) + 3] = 0x01, 0x33, k + 1 if k < TASKS else 0
        ends[k] = task(k) + 4
    for m in sorted(set(range(1, MESSAGES + 1)) - free):
        b[message(m) + 1], b[message(m) + 6], b[place(m)] = 0x33, 1 + m % TASKS, way(m)
        if 64 < way(m) < ON_TIMER:
            b[ends[way(m) - 64]] = m
            ends[way(m) - 64] = message(m) + 2
    return bytes(b)


def free_sets():
    yield set()
    yield set(range(1, MESSAGES + 1))
    yield from ({m} for m in range(1, MESSAGES + 1))
    for before in (0, 60, 124):
        yield from ({before + i for i in range(1, 5) if some >> i & 1} for some in range(2, 32, 2))


def main(cases_file, answers_file):
    with open(cases_file, "wb") as out, open(answers_file, "w") as said:
        for free in free_sets():
            for c, way in WAYS:
                b = board(c, way, free)
                out.write(struct.pack("<HBHHHBB", len(b), CLAIM, 0, 0, 0, 0, 0) + b)
                lowest = min(free, default=0)
                said.write(f"0 {lowest} {c} 0 0 0 {place(lowest)}={c}\n" if free else "11 0 0 0 0 0\n")


main(*sys.argv[1:])
