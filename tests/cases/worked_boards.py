#!/usr/bin/env python3
"""Makes the cases of the worked boards in document 01 that carry no star, with the answers that the document gives: message 0
and 129, boards of 1,475 and 1,477 bytes, task 33. For every call that takes such an argument, from a lone task 1 that holds
message 1. Then who runs by document 02 (Ask 3), from two tasks.
usage: worked_boards.py CASES ANSWERS   (a case: length word, call of 9 bytes, board; an answer: a line of refusal, value,
running, delivered, rule, record and each byte that changed)"""
import struct
import sys

from layout import CHECK, CONVERT, FRESH, RUNNING, message, place, task

INSTALL, POST, FIND, CANCEL_TASK, CLAIM, SEND, SEND_AND_WAIT, RECEIVE_AND_WAIT, WAIT_FOR_INTERRUPT = 1, 2, 3, 4, 5, 8, 9, 17, 19
TAKE_MESSAGE = [6, 7, 8, 9, 10, 11, 12, 13, 14, 15, 18]
TAKE_RECEIVER = [8, 9, 12, 13, 18]
READY, WAIT, IWAT, INTQ, MHBS = 0x01, 0x81, 0x41, 0x11, 0x03  # STAT of a present task


def lone_task():
    b = bytearray(1476)
    b[0] = b[RUNNING] = 1
    b[4:6] = b"\x01\x33"
    b[1348] = 1
    return bytes(b)


def beyond():
    """What is beyond the board or its numbers, with the refusal."""
    board = lone_task()
    for kind in TAKE_MESSAGE:
        for m in (0, 129):
            yield board, kind, (m, 1, 0), 4
    for kind in (*range(20), FRESH, CONVERT):
        for wrong in (board[:-1], board + b"\0"):
            yield wrong, kind, (1, 1, 0), 1
    for kind in TAKE_RECEIVER:
        yield board, kind, (1, 33, 0), 6
    for kind in (POST, CANCEL_TASK):
        yield board, kind, (33, 0, 0), 6
    yield board, INSTALL, (33, 0, 0), 8


def samplers(runs, stats, prios=(0x33, 0x33), queued_at=None, held_by=None):
    """Two tasks in the order of their numbers; message 1 is queued at a task, and message 2 held by one."""
    b = bytearray(1476)
    b[0], b[RUNNING] = 1, runs
    for k, stat, prio in zip((1, 2), stats, prios):
        b[task(k):task(k) + 3] = stat, prio, 2 if k == 1 else 0
    if queued_at:
        b[task(queued_at) + 4], b[message(1) + 1], b[place(1)] = 1, 0x15, 64 + queued_at
    if held_by:
        b[message(2) + 1], b[place(2)] = 0x15, held_by
    return bytes(b)


def who_runs():
    """A call on two samplers, the running and the delivered task or message of its answer, and the bytes that it changes."""
    later, equal_due = samplers(2, (IWAT, READY)), samplers(2, (MHBS, READY), queued_at=1)
    yield later, POST, (1, 0, 0), (2, 0), {task(1): READY}              # an equal does not push it aside
    yield later, POST, (2, 0, 0), (2, 0), {task(2): INTQ}
    yield samplers(2, (IWAT, READY), (0x31, 0x33)), POST, (1, 0, 0), (1, 0), {RUNNING: 1, task(1): READY}
    yield samplers(0, (IWAT, IWAT)), POST, (2, 0, 0), (2, 0), {RUNNING: 2, task(2): READY}      # nobody ran
    yield samplers(2, (READY, READY)), WAIT_FOR_INTERRUPT, (0, 0, 0), (1, 0), {RUNNING: 1, task(2): IWAT}
    yield samplers(2, (READY, INTQ)), WAIT_FOR_INTERRUPT, (0, 0, 0), (2, 0), {task(2): READY}
    yield samplers(2, (READY, READY)), RECEIVE_AND_WAIT, (0, 0, 0), (1, 0), {RUNNING: 1, task(2): WAIT}
    yield later, RECEIVE_AND_WAIT, (0, 0, 0), (0, 0), {RUNNING: 0, task(2): WAIT}               # nobody is ready
    cancelled = {RUNNING: 1, task(1) + 2: 0, task(2): 0, task(2) + 1: 0}
    yield samplers(2, (READY, READY)), CANCEL_TASK, (2, 0, 0), (1, 0), cancelled
    yield samplers(2, (READY, READY)), CANCEL_TASK, (1, 0, 0), (2, 0), {0: 2, **{task(1) + i: 0 for i in range(3)}}
    for board, runs in ((later, 2), (equal_due, 2), (samplers(1, (READY, READY)), 1), (samplers(2, (READY, READY)), 2)):
        yield board, CHECK, (0, 0, 0), (runs, 0), {}
        yield board, FIND, (1, 0, 0), (runs, 0), {}
    third = {task(3): READY, task(3) + 1: 0x33}                         # a new task is behind its equals, or runs at once
    yield samplers(2, (READY, READY)), INSTALL, (3, 0, 0), (2, 0), {task(2) + 2: 3, **third}
    yield samplers(2, (READY, READY), (0x35, 0x35)), INSTALL, (3, 0, 0), (3, 0), {0: 3, RUNNING: 3, task(3) + 2: 1, **third}
    handed = {task(1): READY, task(1) + 4: 0, place(1): 1}              # it is due a message and gets it once it runs
    yield equal_due, WAIT_FOR_INTERRUPT, (0, 0, 0), (1, 1), {RUNNING: 1, task(2): IWAT, **handed}
    yield equal_due, POST, (1, 0, 0), (2, 0), {task(1): MHBS | INTQ}
    sent = {task(1) + 4: 2, message(2) + 4: 1, message(2) + 6: 2, place(2): 65}
    yield samplers(2, (WAIT, READY), held_by=2), SEND, (2, 1, 0), (2, 0), {task(1): MHBS, **sent}
    taken = {RUNNING: 1, task(1): READY, message(2) + 4: 1, message(2) + 6: 2, place(2): 1}
    yield samplers(2, (WAIT, READY), (0x31, 0x33), held_by=2), SEND, (2, 1, 0), (1, 2), taken
    own_due = samplers(2, (WAIT, READY), (0x31, 0x33), queued_at=2, held_by=2)  # outranked: its own message has to wait
    yield own_due, SEND_AND_WAIT, (2, 1, 0), (1, 2), {task(2): MHBS, **taken}
    own = {task(2) + 4: 0, place(1): 2}                                 # not outranked: it is handed its own
    yield samplers(2, (WAIT, READY), queued_at=2, held_by=2), SEND_AND_WAIT, (2, 1, 0), (2, 1), {task(1): MHBS, **sent, **own}


def cases():
    """Board, kind, words and the answer's line."""
    for board, kind, words, number in beyond():
        yield board, kind, words, f"{number} 0 0 0 0 0"
    for board, kind, words, (running, delivered), changes in who_runs():
        changed = "".join(f" {i}={v}" for i, v in sorted(changes.items()) if board[i] != v)
        yield board, kind, words, f"0 0 {running} {delivered} 0 0{changed}"
    yield samplers(0, (IWAT, IWAT)), CLAIM, (0, 0, 0), "3 0 0 0 0 0"
    yield samplers(1, (IWAT, READY)), CLAIM, (0, 0, 0), "2 0 0 0 7 1"


def main(cases_file, answers_file):
    with open(cases_file, "wb") as out, open(answers_file, "w") as said:
        for board, kind, words, answer in cases():
            out.write(struct.pack("<HBHHHBB", len(board), kind, *words, 0x01, 0x33) + board)
            said.write(answer + "\n")


main(*sys.argv[1:])
