#!/usr/bin/env python3
"""Makes conversions of old boards, saved when byte 1 was zero and the first ready task in queue order ran: those that passed the
check of then, and what it refused, with its R1 (bytes 1 to 3) and its R7 (that task has MHBS 0). Written from documents 01 and 02
(Asks 1, 3 and 5) alone; the boards and the reading of R2 to R6 are those of damaged_boards.py.
usage: converted_boards.py CASES ANSWERS   (a case: length word, call of 9 bytes, board; an answer: a line of refusal, value,
running, delivered, rule, record and each byte that changed)"""
import random
import sys

from damaged_boards import (IWAT, MHBS, TCBB, WAIT, broken_records, changed, damages, damages_of_no_record, each_at_its_spots,
                            equals, full, of_the_timer, one_queue, ready, sound, spots)
from layout import CONVERT, ON_TIMER, RUNNING, TASKS, place, task


def old(b):
    return changed(b, [(RUNNING, 0)])


def broken(b):
    """What an old board breaks, as (rule, record), record 0 for R1 and R3."""
    out = broken_records(b, has_timer=False) | ({(1, 0)} if any(b[1:4]) else set())
    first = ready(b)[:1] if not out else []
    return out | {(7, k) for k in first if b[task(k)] & MHBS}


def due_boards():
    """Tasks that are due a message: the first ready one must not be, earlier or later ones may."""
    for k in spots(7):
        before = set(range(1, k))
        yield old(equals(0, due={k})), ((7, 1) if k == 1 else (0, 0))
        yield old(equals(0, due={k}, asleep=before)), (7, k)
        yield old(equals(0, due=range(k + 1, TASKS + 1), asleep=before)), (0, 0)
    yield changed(old(full()), [(task(1), TCBB | MHBS), (task(9), TCBB | WAIT)]), (6, 9)    # and R7


def cases():
    """Every board, with the rule and the record to be named, zeros for none, and None where it may be any."""
    boards = [bytearray(1476), sound(), full(), one_queue(), equals(1), equals(0, asleep=range(1, 33))]
    boards += [changed(full(), [(task(j), TCBB | IWAT) for j in range(1, k)] + [(RUNNING, k)]) for k in (2, 16, 32)]
    for b in boards:
        runs = b[RUNNING]
        yield old(bytearray(b)), (0, 0)
        yield b, ((1, 0) if runs else (0, 0))               # converted once, it is no old board any more
        for byte in (1, 32, 33, 64, 128, 255):
            yield changed(bytearray(b), [(RUNNING, byte)]), (1, 0)
    for i in (2, 3):
        yield changed(old(sound()), [(i, 1)]), (1, 0)
    for rule, record, changes in [*damages_of_no_record(), *damages()]:
        if rule in range(2, 7):
            yield old(changed(sound(), changes)), (rule, record)
            yield changed(sound(), changes), (1, 0)
    yield from ((old(b), named) for b, named in each_at_its_spots() if named[0] in range(2, 7))
    yield from due_boards()
    for b, _ in of_the_timer():                             # there was no such place
        yield old(b), (4, 1 + b[place(1):].index(ON_TIMER))
    rng = random.Random(1981)
    for _ in range(300):                                    # any byte of a sound board changed
        b = old(rng.choice((sound, full, one_queue, lambda: equals(1)))())
        for _ in range(rng.choice((1, 1, 2, 3))):
            b[rng.randrange(1476)] = rng.randrange(256)
        yield b, None


def main(cases_file, answers_file):
    alone = set()
    with open(cases_file, "wb") as out, open(answers_file, "w") as said:
        def emit(board, answer):
            out.write(bytes((len(board) % 256, len(board) // 256, CONVERT)) + bytes(8) + bytes(board))
            said.write(answer + "\n")
        for b, wanted in cases():
            found = broken(b)
            if wanted is not None:
                assert min(found, default=(0, 0)) == wanted, (wanted, found)
                alone.update(found if len(found) < 2 else ())
            if found:
                emit(b, "2 0 0 0 %d %d" % min(found))
            else:
                runs = (ready(b) or [0])[0]
                emit(b, f"0 0 {runs} 0 0 0" + (f" {RUNNING}={runs}" if runs else ""))
        for n in (0, 1, 4, 1475, 1477, 2854, 4000):         # wrong lengths
            emit(bytes(n), "1 0 0 0 0 0")
            emit(bytes([1]) * n, "1 0 0 0 0 0")
    assert alone >= {(1, 0), (3, 0)} | {(rule, spot) for rule in (2, 4, 5, 6, 7) for spot in spots(rule)}


main(*sys.argv[1:])
