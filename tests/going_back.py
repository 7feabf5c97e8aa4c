"""The past of a board by going back, line by line as crates/past/specs/Past.antt has it, on records in Python: what tests/past
holds the program past_board to, which reads the same calls off the board forwards. A call is its words, as past_board tells it."""
import pathlib
import struct
import sys

sys.path.append(str(pathlib.Path(__file__).resolve().parent / "cases"))
from layout import MESSAGES, RUNNING, TASKS, message, place, task

WAIT, IWAT, INTQ, MHBS, TCBB = 0x80, 0x40, 0x10, 0x02, 0x01
GUEST_STAT, GUEST_PRIO = 0x01, 0xFD
TASK, OF_TASK = struct.Struct("<BBHHHH"), ("stat", "prio", "link", "mptr", "sptr", "name")
MESSAGE, OF_MESSAGE = struct.Struct("<BBHHH"), ("stat", "prio", "link", "rptr", "sptr")


class Board:
    """The records of a board by their numbers, and a place byte for each message."""

    def __init__(self, data):
        self.first, self.running = data[0], data[RUNNING]
        self.tasks = {k: dict(zip(OF_TASK, TASK.unpack_from(data, task(k)))) for k in range(1, TASKS + 1)}
        self.messages = {m: dict(zip(OF_MESSAGE, MESSAGE.unpack_from(data, message(m)))) for m in range(1, MESSAGES + 1)}
        self.places = {m: data[place(m)] for m in range(1, MESSAGES + 1)}

    def has(self, k, bit):
        return bool(self.tasks[k]["stat"] & bit)

    def ready(self, k):
        return self.has(k, TCBB) and not self.has(k, WAIT) and not self.has(k, IWAT)

    def walk(self, records, x):
        while x:
            yield x
            x = records[x]["link"]

    def order(self):
        return list(self.walk(self.tasks, self.first))

    def queue(self, k):
        return list(self.walk(self.messages, self.tasks[k]["mptr"]))

    def relink(self, records, numbers):
        for x, follower in zip(numbers, numbers[1:] + [0]):
            records[x]["link"] = follower
        return numbers[0] if numbers else 0

    def sets(self, k, bit):
        self.tasks[k]["stat"] |= bit

    def clears(self, k, bit):
        self.tasks[k]["stat"] &= ~bit

    def cancel_message(self, c, m, k):
        self.tasks[k]["mptr"] = self.relink(self.messages, [x for x in self.queue(k) if x != m])
        self.messages[m]["link"], self.places[m] = 0, c
        if self.has(k, MHBS) and self.tasks[k]["mptr"] == 0:
            self.clears(k, MHBS)
            self.sets(k, WAIT)

    def install(self, k, stat, prio):
        order = self.order()
        at = next((i for i, x in enumerate(order) if prio // 2 < self.tasks[x]["prio"] // 2), len(order))
        self.tasks[k] = {"stat": stat, "prio": prio, "link": 0, "mptr": 0, "sptr": 0, "name": 0}
        self.first = self.relink(self.tasks, order[:at] + [k] + order[at:])

    def cancel_task(self, k):
        self.first = self.relink(self.tasks, [x for x in self.order() if x != k])
        self.tasks[k] = dict.fromkeys(self.tasks[k], 0)

    def release(self, m):
        self.messages[m], self.places[m] = dict.fromkeys(self.messages[m], 0), 0


# ---- the lines: each changes the board to the earlier one, and gives the calls that lead from there
def posted(b, k):
    if not b.has(k, INTQ):
        return []
    b.clears(k, INTQ)
    return [f"post {k}"]


def stopped(b):
    k = next((k for k in range(1, TASKS + 1) if b.tasks[k]["mptr"]), 0)
    if b.running or not k:
        return []
    b.clears(k, IWAT)
    b.running = k
    return ["wait for interrupt"]


def queued(b, k):
    calls = []
    for m in reversed(b.queue(k)):
        b.cancel_message(b.running, m, k)
        calls.insert(0, f"forward {m} to {k}")
    return calls


def readied(b, k):
    if not b.ready(k) or k == b.running:
        return []
    b.sets(k, IWAT)
    return [f"post {k}"]


def started(b):
    c = b.running
    if not c:
        return []
    b.sets(c, IWAT)
    b.running = 0
    return [f"post {c}"]


def waited(b, k):
    if not b.has(k, WAIT):
        return []
    b.clears(k, WAIT)
    b.sets(k, IWAT)
    return [f"post {k}", "receive and wait"]


def left(b, k):
    if b.has(k, TCBB) or all(u["rptr"] != k for u in b.messages.values()):
        return []
    b.install(k, GUEST_STAT, GUEST_PRIO)
    b.sets(k, IWAT)
    return [f"post {k}", f"cancel task {k}"]


def released(b, m):
    holder = b.places.get(m + 1, 0)
    if b.places[m] or not holder:
        return []
    b.places[m] = holder
    return [f"post {holder}", f"release {m}", "wait for interrupt"]


def claimed(b, m):
    u, holder = b.messages[m], b.places[m]
    if not holder:
        return []
    b.release(m)
    there = [f"send {m} to {u['rptr']}", f"cancel message {m} at {u['rptr']}"] if u["rptr"] else []
    prepare = f"prepare {m} stat {u['stat']:02X}H prio {u['prio']:02X}H sptr {u['sptr']}"
    return [f"post {holder}", "claim", *there, prepare, "wait for interrupt"]


def installed(b, k):
    t = b.tasks[k]
    words = f"install {k} stat {t['stat'] & ~IWAT:02X}H prio {t['prio']:02X}H sptr {t['sptr']:04X}H name {t['name']:04X}H"
    b.cancel_task(k)
    return [words, "wait for interrupt"]


def sweep(line, n):
    """Back over the numbers n to 1."""
    return lambda b: sum(reversed([line(b, k) for k in range(n, 0, -1)]), [])


def through(*lines):
    """The lines one after the other; the calls of the last come first."""
    return lambda b: sum(reversed([line(b) for line in lines]), [])


WAY_BACK = through(
    sweep(posted, TASKS), stopped, sweep(queued, TASKS), sweep(readied, TASKS), started, sweep(waited, TASKS), sweep(left, TASKS),
    sweep(released, MESSAGES), sweep(claimed, MESSAGES), lambda b: sum(reversed([installed(b, k) for k in reversed(b.order())]), []))


def past(data):
    """The calls that lead from the fresh board to the board of these bytes, which passes and has no message on the timer."""
    b = Board(data)
    calls = WAY_BACK(b)
    assert not b.first and not b.running and not any(b.places.values()), "the way back does not end at the fresh board"
    return calls
