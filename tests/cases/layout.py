"""Where the records of a board lie, for the scripts beside this one: document 01, 'What the board holds'; where the entries of a
timer buffer lie (document 02, Ask 5); and the kinds of case that are none of the nineteen calls."""
TASKS, MESSAGES = 32, 128
RUNNING = 1  # the byte that names the running task (document 02, Ask 3)
ON_TIMER = 128  # the place of a message on the timer (Ask 5)
CHECK, START, TICK, CONVERT, FRESH = 0, 200, 201, 253, 254


def task(k):
    return 4 + 10 * (k - 1)


def message(m):
    return 324 + 8 * (m - 1)


def place(m):
    return 1348 + m - 1


def entry(i):
    return 2 + 3 * (i - 1)
