#!/usr/bin/env python3
"""drawn.py BOARD SVG [TIMER]: the picture is well-formed XML and has what the bytes of the board say, read here independently:
each task in queue order with number, name, priority and whether it runs, its queue in order, what it holds; the messages on the
timer, each with the task that it returns to, and with a timer buffer now and in how many ticks; and all within the page."""
import sys
import xml.etree.ElementTree as ElementTree

SVG = "{http://www.w3.org/2000/svg}"
ON_TIMER = 128  # the place of a message on the timer


def word(b, i):
    return b[i] + 256 * b[i + 1]


def of_tasks(b):
    """A row for each task, taken from the bytes."""
    rows, k = [], b[0]
    while k:
        at = 4 + 10 * (k - 1)
        name = "".join(chr(c) if 32 <= c < 127 else "." for c in b[at + 8:at + 10])
        queue, m = [], word(b, at + 4)
        while m:
            queue.append((m, b[324 + 8 * (m - 1) + 1] // 2))
            m = word(b, 324 + 8 * (m - 1) + 2)
        held = [(m, b[324 + 8 * (m - 1) + 1] // 2) for m in range(1, 129) if b[1347 + m] == k]
        rows.append((k, name, b[at + 1] // 2, k == b[1], queue, held))
        k = word(b, at + 2)
    return rows


def of_timer(b, timer):
    """Now, and of each message on the timer its number, priority, task and ticks; None for what only a buffer says, and where
    there is no row."""
    now = timer and word(timer, 0)
    left = {timer[at]: (word(timer, at + 1) - now - 1) % 65536 + 1 for at in range(2, 50, 3)} if timer else {}
    timed = [m for m in range(1, 129) if b[1347 + m] == ON_TIMER]
    messages = [(m, b[324 + 8 * (m - 1) + 1] // 2, word(b, 324 + 8 * (m - 1) + 6), left.get(m)) for m in timed]
    return (now, messages) if timer or timed else None


def moved(g):
    x, y = g.get("transform")[len("translate("):-1].split(",")
    return int(x), int(y)


def texts(g):
    return [t.text for t in g.findall(SVG + "text")]


def boxes(row, kind):
    """The words in each box of a kind, in the order of the picture."""
    found = [g for g in row.findall(SVG + "g") if g.get("class").split()[0] == kind]
    places = [moved(g)[::-1] for g in found]
    assert places == sorted(set(places)), f"{kind} boxes lie over each other or out of order"
    return list(map(texts, found))


def messages(row, kind):
    return [(int(number), int(priority[1:])) for number, priority in boxes(row, kind)]


def after(words, start):
    """The number in the text that begins so, None if there is none."""
    return next((int(t.split()[-1]) for t in words if t and t.startswith(start)), None)


def drawn_task(row, task):
    words = texts(task)
    k, name = words[:2]
    runs = "runs" in task.get("class").split()
    return int(k), name, after(words, "priority "), runs, messages(row, "queued"), messages(row, "held")


def drawn_timer(row, timer):
    """As of_timer has it. The timer's box also says how many there are."""
    timed = [(int(number), int(priority[1:]), int(back.removeprefix("back to ")), *(int(t.split()[0]) for t in ticks))
             for number, priority, back, *ticks in boxes(row, "timed")]
    assert after(texts(timer), "messages on the timer: ") == len(timed), "the number of messages on the timer is not so"
    return after(texts(timer), "now "), [message if message[3:] else (*message, None) for message in timed]


def height(box):
    return int(box.find(SVG + "rect").get("height"))


def of_picture(svg):
    """The rows of the tasks, and that of the timer, None where it has none."""
    tasks, timer, end = [], None, 0
    for row in svg.findall(SVG + "g")[:-1]:
        y = moved(row)[1]
        assert y > end, "two rows lie over each other"
        first, ground = row.find(SVG + "g"), row.find(SVG + "rect")
        end = y + int(ground.get("y")) + int(ground.get("height"))
        lowest = max([height(first)] + [moved(g)[1] + height(g) for g in row.findall(SVG + "g")[1:]])
        assert y + lowest <= end, "a box lies below its row"
        assert timer is None, "a row lies below the timer's"
        if first.get("class") == "timer":
            timer = drawn_timer(row, first)
        else:
            tasks.append(drawn_task(row, first))
    assert end < int(svg.get("height")), "a row lies below the page"
    return tasks, timer


def read(file):
    with open(file, "rb") as f:
        return f.read()


def main(board_file, svg_file, timer_file=None):
    b, timer = read(board_file), timer_file and read(timer_file)
    board = of_tasks(b), of_timer(b, timer)
    try:
        picture = of_picture(ElementTree.parse(svg_file).getroot())
    except (AssertionError, ElementTree.ParseError) as fault:
        sys.exit(f"{svg_file}: {fault}")
    if picture != board:
        sys.exit(f"{svg_file}: drawn {picture}, but the board has {board}")


main(*sys.argv[1:])
