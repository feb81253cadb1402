"""The life of a row: its states, and the calls of the desk that lead from one to the next."""
import os
import sys

from .canvas import Canvas
from .maps import TOP

# Each state: its line style, what it is called, and what is said of it.
STATES = [
    ("dotted", "free", "no version reaches it:", "a write may take it"),
    ("thick", "taken", "filled word by word:", "only the writer sees it"),
    ("thin", "born", "published: its version", "and later ones reach it"),
    ("dashed", "dead", "the new version has it no", "more, earlier ones reach it"),
]
CALLS = ["take", "advance", "kill"]
LEGEND = [
    ("dotted", "may be written, by a write that takes it"),
    ("thick", "is being written, for the version to come"),
    ("thin", "is of the newest version"),
    ("dashed", "is only of versions before the new one"),
]
BOX, HIGH, FIRST, APART, TOP_EDGE = 150, 56, 105, 292, 104


def middle(state):
    return FIRST + BOX / 2 + state * APART


def see_that_calls_exist(names):
    with open(os.path.join(TOP, "crates", "mst_arena", "src", "desk.rt"), encoding="utf-8") as file:
        text = file.read()
    for name in names:
        if f"pub fn {name}(" not in text:
            sys.exit(f"the desk has no call {name}")


def draw_states(canvas):
    for index, (style, name, *lines) in enumerate(STATES):
        x = middle(index)
        canvas.box(x - BOX / 2, TOP_EDGE, BOX, HIGH, style, round=6)
        canvas.text(x, TOP_EDGE + 35, name, 20, "middle", bold=True)
        for number, line in enumerate(lines):
            canvas.text(x, TOP_EDGE + 84 + number * 22, line, 16, "middle", within=APART - 20)


def draw_onward(canvas, state):
    """An arrow from a state to the next one, with the call that leads there."""
    left, right = middle(state) + BOX / 2, middle(state + 1) - BOX / 2
    canvas.line([(left + 4, TOP_EDGE + 28), (right - 4, TOP_EDGE + 28)], arrow=True)
    place = ((left + right) / 2, TOP_EDGE + 16)
    canvas.text(*place, CALLS[state], 16, "middle", code=True, within=APART - BOX)


def draw_back(canvas, start, end):
    """An arrow above the states, by which a cancel takes back what was done for a version."""
    start, end, level = middle(start) - 20, middle(end) + 20, TOP_EDGE - 40
    points = [(start, TOP_EDGE - 2), (start, level), (end, level), (end, TOP_EDGE - 4)]
    canvas.line(points, arrow=True)
    canvas.text((start + end) / 2, level - 34, "undo", 16, "middle", code=True)
    canvas.text((start + end) / 2, level - 12, "of a batch that is cancelled", 16, "middle")


def draw_sweep(canvas):
    """The arrow from the last state round below to the first one."""
    start, end, level = middle(3), middle(0), TOP_EDGE + 124
    points = [(start, level), (start, level + 40), (end, level + 40), (end, level)]
    canvas.line(points, arrow=True)
    across = (start + end) / 2
    canvas.text(across, level + 30, "sweep", 16, "middle", code=True)
    says = "once no live version reaches it: neither the current one nor one that is pinned"
    canvas.text(across, level + 64, says, 16, "middle")


def picture():
    see_that_calls_exist([*CALLS, "sweep", "undo"])
    title = "The life of a row (memory cell), by the calls of the desk (allocator)"
    canvas = Canvas("row", title, 410)
    draw_states(canvas)
    for state in range(len(CALLS)):
        draw_onward(canvas, state)
    draw_back(canvas, 1, 0)
    draw_back(canvas, 3, 2)
    draw_sweep(canvas)
    for number, look in enumerate(LEGEND):
        canvas.legend(24 + 580 * (number % 2), 350 + 40 * (number // 2), [look])
    return canvas
