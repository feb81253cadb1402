"""What goes on when a writer has died: the steps of docs/OPERATING.md by which a map moves to a new
store."""
from .canvas import Canvas

LEFT, RIGHT, FIRST, APART, HIGH = 210, 1184, 66, 62, 46
TITLE = "A writer has died: reads go on, and the map moves to a new store"
# When the writer dies, and when each step of the page begins.
DIES, STOP, PIN, LOAD, COMPARE, SWITCH = 290, 486, 556, 626, 733, 866
STEPS = [
    (DIES, "a writer dies"), (STOP, "1 stop"), (PIN, "2 pin"), (LOAD, "3 load"),
    (COMPARE, "4 compare"), (SWITCH, "5 switch, 6 add"),
]
# Of each lane its name, and what goes on: where it begins and ends, its style, and what it is.
LANES = [
    ("the dead thread", [
        (LEFT, DIES, "thin", "writes"), (DIES, RIGHT, "warm", "has the turn, the write lock, for good"),
    ]),
    ("other writers", [
        (LEFT, DIES, "thin", "write"), (DIES, STOP, "warm", "MST_BUSY, or wait"),
        (STOP, SWITCH, "dashed", "stopped; those that wait in mst_put stay"),
        (SWITCH, RIGHT, "thick", "write to the new one"),
    ]),
    ("readers", [
        (LEFT, SWITCH, "thin", "read, as fast as before"),
        (SWITCH, RIGHT, "thick", "read the new one"),
    ]),
    ("the spare pass", [
        (PIN, SWITCH, "thin", "pins the last version"),
    ]),
    ("the old store", [
        (LEFT, RIGHT, "thin", "keeps its memory until the process ends: one pass is never closed"),
    ]),
    ("the new store", [
        (LOAD, COMPARE, "thick", "one batch"), (COMPARE, SWITCH, "thick", "same digest?"),
        (SWITCH, RIGHT, "thick", "add the difference of numbers"),
    ]),
]
LOOKS = [
    ("thin", "the old store"), ("warm", "no more writes to the old store"),
    ("dashed", "no new writes are begun"),
    ("thick", "the new store, with a map of the same root digest"),
]
NOTES = [
    "Time goes from left to right.",
    "A sharded map moves likewise: a snapshot that a spare reader holds is copied into a new map.",
]


def draw_lane(canvas, top, name, parts):
    canvas.text(20, top + HIGH / 2 + 6, name, 17, bold=True, within=LEFT - 30)
    for begin, end, style, says in parts:
        canvas.box(begin, top, end - begin, HIGH, style)
        canvas.text(begin + 10, top + HIGH / 2 + 6, says, 16, within=end - begin - 14)


def picture():
    lower = FIRST + len(LANES) * APART
    canvas = Canvas("recovery", TITLE, lower + 224)
    for place, (x, says) in enumerate(STEPS):
        canvas.line([(x, FIRST - 14), (x, lower - 4)], "dashed")
        canvas.text(x, FIRST - 26, says, 16, "middle", bold=place == 0)
    for place, (name, parts) in enumerate(LANES):
        draw_lane(canvas, FIRST + place * APART, name, parts)
    canvas.lines(20, canvas.legend(20, lower + 32, LOOKS) + 4, NOTES)
    return canvas
