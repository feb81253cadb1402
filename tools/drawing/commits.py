"""A group commit in time: three threads that write blocks of a sharded map by one writer."""
from .canvas import Canvas

LEFT, NAMES, END = 20, 150, 1180
FIRST, APART, HIGH = 70, 74, 46
TITLE = "A group commit: what waits while one block is made becomes one block"
# When each block is published.
SEVEN, EIGHT, NINE = 460, 780, 1070
# How much later the thread has told others, and its call returns.
TELLING = 26
# Of each lane its name, and its parts: where each begins and ends, its style, and what it says.
LANES = [
    ("thread A", [
        (180, SEVEN + TELLING, "thick", "makes block 7: A's edits"),
        (640, EIGHT + TELLING, "dashed", "waits"),
        (EIGHT + TELLING + 10, NINE + TELLING, "thick", "makes block 9: A's"),
    ]),
    ("thread B", [
        (250, SEVEN + TELLING, "dashed", "waits"),
        (SEVEN + TELLING + 10, EIGHT + TELLING, "thick", "makes block 8: B's, C's"),
    ]),
    ("thread C", [
        (330, EIGHT + TELLING, "dashed", "waits, and once asked helps with block 8"),
    ]),
    ("the map", [
        (NAMES, SEVEN, "thin", "block 6"), (SEVEN, EIGHT, "thin", "block 7"),
        (EIGHT, NINE, "thin", "block 8"), (NINE, END, "thin", "block 9"),
    ]),
]
# When each block is published, and the lane of the thread that makes it.
PUBLISHED = [(SEVEN, 0), (EIGHT, 1), (NINE, 0)]
# What a thread is told when its call returns: the lane, the block's moment, and the number.
TOLD = [(0, SEVEN, 7), (1, EIGHT, 8), (2, EIGHT, 8), (0, NINE, 9)]
# Who posts to whom: after which moment, and the two lanes.
POSTS = [(SEVEN, 0, 1), (EIGHT, 1, 0), (EIGHT, 1, 2)]
LOWER = FIRST + len(LANES) * APART
LOOKS = [
    ("thick", "in mst_sharded_group_apply, and makes a block: one thread at a time"),
    ("dashed", "in mst_sharded_group_apply, and waits until it leads or its edits are made"),
    ("thin", "what a snapshot taken now shows"),
]
NOTES = ["At a dotted line a block is published; after that an arrow calls a thread or tells it."]


def picture():
    canvas = Canvas("commits", TITLE, LOWER + 162)
    canvas.text(LEFT, 34, "Time", 16)
    canvas.line([(LEFT + 52, 28), (LEFT + 180, 28)], arrow=True)
    for at, _ in PUBLISHED:
        canvas.line([(at, FIRST - 14), (at, LOWER - 8)], "dotted")
    for place, (name, parts) in enumerate(LANES):
        top = FIRST + place * APART
        canvas.text(LEFT, top + HIGH / 2 + 6, name, 17, bold=True, within=NAMES - LEFT - 6)
        for begin, end, style, says in parts:
            canvas.box(begin, top, end - begin, HIGH, style)
            canvas.text(begin + 10, top + HIGH / 2 + 6, says, 16, within=end - begin - 12)
    for at, lane in PUBLISHED:
        top = FIRST + lane * APART
        canvas.line([(at, top + 4), (at, top + HIGH - 4)], "dotted")
    for at, poster, posted in POSTS:
        down = poster < posted
        ends = [FIRST + poster * APART + HIGH * down, FIRST + posted * APART + HIGH * (not down)]
        x = at + TELLING / 2 + 1
        canvas.line([(x, ends[0]), (x, ends[1])], arrow=True)
    for lane, at, number in TOLD:
        top = FIRST + lane * APART
        x = at + TELLING + 10
        canvas.text(x, top + HIGH / 2 + 6, f"told {number}", 16, bold=True, halo=True)
    canvas.lines(LEFT, canvas.legend(LEFT, LOWER + 34, LOOKS) + 4, NOTES)
    return canvas
