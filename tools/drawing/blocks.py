"""A block of two shards while it is prepared and published, and what snapshots have meanwhile."""
from .canvas import Canvas

LEFT, NAMES, END = 24, 140, 1172
FIRST, APART, HIGH = 102, 78, 46
# Where the writer begins the block, with the part of the first shard, where it begins that of the
# next, and where both are made.
BEGUN, NEXT, HASHED = 330, 445, 560
# Each lane: its name, what it has before and after, where its part is begun, and where it is
# published.
LANES = [
    ("directory", "block 6", "block 7", HASHED, 960),
    ("shard 0", "version 4", "version 5", BEGUN, 780),
    ("shard 1", "version 8", "version 9", NEXT, 870),
]
# The snapshots: where each is, what it is called, and whether it is of one block.
SNAPSHOTS = [
    (250, "a snapshot of block 6", True),
    (620, "another of block 6", True),
    (804, "no snapshot", False),
    (1010, "one of block 7", True),
]
# How much later a snapshot pins in each lane than in the one above.
LATER = 18
LOWER = FIRST + 3 * APART
LEGEND = [
    ("thin", "the version before: a snapshot taken before the next one is published pins it"),
    ("dashed", "the part that is being made, in free rows (memory cells)"),
    ("thick", "the version with the edits: published by one atomic step at its left end"),
]
# The looks of snapshots: the style of the line, its marks and theirs, and what it is.
TRIES = [
    ("dashed", "disc", "thin",
     "a snapshot of one block: it pins the directory first, and then shard by shard"),
    ("warm", "square", "warm",
     "a try while a block is published: a shard has another root digest than the directory lists"),
]


def draw_lane(canvas, top, lane):
    """A shard or the directory: its version before, the part that is made, and the one after."""
    name, before, after, begun, at = lane
    canvas.text(LEFT, top + HIGH / 2 + 6, name, 16, bold=True, within=NAMES - LEFT - 6)
    canvas.box(NAMES, top, at - NAMES, HIGH)
    canvas.text(NAMES + 8, top + HIGH - 9, before, 16)
    canvas.box(at, top, END - at, HIGH, "thick")
    canvas.text(END - 8, top + HIGH - 9, after, 16, "end")
    canvas.box(begun, top + 24, at - begun, HIGH - 24, "dashed")


def draw_snapshots(canvas):
    """The snapshots, each a line over all lanes with a mark in each."""
    down = FIRST + 12, FIRST + 12 + 2 * APART
    for first, text, is_whole in SNAPSHOTS:
        slope = LATER / APART
        ends = [(first - slope * 30, down[0] - 30), (first + 2 * LATER + slope * 40, down[1] + 40)]
        canvas.line(ends, "dashed" if is_whole else "warm")
        for lane in range(len(LANES)):
            mark, style = ("disc", "thin") if is_whole else ("square", "warm")
            canvas.mark(first + lane * LATER, down[0] + lane * APART, mark, 6, style)
        canvas.text(ends[0][0], FIRST - 26, text, 16, "middle", bold=not is_whole)


def draw_legend(canvas, top):
    """What boxes and lines mean, one below the other."""
    y = canvas.legend(LEFT, top, LEGEND)
    for line, mark, style, text in TRIES:
        canvas.line([(LEFT, y - 6), (LEFT + 52, y - 6)], line)
        canvas.mark(LEFT + 26, y - 6, mark, 6, style)
        canvas.text(LEFT + 68, y, text, 17)
        y += 36


def picture():
    title = "A block of two shards, by apply of the writer, and snapshots that are taken meanwhile"
    canvas = Canvas("blocks", title, LOWER + 44 + 36 * (len(LEGEND) + len(TRIES)))
    canvas.text(LEFT, 34, "Time", 16)
    canvas.line([(LEFT + 52, 28), (LEFT + 180, 28)], arrow=True)
    for place, lane in enumerate(LANES):
        draw_lane(canvas, FIRST + place * APART, lane)
    draw_snapshots(canvas)
    draw_legend(canvas, LOWER + 40)
    return canvas
