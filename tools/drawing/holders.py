"""Who holds what: threads, hands and passes of one store, with its turn, its versions and its pins;
and the writer, a group, a snapshot and a reader of a sharded map."""
from .canvas import LIGHT_GREY, Canvas

THREAD, HAND, OUTER = (20, 120), (180, 250), (490, 694)
RIGHT = sum(OUTER) - 24
HIGH, APART, FIRST = 46, 64, 66
# Where the turn, the versions and the rows of the store stand from left to right.
TURN, VERSION = (514, 200), 792
TITLE = "Who holds what in a store and in a sharded map"
# Of each thread of the store: its name, and what its hand has.
THREADS = [
    ("thread A", ("pass 1", "has the turn")),
    ("thread B", ("pass 2", "waits in mst_put")),
    ("thread C", ("pass 3", "reads")),
    ("thread D", ("pass 4", "pinned")),
    (None, ("pass 5", "spare: to watch")),
]
SECOND = FIRST + len(THREADS) * APART + 96
# The lanes of the sharded map, and where the versions of three blocks stand.
LANES, NAMES, WIDE = ["directory", "shard 0", "shard 1", "shard 2"], 696, 90
OLD, LAST, NEXT = 818, 938, 1058
LANE, STEP, LANES_FROM = 36, 50, 48
# Where the line of the snapshot turns down, between its text and the names of the lanes.
TURNS = 706
LOOKS = [
    ("thick", "the current version, the last block: what a read that begins now sees"),
    ("thin", "an older version, which a pin keeps"),
    ("dashed", "what is being made, in free rows that nobody sees"),
    ("thin", "the right to write: one pass or one thread at a time has it", LIGHT_GREY),
]
# What each kind of arrow means.
ARROWS = [("thin", "uses, makes or pins"), ("dashed", "waits for the turn")]


def draw_hand(canvas, top, thread, says):
    """A thread, its hand, and what the hand has."""
    if thread:
        canvas.box(THREAD[0], top, THREAD[1], HIGH, round=8)
        canvas.text(THREAD[0] + 14, top + 29, thread, 17)
        canvas.line([(sum(THREAD), top + HIGH / 2), (HAND[0], top + HIGH / 2)], arrow=True)
    canvas.box(HAND[0], top, HAND[1], HIGH)
    canvas.text(HAND[0] + 12, top + 29, says[0], 17, bold=True)
    canvas.text(HAND[0] + 84, top + 29, says[1], 16, within=HAND[1] - 90)


def draw_heads(canvas, y, heads):
    for x, text in heads:
        canvas.text(x, y, text, 17, bold=True)


def draw_store(canvas):
    tops = [FIRST + place * APART for place in range(len(THREADS))]
    draw_heads(canvas, FIRST - 22, [(THREAD[0], "threads"), (HAND[0], "hands (mst_pass)"),
                                    (OUTER[0], "one store, opened with five passes")])
    canvas.box(OUTER[0], FIRST - 8, OUTER[1], len(THREADS) * APART, round=8)
    for top, (thread, says) in zip(tops, THREADS):
        draw_hand(canvas, top, thread, says)
    left, wide = TURN
    canvas.box(left, tops[0], wide, APART + HIGH, fill=LIGHT_GREY, round=6)
    canvas.text(left + 14, tops[0] + 32, "turn", 18, bold=True)
    for line, text in enumerate(("write lock: one pass", "at a time writes")):
        canvas.text(left + 14, tops[0] + 62 + 24 * line, text, 16, within=wide - 18)
    versions = [(tops[0], "dashed", "version 43", "is being made"),
                (tops[2], "thick", "version 42", "current"),
                (tops[3], "thin", "version 41", "pinned by pass 4")]
    for top, style, name, says in versions:
        canvas.box(VERSION, top, RIGHT - VERSION, HIGH, style)
        canvas.text(VERSION + 12, top + 29, name, 17, bold=True)
        canvas.text(VERSION + 128, top + 29, says, 16)
    canvas.box(left, tops[4], RIGHT - left, HIGH)
    canvas.text(left + 14, tops[4] + 29,
                "rows (memory cells): as many as it was opened with", 16, within=RIGHT - left - 20)
    middle = HIGH / 2
    hand, after = sum(HAND), left + wide
    canvas.line([(hand, tops[0] + middle), (left, tops[0] + middle)], arrow=True)
    canvas.line([(hand, tops[1] + middle), (left, tops[1] + middle)], "dashed", arrow=True)
    canvas.line([(after, tops[0] + middle), (VERSION, tops[0] + middle)], arrow=True)
    for row, says in ((2, "a pin for one call"), (3, "a pin until mst_unpin")):
        canvas.line([(hand, tops[row] + middle), (VERSION, tops[row] + middle)], arrow=True)
        canvas.text(left + 14, tops[row] + middle - 8, says, 16)


def draw_blocks(canvas, top):
    """The directory and the shards, each with its versions of three blocks."""
    blocks = (OLD, "block 6", "thin"), (LAST, "block 7", "thick"), (NEXT, "block 8", "dashed")
    for x, name, style in blocks:
        high = (len(LANES) - 1) * STEP + LANE
        canvas.box(x - 10, top + LANES_FROM - 10, WIDE + 20, high + 20, "faint", round=8)
        canvas.text(x + 8, top + LANES_FROM - 16, name, 17, bold=True)
        for place in range(len(LANES)):
            canvas.box(x, top + LANES_FROM + place * STEP, WIDE, LANE, style)
    for place, lane in enumerate(LANES):
        canvas.text(NAMES + 98, top + LANES_FROM + place * STEP + 24, lane, 17, "end")


def draw_map(canvas):
    top = SECOND
    draw_heads(canvas, top - 22, [(THREAD[0], "threads"), (HAND[0], "hands (mst_handle)"),
                                  (OUTER[0], "a sharded map, opened with three hands")])
    rows = [top + place * APART for place in range(5)]
    canvas.box(OUTER[0], top - 8, OUTER[1], 5 * APART, round=8)
    for name, y in zip(("thread E", "thread F", "thread G", "thread H", "thread I"), rows):
        canvas.box(THREAD[0], y, THREAD[1], HIGH, round=8)
        canvas.text(THREAD[0] + 14, y + 29, name, 17)
        canvas.line([(sum(THREAD), y + HIGH / 2), (HAND[0], y + HIGH / 2)], arrow=True)
    canvas.box(HAND[0], rows[0], HAND[1], 2 * APART + HIGH, fill=LIGHT_GREY, round=6)
    canvas.text(HAND[0] + 12, rows[0] + 32, "the writer, in a group", 17, bold=True)
    for line, text in enumerate(("taken out of the first", "hand: one of its threads",
                                 "makes each block, with", "the edits of those that", "wait")):
        canvas.text(HAND[0] + 12, rows[0] + 62 + 24 * line, text, 16, within=HAND[1] - 16)
    held = (rows[3], "snapshot", "of block 6"), (rows[4], "reader", "get, snapshot")
    for y, name, says in held:
        canvas.box(HAND[0], y, HAND[1], HIGH)
        canvas.text(HAND[0] + 12, y + 29, name, 17, bold=True)
        canvas.text(HAND[0] + 112, y + 29, says, 16)
    draw_blocks(canvas, top)
    hand, left = sum(HAND), OUTER[0] + 24
    low = top + LANES_FROM + 3 * STEP + LANE  # where the boxes of the last lane end
    y, x = rows[0] + 6, NEXT + WIDE + 2
    canvas.line([(hand, y), (x, y), (x, top + LANES_FROM - 10)], arrow=True)
    for line, says in enumerate(("makes block 8: the shards", "first, the directory last")):
        canvas.text(left, y + 22 + 24 * line, says, 16)
    y, below, x = rows[3] + HIGH / 2, low + 30, OLD + WIDE / 2
    canvas.line([(hand, y), (TURNS, y), (TURNS, below), (x, below), (x, low + 11)], arrow=True)
    for line, says in enumerate(("pins the directory", "and each shard")):
        canvas.text(left, y - 33 + 24 * line, says, 16, within=TURNS - left - 4)
    y, x = low + 54, LAST + WIDE / 2
    canvas.line([(hand, y), (x, y), (x, low + 2)], arrow=True)
    for line, says in enumerate(("a get: the current", "version of one shard")):
        canvas.text(left, y - 33 + 24 * line, says, 16, within=TURNS - left - 4)


def picture():
    lower = SECOND + 5 * APART
    canvas = Canvas("holders", TITLE, lower + 36 + 36 * len(LOOKS + ARROWS))
    draw_store(canvas)
    draw_map(canvas)
    y = canvas.legend(20, lower + 36, LOOKS)
    for style, text in ARROWS:
        canvas.line([(20, y - 6), (72, y - 6)], style, arrow=True)
        canvas.text(88, y, text, 17)
        y += 36
    return canvas
