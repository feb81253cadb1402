"""The time of an edit by how many edits a block of a sharded map has, and of a put by how many puts
a transaction of LMDB has: the table of docs/OPERATING.md."""
import re
import sys

from .canvas import DARK_GREY, INK, LIGHT_GREY, TINT, Canvas
from .figures import cells_of, measured, page_of, whole
from .sizes import PAGE

LEFT, RIGHT, UPPER, LOWER, MOST = 92, 1180, 76, 396, 80
# The head of the table, by its first cell.
HEAD = "Edits"
# The cells of a row: edits, and twice two times.
TWO = r"([\d.]+) \(([\d.]+)\)"
ROW = rf"([\d,]+) {TWO} {TWO}"
TITLE = "In a block of {:,} an edit takes {:.2f} of the time of an edit alone (medians)"
# What was measured, by the page.
CONDITIONS = "1,000,000 keys, 32 shards, format 1."
# The columns, from left to right: what each is, and its fill.
WAYS = [
    ("an edit of a block: in the fastest block", INK),
    ("the same: the median of the blocks", TINT),
    ("a put of LMDB: in the fastest transaction", DARK_GREY),
    ("the same: the median", LIGHT_GREY),
]


def times():
    """By the number of edits: the microseconds of one, for each way."""
    _, found, table = page_of(PAGE).partition(f"\n{HEAD}|")
    if not found:
        sys.exit("docs/OPERATING.md has no table of blocks by their edits")
    for line in table.split("\n")[2:]:
        cells = re.fullmatch(ROW, " ".join(cells_of(line)))
        if not cells:
            break
        edits = whole(cells[1])
        yield edits, [float(it) * 1_000 / edits for it in cells.groups()[1:]]


def title_of(found):
    """The title, of the largest blocks."""
    (_, (_, alone, *_)), *_, (many, (_, largest, *_)) = found
    return TITLE.format(many, largest / alone)


def picture():
    found = list(times())
    canvas = Canvas("gathering", title_of(found), LOWER + 178)
    canvas.text(20, 36, "microseconds an edit, or a put", 17, bold=True)
    for part in range(5):
        y = LOWER - (LOWER - UPPER) * part / 4
        canvas.line([(LEFT, y), (RIGHT, y)], "faint" if part else "thin")
        canvas.text(LEFT - 8, y + 6, f"{MOST * part / 4:.0f}", 16, "end")
    wide = (RIGHT - LEFT) / len(found)
    for place, (edits, each) in enumerate(found):
        x = LEFT + place * wide + (wide - 56 * len(each)) / 2
        for time, (_, fill) in zip(each, WAYS):
            y = LOWER - (LOWER - UPPER) * time / MOST
            canvas.box(x + 2, y, 52, LOWER - y, "thin", fill)
            says = f"{time:.0f}" if time >= 10 else f"{time:.1f}"
            canvas.text(x + 28, y - 7, says, 16, "middle", halo=True)
            x += 56
        name = f"{edits:,} edits" if edits > 1 else "1 edit"
        canvas.text(LEFT + (place + 0.5) * wide, LOWER + 28, name, 17, "middle", bold=True)
    for place, (name, fill) in enumerate(WAYS):
        x, y = 20 + 560 * (place // 2), LOWER + 68 + 30 * (place % 2)
        canvas.box(x, y - 15, 26, 18, "thin", fill)
        canvas.text(x + 38, y, name, 16)
    canvas.lines(20, LOWER + 138, [*measured("OPERATING.md", HEAD), CONDITIONS])
    return canvas
