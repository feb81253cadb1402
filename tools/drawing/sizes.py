"""How many rows a shard needs, part by part: the worked example of docs/OPERATING.md."""
import re
import sys

from .canvas import DARK_GREY, INK, LIGHT_GREY, TINT, Canvas, width_of
from .figures import cells_of, measured, page_of, whole

PAGE = "OPERATING.md"
# The head of the page's table of measurements.
HEAD = "shards"
# The rows of the page's table that are drawn, by how they begin.
MAP, WRITE, ROWS, OPEN = "M, ", "W = ", "**rows = ", "rows to open"
LONG, SHORT = 3, 1  # L and S of the example
LEFT, RIGHT, UPPER, HIGH, APART = 150, 1130, 60, 54, 104
MOST, STEP = 65_535, 10_000
# The parts of a bar, from left to right: what each is, and its fill.
PARTS = [
    ("M: the rows of the map", INK),
    ("L × M: three versions that stay pinned, each with its own rows at worst", TINT),
    ("W: the rows of the write that is being made", DARK_GREY),
    ("S × W: the version before, which a short read may still need", LIGHT_GREY),
]
USED = "measured: the most rows in use in a shard of mean size, which has fewer keys than the fullest"
TITLE = "Most rows of a shard are for pinned versions"
OPENED = "the rows to open it with, at least a ninth more than it needs"


def numbers_of(page, first):
    """The numbers of a row of the table: of each cell the first."""
    for line in page.split("\n"):
        name, *cells = cells_of(line)
        if cells and name.startswith(first):
            return [whole(re.match(r"[\d,]+", it.strip("*"))[0]) for it in cells]
    sys.exit(f"docs/OPERATING.md has no row '{first}' in its worked example")


def used_at_most(page, shards):
    """The rows in use at most, by the table of measurements."""
    found = re.search(rf"\n{shards}\| [\d,]+\| ([\d,]+)\|", page)
    if not found:
        sys.exit(f"docs/OPERATING.md has no measurement of {shards} shards")
    return whole(found[1])


def example():
    """Of each number of shards: the rows of the map and of a write, of all, and of the store."""
    _, found, page = page_of(PAGE).partition("\n### A worked example\n")
    if not found:
        sys.exit("docs/OPERATING.md has no worked example")
    heads = re.search(r"\n[^|\n]*((?:\| \d+ shards)+)\n", page)[1]
    shards = [whole(it) for it in re.findall(r"(\d+) shards", heads)]
    for number, rows, write, all_rows, opened in zip(
        shards, *(numbers_of(page, first) for first in (MAP, WRITE, ROWS, OPEN))
    ):
        if (1 + LONG) * rows + (1 + SHORT) * write != all_rows:
            sys.exit(f"docs/OPERATING.md: the rows of {number} shards are not 4 M + 2 W")
        if 9 * opened < 10 * all_rows:
            sys.exit(f"docs/OPERATING.md: the alarm of {number} shards rings at once")
        yield number, rows, write, all_rows, opened, used_at_most(page, number)


def across(rows):
    return LEFT + (RIGHT - LEFT) * rows / MOST


def draw_scale(canvas, lower):
    for rows in [*range(0, MOST, STEP), MOST]:
        x = across(rows)
        canvas.line([(x, UPPER - 14), (x, lower)], "thin" if rows in (0, MOST) else "faint")
        if rows != MOST:
            canvas.text(x, lower + 24, f"{rows:,}", 16, "middle")
    canvas.text(RIGHT, UPPER - 24, "65,535: the most of a store", 16, "end")
    canvas.text(LEFT, UPPER - 24, "bars: rows that the fullest shard needs", 17, bold=True)


def draw_bar(canvas, y, number, rows, write, all_rows, opened, used):
    canvas.text(LEFT - 14, y + HIGH / 2 + 6, f"{number} shards", 17, "end", bold=True)
    place = 0
    for wide, (_, fill) in zip((rows, LONG * rows, write, SHORT * write), PARTS):
        canvas.box(across(place), y, across(place + wide) - across(place), HIGH, "thin", fill)
        place += wide
    below = y + HIGH + 26
    canvas.line([(across(used), y - 6), (across(used), y + HIGH + 8)], "warm")
    says = f"{used:,} in a mean shard"
    wide = width_of(says, 16)
    left = max(across(used) - wide, LEFT + 8)
    canvas.text(left + wide, below, says, 16, "end", halo=True, style="warm")
    next_to_it, says = left + wide + 12, f"needs {all_rows:,}"
    left = max(across(all_rows) - width_of(says, 16) / 2, next_to_it)
    canvas.line([(across(all_rows), y + HIGH), (across(all_rows), y + HIGH + 8)])
    canvas.text(left, below, says, 16, halo=True)
    canvas.line([(across(opened), y - 8), (across(opened), y + HIGH + 8)], "bold")
    says = f"open {opened:,}"
    if across(opened) + 8 + width_of(says, 16) < RIGHT:
        canvas.text(across(opened) + 8, y + HIGH / 2 + 6, says, 16, halo=True)
    else:
        canvas.text(RIGHT - 8, below, says, 16, "end", halo=True)


def picture():
    bars = list(example())
    lower = UPPER + len(bars) * APART
    canvas = Canvas("sizes", TITLE, lower + 258)
    draw_scale(canvas, lower)
    for place, bar in enumerate(bars):
        draw_bar(canvas, UPPER + 10 + place * APART, *bar)
    y = lower + 66
    for name, fill in PARTS:
        canvas.box(20, y - 15, 26, 18, "thin", fill)
        canvas.text(58, y, name, 16)
        y += 28
    canvas.line([(33, y - 17), (33, y + 5)], "warm")
    canvas.text(58, y, USED, 16)
    y += 28
    canvas.line([(33, y - 17), (33, y + 5)], "bold")
    canvas.text(58, y, OPENED, 16)
    canvas.lines(20, y + 36, [
        line.replace("Measured", "Measured, rows in use") for line in measured("OPERATING.md", HEAD)
    ])
    return canvas
