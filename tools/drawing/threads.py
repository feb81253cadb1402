"""Gets a second by the number of readers of one store, and how even its writers are, by their
number, from docs/pictures/threads.tsv, by bench/store/run."""
import os
import sys

from .canvas import DARK_GREY, INK, LIGHT_GREY, TINT, Canvas
from .figures import measured_each, page_of, row
from .maps import TOP

UPPER, LOWER = 76, 450
# For readers and writers: where their columns begin and end from left to right, what is drawn, and
# for each way of theirs what it is called, in the table of docs/STORE_C.md too. Reads are blue,
# writes grey.
PANELS = {
    "readers": (112, 560, "gets a second, in millions", {
        "held": ("of a pinned version", INK),
        "newest": ("of the newest version", TINT),
        "beside": ("of the newest version, while another thread puts", "white"),
    }),
    "writers": (664, 1184, "the slowest writer's puts, % of the mean of all", {
        "before": ("`mst_put`, without the queue", LIGHT_GREY),
        "line": ("`mst_put`, with the queue", DARK_GREY),
        "mutex": ("a mutex around `mst_try_put`", "white"),
    }),
}
TITLE = "Gets of a pinned version grow with the readers; the queue keeps writers even"
LEAST = "the least of the five runs (column: their median)"
# What was measured, by the page.
CONDITIONS = "One store of 1,000 keys, four processors."
# The heads of the tables that are drawn: what the page says above them is said below the picture.
HEADS = {"gets a second, by readers": "readers", "puts a second, by writers": "writers"}


def figures():
    """For readers and writers, by way and number of threads: calls a second, and what stands in
    brackets in the table."""
    found = {who: {} for who in PANELS}
    with open(os.path.join(TOP, "docs", "pictures", "threads.tsv"), encoding="ascii") as lines:
        for line in list(lines)[1:]:
            who, how, threads, calls, beside = line.rstrip("\n").split("\t")
            found[who].setdefault(how, {})[int(threads)] = (int(calls), beside)
    return found


def see_that_the_page_tells_them(found, page):
    """Refuses figures of which docs/STORE_C.md has other rows."""
    for who, (*_, ways) in PANELS.items():
        for how, each in found[who].items():
            cells = [
                f"{calls:,} ({beside})" if beside else f"{calls:,}"
                for calls, beside in each.values()
            ]
            if row(ways[how][0], *cells) not in page:
                sys.exit(f"docs/STORE_C.md has other figures of {who} ({how}) than threads.tsv")


def columns(who, each):
    """By number of threads the height of the column, its text, and the height of its mark, if it
    has one. A lone writer is no slower than another, so it has no column."""
    if who == "readers":
        return {it: (calls / 1e6, f"{calls / 1e6:.1f}", None) for it, (calls, _) in each.items()}
    found = {}
    for threads, (_, beside) in each.items():
        if beside:
            median, least = (int(it.removesuffix(" %")) for it in beside.split(", "))
            found[threads] = median, f"{median}", least
    return found


# Where a scale may end: numbers whose quarters are short.
ENDS = (1, 1.2, 1.6, 2, 2.4, 3.2, 4, 4.8, 6, 8, 10)


def end_of(number):
    """Where a scale ends that has a number on it."""
    power = 10 ** (len(str(int(number))) - 1)
    return next(it * power for it in ENDS if it * power >= number)


def draw_scale(canvas, left, right, most):
    """Lines across, at four parts of the greatest number."""
    for part in range(5):
        y = LOWER - (LOWER - UPPER) * part / 4
        canvas.line([(left, y), (right, y)], "faint" if part else "thin")
        canvas.text(left - 8, y + 6, f"{most * part / 4:,.10g}", 16, "end")


def draw_columns(canvas, left, right, most, ways, found):
    """For each number of threads a column for each way."""
    numbers = sorted({it for each in found.values() for it in each})
    wide = (right - left) / len(numbers)
    column = min(60, (wide - 12) / len(found))
    for place, number in enumerate(numbers):
        x = left + place * wide + (wide - column * len(found)) / 2
        for how, each in found.items():
            high, says, mark = each[number]
            y = LOWER - (LOWER - UPPER) * high / most
            canvas.box(x + 2, y, column - 4, LOWER - y, "thin", ways[how][1])
            canvas.text(x + column / 2, y - 7, says, 16, "middle", halo=True)
            if mark is not None:
                y = LOWER - (LOWER - UPPER) * mark / most
                canvas.mark(x + column / 2, y, "ring", 6)
            x += column
        canvas.text(left + (place + 0.5) * wide, LOWER + 28, f"{number}", 17, "middle", bold=True)


def draw_legend(canvas, left, ways, found):
    for number, how in enumerate(found):
        name, fill = ways[how]
        y = LOWER + 68 + 30 * number
        canvas.box(left, y - 15, 26, 18, "thin", fill)
        canvas.text(left + 36, y, name.replace("`", ""), 16)


def picture():
    found, page = figures(), page_of("STORE_C.md")
    see_that_the_page_tells_them(found, page)
    below = LOWER + 80 + 30 * (1 + max(len(each) for each in found.values()))
    lines = [*measured_each("STORE_C.md", HEADS), CONDITIONS]
    canvas = Canvas("threads", TITLE, below + 26 * len(lines))
    for who, (left, right, title, ways) in PANELS.items():
        each = {how: columns(who, found[who][how]) for how in ways if how in found[who]}
        most = end_of(max(high for one in each.values() for high, *_ in one.values()))
        canvas.text(left - 60, 36, title, 17, bold=True)
        draw_scale(canvas, left, right, most)
        draw_columns(canvas, left, right, most, ways, each)
        canvas.text(left - 8, LOWER + 28, who, 16, "end", bold=True, within=left - 10)
        draw_legend(canvas, left, ways, each)
    left, y = PANELS["writers"][0], LOWER + 68 + 30 * len(found["writers"])
    canvas.mark(left + 13, y - 6, "ring", 6)
    canvas.text(left + 36, y, LEAST, 16)
    canvas.lines(20, below + 6, lines)
    return canvas
