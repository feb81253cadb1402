"""The time of calls of the store and of other engines, by the number of keys, from
docs/pictures/engines.tsv, and of puts by the size of a batch, from the tables of docs/SPEED.md."""
import sys

from .canvas import Canvas
from .curves import Plot, apart, scale
from .figures import batches, figures, measured_each, see_that_the_page_tells_them

LEFT, ACROSS, NEXT, UPPER, HIGH, BELOW = 94, 196, 394, 62, 370, 512
TITLE = "A get takes about as long as LMDB's, a put {} to {} times as long"
# The scale of the gets of all engines but the slowest, and the lines on it.
GETS, FINE = (100, 1_000), (1, 2, 5)
LOOKS = {
    "store": ("thick", "square"),
    "LMDB": ("thin", "disc"),
    "SQLite": ("dotted", "ring"),
    "std::map": ("dashed", "diamond"),
}
CAPTION = [
    "ns: nanoseconds of a call, or of a put of a batch. Less is better. All scales are logarithmic;"
    f" that of get ends at {GETS[1]:,}.",
]
# What batches of one are.
ALONE = "Puts in batches come from another program; a batch of 1 is a single put, lower left."
# What was measured, by the page.
CONDITIONS = "One thread, random keys of 16 bytes, values of 32; the store in format 1."
# What the page says of one figure.
UNCERTAIN = (
    "The store's put in batches of 1,000 at 30,000 keys is uncertain: another program told 10,100."
)
# The heads of the tables that are drawn: what the page says above them is said below the picture.
HEADS = {"Nanoseconds of": "times by keys", "nanoseconds, 1,000 keys": "batches"}
# The most by which neighbours on a curve may differ that a line joins.
JOINED = 12


def title_of(found):
    """The title, with how many times as long as LMDB's a put of the store takes."""
    gets, puts = (
        [found[call]["store"][keys] / time for keys, time in found[call]["LMDB"].items()]
        for call in ("get", "put")
    )
    if min(gets) < 0.7 or max(gets) > 1.3:
        sys.exit(f"a get takes {min(gets):.2f} to {max(gets):.2f} times LMDB's: another title")
    return TITLE.format(*(int(it + 0.5) for it in (min(puts), max(puts))))


def draw_panel(canvas, place, times, panel, steps=(1,)):
    """The curves of one panel, with their names where they end: its title, its numbers from left to
    right with their unit and what they count, and the times of each engine at these numbers."""
    title, unit, says, engines = panel
    numbers = sorted({it for each in engines.values() for it in each})
    plot = Plot(canvas, place, (numbers[0], numbers[-1]), times, 20)
    plot.draw_times(steps)
    plot.draw_keys(numbers, unit)
    canvas.text(plot.left - 76, plot.upper - 24, title + ", ns", 17, bold=True)
    canvas.text((plot.left + plot.right) / 2, plot.lower + 56, says, 16, "middle")
    # The store's then lies above the others.
    names = sorted(engines, key=lambda it: it == "store")
    ends = [plot.draw_curve(sorted(engines[it].items()), LOOKS[it], 6, JOINED)[-1] for it in names]
    for engine, (x, y), high in zip(names, ends, apart([y for _, y in ends], 26)):
        canvas.line([(x + 9, y), (plot.right + 4, high)], "thin")
        canvas.text(plot.right + 8, high + 6, engine, 16, bold=engine == "store")


def draw_gets(canvas, found):
    """The gets, by a wider panel than the others, and in words those that take longer than its
    scale has."""
    low, high = GETS
    fast = {it: times for it, times in found.items() if max(times.values()) <= high}
    if min(it for times in fast.values() for it in times.values()) < low:
        sys.exit(f"a get takes less than {low} ns: another scale")
    place = (LEFT, LEFT + NEXT + ACROSS, UPPER, UPPER + HIGH)
    draw_panel(canvas, place, GETS, ("get", 1_000, "thousands of keys", fast), FINE)
    for engine in [it for it in found if it not in fast]:
        times = found[engine].values()
        says = f"{engine}, not drawn: {min(times):,} to {max(times):,}"
        canvas.text(LEFT + 28, UPPER + 28, says, 16, halo=True)


def picture():
    see_that_the_page_tells_them()
    found = figures()
    ranges = ("range of 100 pairs", 1_000, "thousands of keys", found["range"])
    puts = [("put of a new value", 1_000, "thousands of keys", found["put"])]
    for keys, engines in batches().items():
        puts.append((f"puts in batches, {keys:,} keys", 1, "puts in a batch", engines))
    times = scale([
        it for *_, engines in (ranges, *puts) for each in engines.values() for it in each.values()
    ])
    says = [*CAPTION, *measured_each("SPEED.md", HEADS), ALONE, CONDITIONS, UNCERTAIN]
    canvas = Canvas("engines", title_of(found), UPPER + BELOW + HIGH + 90 + 26 * len(says))
    draw_gets(canvas, found["get"])
    left = LEFT + 2 * NEXT
    draw_panel(canvas, (left, left + ACROSS, UPPER, UPPER + HIGH), times, ranges)
    for across, panel in enumerate(puts):
        left, upper = LEFT + across * NEXT, UPPER + BELOW
        draw_panel(canvas, (left, left + ACROSS, upper, upper + HIGH), times, panel)
    canvas.lines(20, UPPER + BELOW + HIGH + 96, says)
    return canvas
