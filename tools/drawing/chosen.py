"""Keys that an attacker chooses: the tree that they make, and what calls then take, from
docs/pictures/chosen.tsv, by bench/limits/run."""
import os
import sys

from .canvas import Canvas
from .curves import Plot, apart, scale
from .figures import measured, page_of, row
from .maps import TOP

LEFT, ACROSS, NEXT, UPPER, LOWER = 104, 190, 386, 346, 706
# What is drawn from left to right, what it is called, and by how much its figures are divided.
PANELS = [
    ("put", "put of a new value, µs", 1_000),
    ("get", "get, µs", 1_000),
    ("proof bytes", "a proof, kilobytes", 1_000),
]
LOOKS = {
    "chosen": ("warm", "square", "chosen"),
    "tagged": ("broken", "diamond", "with a tag"),
    "random": ("thick", "disc", "random"),
}
# The number of chosen keys of which the title tells, and the kilobytes of what it calls half a
# megabyte.
TOLD, HALF = 10_000, (450, 550)
TITLE = "{:,} chosen keys: a put takes {:.0f} times as long, and a proof has half a megabyte"
# By how many percent hashed keys may lie below random ones.
BELOW = 7
LAYERS = 3
CELL, HIGH, TREE = 20, 26, 58
CAPTION = [
    "Chosen: all of layer 0. With a tag: the same keys, each with a tag at its end, made by a"
    " secret.",
    "Keys hashed by a secret are not drawn: they are never above keys with a tag, and at most"
    f" {BELOW} % below random ones.",
    "All scales are logarithmic; those of the two times are the same. A kilobyte has 1,000 bytes."
    " Format 1, values of 32 bytes.",
    "The put at 1,000 chosen keys, 340 µs, is uncertain: 201 in an earlier run.",
]


def figures():
    """For each call and kind of keys the figures, by numbers of keys."""
    found = {}
    with open(os.path.join(TOP, "docs", "pictures", "chosen.tsv"), encoding="ascii") as lines:
        for line in list(lines)[1:]:
            kind, call, keys, figure = line.rstrip("\n").split("\t")
            found.setdefault(call, {}).setdefault(kind, {})[int(keys)] = int(figure)
    return found


def shown(nanoseconds):
    """A time in microseconds as the page has it."""
    return f"{float(f'{nanoseconds / 1000:.3g}'):,.10g}"


def see_that_the_page_tells_them(found):
    """Refuses figures of which docs/LIMITS.md has others."""
    page = page_of("LIMITS.md")
    for call, kinds in found.items():
        for keys in sorted(kinds["random"]):
            each = [kinds[kind][keys] for kind in ("random", "chosen", "tagged", "hashed")]
            cells = [f"{it:,}" if call == "proof bytes" else shown(it) for it in each]
            if f"| {row(*cells)}\n" not in page:
                sys.exit(f"docs/LIMITS.md has other figures of {call} at {keys:,} keys than "
                         "docs/pictures/chosen.tsv")


def title_of(found):
    """The title, with how many times as long as over random keys a put takes."""
    puts, proofs = found["put"], found["proof bytes"]
    low, high = HALF
    if not low <= proofs["chosen"][TOLD] / 1_000 <= high:
        sys.exit(f"a proof has {proofs['chosen'][TOLD]:,} bytes: another title")
    return TITLE.format(TOLD, puts["chosen"][TOLD] / puts["random"][TOLD])


def see_that_hashed_keys_lie_between(found):
    """Refuses figures of hashed keys that are above those of keys with a tag, or more than just below
    those of random keys."""
    for call, _, _ in PANELS:
        kinds = found[call]
        for keys, hashed in kinds["hashed"].items():
            low, high = kinds["random"][keys], kinds["tagged"][keys]
            if not (1 - BELOW / 100) * low <= hashed <= high:
                sys.exit(f"{call} of {keys:,} hashed keys: {hashed:,} is not between {low:,} and "
                         f"{high:,}, as the picture says")


def draw_node(canvas, middle, top, entries, style):
    """A node: a cell for each entry."""
    for place in range(entries):
        canvas.box(middle + (place - entries / 2) * CELL, top, CELL, HIGH, style)


def draw_random_tree(canvas, left, right):
    """A tree of three layers."""
    middle, apart_by = (left + right) / 2, (right - left) / 3
    tops = [TREE + 60 * layer for layer in range(LAYERS)]
    draw_node(canvas, middle, tops[0], 2, "thick")
    lower = [middle + (place - 1) * apart_by for place in range(3)]
    for place, x in enumerate(lower):
        start = middle + (place - 1) * CELL
        canvas.line([(start, tops[0] + HIGH), (x, tops[1] - 3)], arrow=True)
        draw_node(canvas, x, tops[1], 1, "thick")
        for side in (-1, 1):
            leaf = x + side * apart_by / 4
            canvas.line([(x + side * CELL / 2, tops[1] + HIGH), (leaf, tops[2] - 3)], arrow=True)
            draw_node(canvas, leaf, tops[2], 3, "thick")


def draw_trees(canvas):
    canvas.text(24, 34, "random keys: many short nodes", 17, bold=True)
    draw_random_tree(canvas, 24, 560)
    canvas.text(640, 34, "chosen keys: one node has all of them", 17, bold=True)
    draw_node(canvas, 904, TREE + 120, 23, "warm")
    for number, line in enumerate((
        "A path: a few short nodes. On average a node has",
        "16 entries in format 1 and 4 in format 2; drawn are fewer.",
    )):
        canvas.text(24, TREE + 178 + 24 * number, line, 16)
    canvas.text(640, TREE + 178, "A path: one node, with the whole map.", 16)


def draw_panel(canvas, place, title, points, high):
    """The curves of one figure, with their names where they end."""
    numbers = sorted(points["random"])
    plot = Plot(canvas, place, (numbers[0], numbers[-1]), high, 20)
    plot.draw_times()
    plot.draw_keys(numbers, 1_000)
    canvas.text(plot.left - 80, UPPER - 24, title, 17, bold=True)
    canvas.text((plot.left + plot.right) / 2, LOWER + 56, "thousands of keys", 16, "middle")
    ends = [plot.draw_curve(points[it].items(), LOOKS[it][:2], 6)[-1] for it in LOOKS]
    for kind, (x, y), level in zip(LOOKS, ends, apart([y for _, y in ends], 22)):
        canvas.line([(x + 12, y), (plot.right + 6, level)], "faint")
        name = LOOKS[kind][2]
        canvas.text(plot.right + 10, level + 6, name, 16, bold=kind == "chosen")


def points_of(kinds, divided):
    """For each kind of keys that is drawn its figures, by numbers of keys."""
    return {kind: {keys: it / divided for keys, it in kinds[kind].items()} for kind in LOOKS}


def picture():
    found = figures()
    see_that_the_page_tells_them(found)
    see_that_hashed_keys_lie_between(found)
    canvas = Canvas("chosen", title_of(found), LOWER + 222)
    draw_trees(canvas)
    points = {call: points_of(found[call], divided) for call, _, divided in PANELS}
    for number, (call, title, _) in enumerate(PANELS):
        left, unit = LEFT + number * NEXT, title.rpartition(", ")[2]
        alike = [points[other] for other, name, _ in PANELS if name.endswith(unit)]
        high = scale([it for kinds in alike for each in kinds.values() for it in each.values()])
        draw_panel(canvas, (left, left + ACROSS, UPPER, LOWER), title, points[call], high)
    canvas.lines(20, LOWER + 100, CAPTION + measured("LIMITS.md", "microseconds, 1,000 keys"))
    return canvas
