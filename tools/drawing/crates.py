"""The groups of crates, with an arrow to what each depends on, by crates.txt and by the table of
docs/ARCHITECTURE.md."""
import os
import sys

from .canvas import Canvas, width_of
from .groups import LAST, PAGE, told
from .maps import TOP

# Each group of the table: where it begins and ends from left to right, and in which row it stands,
# from 0 at the top.
GROUPS = {
    "the store for C": (20, 420, 0),
    "the theorem": (440, 660, 0),
    "the program": (680, 1180, 0),
    "sharded maps": (200, 980, 1),
    "the store": (420, 980, 2),
    "verifiers": (20, 390, 3),
    "trees in rows": (420, 756, 3),
    "the core of pins": (776, 980, 3),
    "lines of text": (1000, 1180, 3),
    "maps and their trees": (20, 1180, 4),
}
# Where the arrows stand, from left to right; each leads straight down.
ARROWS = {
    ("the store for C", "sharded maps"): 320,
    ("the theorem", "sharded maps"): 550,
    ("the program", "sharded maps"): 830,
    ("the program", "lines of text"): 1090,
    ("sharded maps", "verifiers"): 300,
    ("sharded maps", "the store"): 600,
    ("the store", "trees in rows"): 600,
    ("the store", "the core of pins"): 890,
    ("verifiers", "maps and their trees"): 205,
    ("trees in rows", "maps and their trees"): 600,
    ("lines of text", "maps and their trees"): 1090,
}
# What the picture is about: all that a verifier needs.
VERIFIERS, MAPS = "verifiers", "maps and their trees"
FOR_C = {"mst_verifier", "mst_exports"}
TITLE = "The groups of crates: verifiers depend on no store"
FIRST, APART, LINE, SIZE, SPACE = 16, 46, 26, 16, 24
LOOKS = [("thick", "all that a user who only verifies proofs has to read or build")]
NOTE = (
    "An arrow leads to a group on which a group depends; it is left out where others lead the same"
    " way. Bold: the two crates from which the libraries for C are built. Not drawn: the tests and"
    " {}, which stand at the top."
)


def stands_on():
    """For each crate of crates.txt the crates of this repository that it names."""
    found = {}
    with open(os.path.join(TOP, "crates.txt"), encoding="ascii") as lines:
        for line in lines:
            name, _, below = line.partition("#")[0].partition(":")
            if name.strip():
                found[name.split()[0]] = below.split()
    return {name: [it for it in below if it in found] for name, below in found.items()}


def crates_of():
    """Of each group the crates that the page's table names. Refuses other groups than are drawn."""
    table = {name: crates for name, (crates, _) in told().items() if name != LAST}
    if set(table) != set(GROUPS):
        sys.exit(f"tools/drawing/crates.py has other groups than {PAGE}")
    return table


def crates_at_the_top(table):
    """The crates of no group, but those of tests. Refuses others than the page names."""
    drawn = {crate for crates in table.values() for crate in crates}
    found = [it for it in stands_on() if it not in drawn and not it.endswith("_tests")]
    if found != told()[LAST][0]:
        sys.exit(f"at the top stand {found} and tests, and {PAGE} names others")
    return found


def depends_on(table):
    """Of each group those that its crates name."""
    group = {crate: name for name, crates in table.items() for crate in crates}
    found = {name: set() for name in table}
    for crate, below in stands_on().items():
        if crate in group:
            found[group[crate]] |= {group[it] for it in below} - {group[crate]}
    return found


def arrows(groups):
    """The pairs of a group and one below it that no way over a third group says already."""
    def all_below(name):
        return {it for one in groups[name] for it in (one, *all_below(one))}

    if all_below(VERIFIERS) != {MAPS}:
        sys.exit("the picture of crates says that verifiers depend on maps alone, and they do not")
    for name in groups:
        for one in groups[name]:
            if not any(one in all_below(other) for other in groups[name]):
                yield name, one


def in_rows(crates, within):
    """The names of crates, in lines of so many pixels: each with the place where it begins."""
    rows, at = [[]], 0
    for name in crates:
        wide = width_of(name, SIZE, code=True)
        if rows[-1] and at + wide > within:
            rows, at = [*rows, []], 0
        rows[-1].append((at, name))
        at += wide + 18
    return rows


def heights(table):
    """How high each row of groups is, and where it begins."""
    high = {}
    for name, (left, right, row) in GROUPS.items():
        lines = len(in_rows(table[name], right - left - 32))
        high[row] = max(high.get(row, 0), 44 + lines * SPACE + 8)
    tops, y = {}, FIRST
    for row in sorted(high):
        tops[row], y = y, y + high[row] + APART
    return high, tops, y - APART


def draw_group(canvas, name, crates, top, high):
    left, right, _ = GROUPS[name]
    style = "thick" if name in (VERIFIERS, MAPS) else "thin"
    canvas.box(left, top, right - left, high, style, round=8)
    canvas.text(left + 16, top + 28, name, 18, bold=True, within=right - left - 24)
    for line, names in enumerate(in_rows(crates, right - left - 32)):
        for at, crate in names:
            y = top + 30 + LINE + line * SPACE
            canvas.text(left + 16 + at, y, crate, SIZE, code=True, bold=crate in FOR_C)


def draw_arrow(canvas, pair, high, tops):
    """An arrow straight down. Refuses one that misses a group, or meets a third one."""
    (one, below), x = pair, ARROWS[pair]
    first, last = GROUPS[one][2], GROUPS[below][2]
    for name, (left, right, row) in GROUPS.items():
        is_met = left < x < right and first <= row <= last
        if is_met != (name in pair):
            sys.exit(f"the arrow from {one} to {below} meets or misses {name}")
    canvas.line([(x, tops[first] + high[first]), (x, tops[last])], arrow=True)


def picture():
    table = crates_of()
    high, tops, low = heights(table)
    canvas = Canvas("crates", TITLE, low + 138)
    found = set(arrows(depends_on(table)))
    if found != set(ARROWS):
        sys.exit(f"the picture of crates has other arrows than {sorted(found)}")
    for pair in sorted(found):
        draw_arrow(canvas, pair, high, tops)
    for name, (_, _, row) in GROUPS.items():
        draw_group(canvas, name, table[name], tops[row], high[row])
    note = NOTE.format(" and ".join(crates_at_the_top(table)))
    canvas.lines(20, canvas.legend(20, low + 44, LOOKS) + 4, [note])
    return canvas
