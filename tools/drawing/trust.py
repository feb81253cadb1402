"""What an answer of the store rests on: what has to be read or believed, what the checker sees to,
and what is only tested. The numbers of lines are those of docs/BELIEVE.md."""
import glob
import os
import re
import sys

from .canvas import Canvas
from .figures import whole
from .maps import TOP

PAGE = os.path.join(TOP, "docs", "BELIEVE.md")
# What the page says of how many lines there are to read, by its heading.
COUNTS = {
    "### For the store": r"They rest on ([\d,]+) lines",
    "### To know that the theorem holds": r"They rest on ([\d,]+) lines",
    "### For the verifier": r"They rest on ([\d,]+) lines",
    "### For sharded maps": r"on these ([\d,]+) lines",
    "### For C": r"on these ([\d,]+) lines",
    "## What stands outside of the proofs": r"`bindings/\*\.c`, fewer than ([\d,]+) lines",
}
LEFT, RIGHT, COLUMN, BAND = 20, 820, 360, 760
HALF = (BAND - 24) // 2
THIRD = (BAND - 48) // 3
# How high a box is by its lines below its name.
HIGH = {1: 70, 2: 94, 3: 118}
# The rows of each column: where it begins, and how high it is.
ROWS = ((70, HIGH[1]), (176, HIGH[3]), (330, HIGH[2]), (460, HIGH[1]))
BESIDE = tuple((70 + 122 * place, HIGH[2]) for place in range(4))
LOWER = sum(ROWS[3])
TITLE = "What an answer rests on: definitions, two premises, ported crates and the toolchain"
LEGEND = [
    ("thick", "read it, or take it on trust"),
    ("thin", "checked by machine: users need not read it, but for the three things"),
    ("dashed", "tested"),
]
NOTES = [
    "Each arrow means 'rests on'. Lines of definitions: those that the contracts reach, without"
    " comments.",
]


def lines_to_read():
    """How many lines the page says there are to read, for each of its headings."""
    with open(PAGE, encoding="utf-8") as file:
        page = file.read()
    found = []
    for heading, pattern in COUNTS.items():
        said = re.search(pattern, page.partition(f"\n{heading}\n")[2])
        if not said:
            sys.exit(f"docs/BELIEVE.md does not say how many lines there are under '{heading}'")
        found.append(said[1])
    if lines_of_c() >= whole(found[-1]):
        sys.exit(f"docs/BELIEVE.md: bindings/*.c have {lines_of_c():,} lines, not fewer than "
                 f"{found[-1]}")
    return found


def lines_of_c():
    """How many lines the C files of the library have, without empty ones: the verifier by hand is
    part of one of them."""
    found, by_hand = 0, os.path.join(TOP, "verifiers", "c", "mst_verifier.c")
    for path in [*glob.glob(os.path.join(TOP, "bindings", "*.c")), by_hand]:
        with open(path, encoding="utf-8") as file:
            found += sum(line != "\n" for line in file)
    return found


def boxes():
    """The style, place from left to right, row, width, name and lines of each box."""
    store, theorem, verifier, sharded, calls, in_c = lines_to_read()
    second, third = LEFT + THIRD + 24, LEFT + 2 * (THIRD + 24)
    return [
        ("thick", LEFT, ROWS[0], BAND, "contracts of the calls that you use", (
            "what each call promises; one law says what all calls of a store do",)),
        ("thick", LEFT, ROWS[1], HALF, "definitions", (
            f"lines: store {store}, theorem {theorem},", f"verifier {verifier}; more for sharded maps",
            f"{sharded}, for C {calls}")),
        ("thin", LEFT + HALF + 24, ROWS[1], HALF, "code, laws and proofs", (
            "the checker accepts a function", "only if it keeps its contract")),
        ("thick", LEFT, ROWS[2], THIRD, "SHA-256", ("is what the crate", "sha2 states")),
        ("thick", second, ROWS[2], THIRD, "atomic steps", ("are sequentially", "consistent")),
        ("thick", third, ROWS[2], THIRD, "ported crates", ("keep to what", "they state")),
        ("thick", LEFT, ROWS[3], BAND, "toolchain", (
            "its checker and its logic, compilers, library; the C library",)),
        ("thick", RIGHT, BESIDE[0], COLUMN, "three things that rest on code", (
            "no clause says them,", "two tools look at most of it")),
        ("thick", RIGHT, BESIDE[1], COLUMN, "not in Rattle", (
            f"C (under {in_c} lines), headers,", "bindings, five verifiers: only tested")),
        ("dashed", RIGHT, BESIDE[2], COLUMN, "tests", (
            "of what no clause says:", "crates/*_tests, tests")),
        ("dashed", RIGHT, BESIDE[3], COLUMN, "wrong bodies", (
            "mutation tests, which check", "that clauses say enough")),
    ]


def draw_box(canvas, style, left, row, width, name, says):
    top, high = row
    if high < HIGH[len(says)]:
        sys.exit(f"the picture of trust: '{name}' has more lines than its row is high")
    canvas.box(left, top, width, high, style, round=6)
    canvas.text(left + 16, top + 28, name, 18, bold=True, within=width - 24)
    for line, text in enumerate(says):
        canvas.text(left + 16, top + 52 + 24 * line, text, 16, within=width - 24)


# The arrows from one row to the next: where each stands from left to right, by the row above it.
ARROWS = {
    0: (LEFT + HALF / 2, LEFT + HALF * 1.5 + 24),
    1: (LEFT + THIRD / 2, LEFT + HALF + 74, LEFT + 2.5 * THIRD + 48),
    2: (LEFT + THIRD / 2, LEFT + 1.5 * THIRD + 24, LEFT + 2.5 * THIRD + 48),
}


def draw_arrows(canvas):
    for row, places in ARROWS.items():
        for x in places:
            canvas.line([(x, sum(ROWS[row])), (x, ROWS[row + 1][0])], arrow=True)
    top, high = ROWS[0]
    canvas.line([(LEFT + BAND, top + high / 2), (RIGHT, top + high / 2)], arrow=True)


def picture():
    canvas = Canvas("trust", TITLE, LOWER + 176)
    canvas.text(LEFT, 42, "what a proof rests on (top: what callers read)", 17, bold=True)
    canvas.text(RIGHT, 42, "what stands beside the proofs", 17, bold=True)
    draw_arrows(canvas)
    for box in boxes():
        draw_box(canvas, *box)
    low = canvas.legend(LEFT, LOWER + 44, LEGEND)
    canvas.lines(LEFT, low + 4, NOTES)
    return canvas
