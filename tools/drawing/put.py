"""A put while a reader pins: a lane for each pass, and one for each word of the table, step by step
as in docs/PROTOCOL.md."""
from .canvas import WIDTH, Canvas

PASSES, READER, WRITER = 4, 3, 1
# A store of n passes has the records 0 to n + 1. A writer asks all but the current one, and the
# version goes into the last one that is found drained.
LAST = PASSES + 1
LEFT, RIGHT = 204, WIDTH - 16
FIRST, HIGH, APART = 50, 40, 66
WORDS = 46  # from one lane of words to the next
CAPTION = [
    "Time goes from left to right. In rings: the numbers of the steps that the page lists."
    f" {{{READER}}}: a mask of pass {READER} alone.",
]


def mask(passes):
    """A mask, as the passes whose bits are set."""
    return "{" + ", ".join(map(str, sorted(passes))) + "}"


class Table:
    """The words that both passes change, and the mask that a publication brought back."""

    def __init__(self):
        self.turn, self.desk, self.record, self.rows = "free", "in the slot", "drained", "free"
        self.current, self.pinning, self.done, self.due = 0, frozenset(), frozenset(), frozenset()

    def pins(self):
        """The passes that pin record 0: its `done` xor a second mask."""
        return self.done ^ (self.pinning if self.current == 0 else self.due)

    def cells(self):
        return {
            "turn (write lock)": self.turn,
            "desk (allocator)": self.desk,
            "rows of new path": self.rows,
            f"record {LAST}": self.record,
            "current": f"record {self.current}, pins {mask(self.pinning)}",
            "writer's mask": mask(self.due) if self.due else "",
            "done of record 0": mask(self.done),
            "who pins record 0": f"pass {READER}" if self.pins() else "nobody",
        }

    def pin(self):
        self.pinning ^= {READER}

    def publish(self):
        self.due, self.current, self.pinning = self.pinning, LAST, frozenset()
        self.record, self.rows = "current", "in use"

    def transfer(self):
        self.done, self.due = self.done ^ self.due, frozenset()

    def unpin(self):
        self.done ^= {READER}


def sets(where, what):
    """The change of a step that sets one word, or words which no other pass reads yet."""
    return lambda it: setattr(it, where, what)


# Each step: its pass, its number in docs/PROTOCOL.md, where it stands, its name, and how the table
# changes.
STEPS = [
    (READER, 1, 366, "pins", Table.pin),
    (WRITER, 1, 400, "turn", sets("turn", f"of pass {WRITER}")),
    (WRITER, 2, 450, "desk", sets("desk", "with the writer")),
    (WRITER, 3, 516, "records", None),
    (WRITER, 4, 592, "sweep", None),
    (WRITER, 5, 654, "rows", sets("rows", "stored")),
    (WRITER, 6, 716, "record", sets("record", "stored")),
    (WRITER, 7, 802, "publishes", Table.publish),
    (READER, 2, 850, "reads", None),
    (WRITER, 8, 906, "transfers", Table.transfer),
    (WRITER, 9, 982, "desk", sets("desk", "in the slot")),
    (WRITER, 9, 1032, "turn", sets("turn", "free")),
    (READER, 3, 1096, "unpins", Table.unpin),
]
# The steps that every lane shows.
MARKED = {"publishes", "transfers"}
PASS_LANES = {READER: "reader, pass 3", WRITER: "writer, pass 1"}
LOOKS = [("thick", "what this put or this read has changed")]


def parts_of(name, tables):
    """The parts of a lane: where each begins and ends, and what the word has there."""
    parts = [(LEFT, tables[0][1][name])]
    for x, cells in tables[1:]:
        if cells[name] != parts[-1][1]:
            parts.append((x, cells[name]))
    ends = [x for x, _ in parts[1:]] + [RIGHT]
    return [(begin, end, says) for (begin, says), end in zip(parts, ends)]


def all_tables():
    """Where each step stands, with what the words have after it, from the beginning on."""
    table = Table()
    found = [(LEFT, table.cells())]
    for _, _, x, _, step in STEPS:
        if step:
            step(table)
        found.append((x, table.cells()))
    return found


def draw_pass(canvas, who, top):
    """The lane of a pass: from its first step to its last, each with its name and number."""
    canvas.text(16, top + HIGH / 2 + 6, PASS_LANES[who], 17, bold=True, within=LEFT - 16)
    steps = [(number, x, says) for one, number, x, says, _ in STEPS if one == who]
    begin, end = steps[0][1], steps[-1][1]
    canvas.box(begin, top, end - begin, HIGH)
    for number, x, says in steps:
        canvas.mark(x, top + HIGH / 2, "ring", 12)
        canvas.text(x, top + HIGH / 2 + 6, f"{number}", 16, "middle")
        canvas.text(x, top - 8, says, 16, "middle", bold=says in MARKED)


def draw_words(canvas, name, top, tables):
    """The lane of a word: a box for as long as it stays the same, blue if it is not as at first."""
    canvas.text(16, top + HIGH / 2 - 4, name, 17, bold=True, within=LEFT - 16)
    first = tables[0][1][name]
    for begin, end, says in parts_of(name, tables):
        if says:
            style = "thin" if says == first else "thick"
            canvas.box(begin, top - 6, end - begin, HIGH - 8, style)
            canvas.text(begin + 8, top + HIGH / 2 - 4, says, 16, within=end - begin - 10)


def picture():
    title = "A put while a reader pins: what the reader reads is never written"
    tables, names = all_tables(), list(Table().cells())
    words = FIRST + 2 * APART + 20
    lower = words + len(names) * WORDS
    canvas = Canvas("put", title, lower + 94)
    for _, _, x, says, _ in STEPS:
        if says in MARKED:
            canvas.line([(x, FIRST + APART + HIGH), (x, lower - 8)], "dashed")
    for place, who in enumerate(PASS_LANES):
        draw_pass(canvas, who, FIRST + place * APART)
    for place, name in enumerate(names):
        draw_words(canvas, name, words + place * WORDS, tables)
    canvas.lines(16, canvas.legend(16, lower + 30, LOOKS) + 4, CAPTION)
    return canvas
