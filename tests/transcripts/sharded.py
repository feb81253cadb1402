"""Cases of scripts over sharded maps whose answers are those of a dict, and whose root digests and
proofs are those that vectors/sharding.py makes of it."""
import random

from model import pair_line, spelt, told
from transcript import Case
import sharding

COUNTS = (2, 7, 64)  # of shards
KEYS = [bytes([1 + number // 16, number % 16]) for number in range(128)]
# From one key on, below another one, and at most how many pairs.
RANGES = [(0, 127, 200), (17, 101, 1), (63, 64, 5), (64, 32, 5), (3, 120, 40)]
# The keys with the least bytes and with the greatest.
LEAST, GREATEST = b"\0", b"\xff" * 32
FEWEST_ROWS = 4
# Shards, passes, rows of each shard, and the bytes of a split.
ENDS = [
    (2, 1, FEWEST_ROWS, 2), (2, 1, 65_535, 32), (64, 8, 16, 32), (65, 9, 16, 2), (1_023, 31, 16, 2),
    (1_024, 1, 16, 32),
]
# So few rows that a shard has room for some keys, and not for all of its own.
FEW_ROWS = 24


def splits_into(count):
    return [KEYS[shard * len(KEYS) // count] for shard in range(1, count)]


class Script:
    """The lines of a script over a sharded map with their answers: each method is a line or some.
    Pass 1 writes. All answers are those of the dict, for no pass pins while another writes."""

    def __init__(self, count, seed=1, rows=1024, passes=2, splits=None):
        self.splits = splits_into(count) if splits is None else splits
        self.chance, keys = random.Random(seed), ",".join(map(spelt, self.splits))
        self.words = f"mst run --rows {rows} --passes {passes}"
        # without splits it would be a store
        self.words += f" --splits {keys}" if keys else ""
        self.known, self.format, self.lines, self.answers = {}, 1, [], []
        self.versions = 0

    def case(self, title):
        given, out = ("".join(f"{it}\n" for it in text) for text in (self.lines, self.answers))
        place = f"sharded.py: {title}, {1 + len(self.splits)} shards"
        return Case(place, self.words.encode().split(b" "), given.encode(), True, 0, out.encode())

    def line(self, text, answer, number=1):
        self.lines.append(f"{number} {text}")
        self.answers.append(answer)

    def make(self, edits):
        self.versions += 1
        self.known.update(edits)
        self.known = {key: value for key, value in self.known.items() if value is not None}

    # ---- writes

    def edits(self, count):
        """Edits of keys at random, of which one in four is a remove."""
        return [(self.chance.choice(KEYS), self.chance.choice([None, b"1", b"2", b"3"]))
                for _ in range(count)]

    def write(self, key, value):
        text = f"del {spelt(key)}" if value is None else f"put {spelt(key)} {spelt(value)}"
        self.line(text, told(self.known.get(key)))
        self.make([(key, value)])

    def batch(self, edits, answer="done"):
        words = (f" del {spelt(key)}" if value is None else f" put {spelt(key)} {spelt(value)}"
                 for key, value in edits)
        self.line("batch" + "".join(words), answer)
        if answer == "done":
            self.make(edits)

    def migrate(self, format, answer=None):
        self.line(f"migrate {format}", answer or f"was {self.format}")
        if not answer:
            self.versions += 1
            self.format = format

    def pin(self, number=1):
        self.line("pin", f"pinned {self.versions}", number)

    # ---- reads

    def gets(self, number=1):
        for key in KEYS:
            self.line(f"get {spelt(key)}", told(self.known.get(key)), number)

    def steps(self, number):
        """The pairs, one after another."""
        pairs, last = [pair_line(*pair) for pair in sorted(self.known.items())], b""
        for key, pair in zip(sorted(self.known), pairs):
            self.line(f"next {spelt(last)}", pair, number)
            last = key
        self.line(f"next {spelt(last)}", "none", number)

    def ranges(self, number):
        for low, high, limit in RANGES:
            inside = [pair for pair in sorted(self.known.items())
                      if KEYS[low] <= pair[0] < KEYS[high]][:limit]
            text = f"range {spelt(KEYS[low])} {spelt(KEYS[high])} {limit}"
            answers = [f"pairs {len(inside)}", *(pair_line(*pair) for pair in inside)]
            self.line(text, "\n".join(answers), number)

    def root(self, number=1):
        """The root digest, with the model whose it is."""
        model = sharding.split(self.format, self.known, self.splits)
        self.line("root", model.root.hex(), number)
        return model

    def proves(self, number):
        model = self.root(number)
        for key in KEYS:
            self.line(f"prove {spelt(key)}", model.proof(key).hex(), number)
        self.line("format", f"format {self.format}", number)

    def looks(self):
        """All reads, by a snapshot that is kept, and by one of each line."""
        self.pin()
        for number in (1, 2):
            self.gets(number)
            self.steps(number)
            self.ranges(number)
            self.proves(number)
        self.line("unpin", "unpinned")
        return self.root().root


def writes():
    for count in COUNTS:
        script = Script(count)
        for _ in range(8):
            for edit in script.edits(40):
                script.write(*edit)
            script.gets()
        yield script.case("single writes")


def batches():
    for count in COUNTS:
        for size in (0, 1, 3, 50, 100):
            script = Script(count, size)
            for _ in range(6):
                script.batch(script.edits(size))
                script.gets()
            yield script.case(f"batches of {size}")


def before_and_after_a_migration():
    for count in COUNTS:
        script = Script(count)
        roots = [script.looks()]
        script.batch(script.edits(150))
        roots.append(script.looks())
        # one edit more changes one shard
        script.write(KEYS[70], b"another")
        roots.append(script.looks())
        script.migrate(2)
        roots.append(script.looks())
        assert len(set(roots)) == len(roots)
        script.migrate(1)
        assert script.looks() == roots[2]
        yield script.case("snapshots before and after a migration")


def between_writes_and_migrations():
    for count in COUNTS:
        script = Script(count, 2)
        for format in (2, 1, 2, 1):
            for edit in script.edits(40):
                script.write(*edit)
            script.looks()
            script.migrate(format)
        yield script.case("snapshots between writes and migrations")


def directories_that_are_kept():
    """The root digest after each of several batches, and after all of their edits at once."""
    for count in COUNTS:
        for size in (8, 96):
            script = Script(count)
            edits = script.edits(96)
            for at in range(0, len(edits), size):
                script.batch(edits[at : at + size])
                script.root()
            yield script.case(f"a directory that is kept over batches of {size}")


def shards_without_room():
    """The second of two shards has no room for its part, so that nothing is made."""
    script = Script(2, rows=FEW_ROWS)
    script.batch([(KEYS[0], b"1"), (KEYS[64], b"2")])
    script.batch([(key, b"3") for key in KEYS[:2] + KEYS[64:]], "noroom")
    script.gets()
    script.looks()
    yield script.case("a shard without room refuses a batch")

    for rows, keys in ((FEW_ROWS, KEYS[64:84]), (64, KEYS[64:120])):
        script = Script(2, rows=rows)
        script.batch([(KEYS[0], b"1"), *((key, b"2") for key in keys)])
        # the tree of the second shard has more nodes in format 2
        script.migrate(2, "noroom")
        script.gets()
        script.looks()
        yield script.case("a shard without room refuses a migration")


def pins_over_migrations():
    """Pass 2 pins a block, and stays in its map while the map moves, and moves back."""
    for count in COUNTS:
        script, kept = Script(count, 3), Script(count, 3)
        edits = script.edits(80)
        for it in (script, kept):
            it.batch(edits)
        script.pin(2)
        for format in (2, 1, 2):
            script.migrate(format)
            for edit in script.edits(10):
                script.write(*edit)
            for it, number in ((script, 1), (kept, 2)):
                first = len(it.lines)
                it.proves(number)
                if it is kept:
                    script.lines += it.lines[first:]
                    script.answers += it.answers[first:]
        script.line("unpin", "unpinned", 2)
        script.gets(2)
        script.proves(2)
        script.pin(2)
        yield script.case("a pin over migrations")


def ends_of(script, number):
    """What a pass reads and proves at both ends of what a line takes."""
    script.pin(number)
    pairs = sorted(script.known.items())
    for limit in (0, 1, 1_000, 1_001, 65_535):
        answers = [f"pairs {len(pairs[:limit])}", *(pair_line(*it) for it in pairs[:limit])]
        script.line(f"range - - {limit}", "\n".join(answers), number)
    script.line("next " + spelt(GREATEST), "none", number)
    model = script.root(number)
    for key in (LEAST, GREATEST):
        script.line(f"get {spelt(key)}", told(script.known.get(key)), number)
        script.line(f"prove {spelt(key)}", model.proof(key).hex(), number)
    script.line("format", f"format {script.format}", number)
    script.line("unpin", "unpinned", number)


def at_both_ends():
    """Maps of the fewest and the most shards, passes and rows, whose splits, keys and values are
    the shortest and the longest: with ample memory none is refused it."""
    for count, passes, rows, length in ENDS:
        numbers = range(257, 256 + count)
        splits = [number.to_bytes(2, "big").ljust(length, b"\0") for number in numbers]
        script = Script(count, 1, rows, passes, splits)
        ends_of(script, passes)
        few = rows == FEWEST_ROWS
        for key in (LEAST, GREATEST)[: 1 if few else 2]:
            for value in (b"", b"\7" * 64, None):
                script.write(key, value)
        script.batch([] if few else [(LEAST, b""), (GREATEST, b"\7" * 64)])
        ends_of(script, passes)
        script.migrate(2)
        ends_of(script, passes)
        yield script.case(f"both ends, {passes} passes, {rows} rows, splits of {length} bytes")


def cases():
    yield from at_both_ends()
    yield from writes()
    yield from batches()
    yield from before_and_after_a_migration()
    yield from between_writes_and_migrations()
    yield from directories_that_are_kept()
    yield from shards_without_room()
    yield from pins_over_migrations()
