"""Memory that is refused, one growth after another, and from one on all of them: to the start of a
command, which then does nothing, or to a line of a script, which then says so and leaves all as it
was. Nothing that was taken is kept. A list that is refused room to spare asks for what it needs, so
that one refusal alone may change nothing."""
import itertools
import os
import sys

from failing import DONE, NONE, SCRIPT, Work

TOP = os.path.join(os.path.dirname(os.path.abspath(__file__)), "..", "..")
sys.path.append(os.path.join(TOP, "vectors"))
import nodes
import sharding

PROOF_REFUSED, NO_MEMORY = 1, 4
NOTHING = NO_MEMORY, b"", b"memory\n"


def lines_of(*lines):
    return "".join(f"{line}\n" for line in lines).encode()


class Refusals:
    """A command, its status and its answers with ample memory, and each of the answers with which
    it also may end if some is refused."""

    def __init__(self, words, given, out, others=(), status=DONE, threads=0):
        self.words, self.given = words, given
        # whether a thread gives its last block back before the program ends is chance
        self.threads = threads
        self.whole = status, out, b""
        self.others = [(DONE, other, b"") for other in others]

    def ends_well(self, came, limits, is_refused):
        """Whether the command may end so."""
        if not is_refused:
            return came == self.whole
        return came in [NOTHING, *self.others] or came == self.whole and "ALL" not in limits

    def faults(self, program):
        """Of each growth that is refused: how the command ends otherwise than it may."""
        words, seen = self.words.split(), set()
        program.run(words, self.given, {})
        ample, kept = program.growths()
        for limits in ({}, {"ALL": 1}):
            for growths in range(ample + 1):
                limits["GROWTHS"] = growths
                came = program.run(words, self.given, limits)
                asked, live = program.growths()
                seen.add(came)
                is_freed = abs(live - kept) <= self.threads
                is_well = is_freed and self.ends_well(came, limits, asked > growths)
                yield "" if is_well else f"by {limits}: {came}, {live} blocks for {kept} are kept"
        missed = {NOTHING, *self.others, self.whole} - seen
        yield f"never seen: {missed}" if missed else ""


# ---- commands that do nothing without memory

EVENTS = Work("replay", [
    (b"passes 2\n", b"records 4\n"), (b"pin 1\n", b"record 0\n"), (b"publish 1 0\n", b"done\n"),
    (b"ask 0\n", b"refused\n"), (b"unpin 1\n", b"done\n"), (b"transfer\n", b"done\n"),
    (b"ask 0\n", b"yes\n"), (b"pin 1\n", b"record 1\n"), (b"publish 2 1\n", b"done\n"),
    (b"transfer\n", b"done\n"), (b"ask 1\n", b"no\n"), (b"write 0\n", b"refused\n"),
    (b"unpin 1\n", b"done\n"), (b"ask 1\n", b"yes\n"), (b"write 0\n", b"done\n"),
    (b"write 1\n", b"refused\n")])


def load_of(calls):
    """A load of one writer, whose calls put their numbers at keys of their own."""
    pairs = [(bytes([1, call]), call.to_bytes(4, "big")) for call in range(1, calls + 1)]
    root = nodes.build(pairs)[1].hex()
    report = lines_of(f"events {calls}", "falls 0", f"root {root}", f"built {root}")
    words = f"load --readers 2 --writers 1 --calls {calls}"
    return Refusals(words, b"", report, threads=3)


STARTS = [
    Refusals("run --rows 4 --passes 4", SCRIPT.given, SCRIPT.out),
    Refusals("replay", EVENTS.given, EVENTS.out),
    Refusals(f"verify {NONE} 62", b"0" * 40_000, b"P1\n", status=PROOF_REFUSED),
    load_of(3),
]

# ---- lines of scripts over a store

STORE = "run --rows 16 --passes 4"
# One node: format 1, layer 0, one key, no child, the key 61 and the value 31, no child.
NODE = bytes.fromhex("01000001" "00" "0161" "0131" "00")
OF_NODE, TOP_NODE = nodes.framed([NODE]).hex(), NODE.hex()


def of_ranges():
    lines = "1 put 61 31", "2 put 616263 78", "3 range - - 10", "1 frob", "4 get 61"
    found = "pairs 2", "pair 61 31", "pair 616263 78"
    answers = [lines_of("none", "none", *it, "fault L3", "some 31") for it in (found, ["memory"])]
    return Refusals(STORE, lines_of(*lines), answers[0], answers[1:])


def of_proofs():
    """The proof and the node, or one of them, or neither."""
    lines = "1 put 61 31", "1 prove 61", "1 node", "1 get 61"
    both = itertools.product([OF_NODE, "memory"], [TOP_NODE, "memory"])
    answers = [lines_of("none", *it, "some 31") for it in both]
    return Refusals(STORE, lines_of(*lines), answers[0], answers[1:])


def of_migrations():
    """To the format that stands no memory is taken."""
    lines = ("1 put 31 61", "1 put 39 31", "1 migrate 1", "1 migrate 2", "1 format", "1 get 31",
             "2 put 39 32")
    moved, stayed = ("was 1", "format 2"), ("memory", "format 1")
    answers = [lines_of("none", "none", "was 1", *it, "some 61", "some 31")
               for it in (moved, stayed)]
    return Refusals(STORE, lines_of(*lines), answers[0], answers[1:])


def of_batches():
    """No edits take no memory."""
    lines = "1 put 31 61", "1 batch", "1 batch put 39 31 del 31", "1 get 31", "2 get 39"
    made, not_made = ("done", "none", "some 31"), ("memory", "some 61", "none")
    answers = [lines_of("none", "done", *it) for it in (made, not_made)]
    return Refusals(STORE, lines_of(*lines), answers[0], answers[1:])


def of_reads_under_a_pin():
    """Three pairs, which one pass pins and another changes."""
    pairs = [(b"1", b"x"), (b"39", b"y"), (b"a", b"z")]
    made, root = nodes.build(pairs)
    first = ("1 put 31 78", "1 put 61 7a", "1 put 3339 79", "1 pin", "2 del 31")
    reads = {
        "range - - 9": ["pairs 3", *(f"pair {key.hex()} {value.hex()}" for key, value in pairs)],
        "prove 31": [nodes.proof_for(made, root, b"1").hex()],
        "node": [made[root].text().hex()],
    }
    for read, found in reads.items():
        answers = [lines_of("none", "none", "none", "pinned 3", "some 78", *it, "some 78")
                   for it in (found, ["memory"])]
        yield Refusals(STORE, lines_of(*first, f"1 {read}", "1 get 31"), answers[0], answers[1:])


# ---- lines of scripts over shards


class Map:
    """A sharded map, and what it answers to lines that are refused memory, and to others."""

    def __init__(self, splits):
        self.splits, self.known, self.format = splits, {}, 1
        # of each pass that pins: the pairs and the format
        self.pinned = {}

    def edit(self, fields):
        """Makes the edits that these fields are, and returns the last value that was there."""
        fields, old = list(fields), None
        while fields:
            name, key = fields.pop(0), bytes.fromhex(fields.pop(0))
            old = self.known.pop(key, None)
            if name == "put":
                self.known[key] = bytes.fromhex(fields.pop(0).replace("-", ""))
        return old

    def write(self, fields, refused):
        if refused:
            return "memory"
        if fields[0] == "migrate":
            was, self.format = self.format, int(fields[1])
            return f"was {was}"
        if fields[0] == "batch":
            self.edit(fields[1:])
            return "done"
        return told(self.edit(fields))

    def pin(self, number):
        self.pinned[number] = dict(self.known), self.format
        # the scripts pin after one version
        return "pinned 1" if self.known else "pinned 0"

    def unpin(self, number):
        del self.pinned[number]
        return "unpinned"

    def read(self, number, fields, refused):
        """A lookup, a root digest and a format take no memory, and no list of no pairs does."""
        known, format = self.pinned.get(number, (self.known, self.format))
        model = sharding.split(format, known, self.splits)
        if refused and (fields[0] == "prove" or fields[0] == "range" and known):
            return "memory"
        pairs = [f"pair {key.hex()} {known[key].hex()}" for key in sorted(known)]
        found = {"range": lambda: "\n".join([f"pairs {len(pairs)}", *pairs]),
                 "root": lambda: model.root.hex(), "format": lambda: f"format {format}",
                 "get": lambda: told(known.get(bytes.fromhex(fields[1]))),
                 "prove": lambda: model.proof(bytes.fromhex(fields[1])).hex()}
        return found[fields[0]]()

    def answer(self, line, refused):
        number, *fields = line.split(" ")
        if fields[0] in ("pin", "unpin"):
            return getattr(self, fields[0])(number)
        if fields[0] in ("put", "del", "batch", "migrate"):
            return self.write(fields, refused)
        return self.read(number, fields, refused)


def told(value):
    return "none" if value is None else f"some {value.hex() or '-'}"


def over_shards(words, splits, lines):
    """The answers with ample memory, those where one line is refused it, and those where all from
    one on are."""
    refusals = [(place, end) for place in range(len(lines))
                for end in (place + 1, len(lines))]
    answers = []
    for first, end in [(0, 0), *refusals]:
        it = Map(splits)
        told = lines_of(*(it.answer(line, first <= place < end)
                          for place, line in enumerate(lines)))
        answers += [] if told in answers else [told]
    return Refusals(words, lines_of(*lines), answers[0], answers[1:])


SPLIT = b"\x1c"
SHARDS = f"run --rows 32 --passes 3 --splits {SPLIT.hex()}"
# The second shard has more keys than the first one, so that it takes more memory to migrate.
HELD = {b"\x11": b"1", b"\x1c": b"2", b"\x1d": b"3", b"\x1e": b"4", b"\x1f": b"5", b"\x20": b"6",
        b"\x21": b"7"}
OF_TWO = [
    ("1 range - - 9", "1 get 11"),
    ("1 root", "1 root", "1 get 11"),
    ("2 prove 11", "1 get 11"),
    ("2 put 11 38", "1 get 11"),
    ("2 del 1f", "1 get 1f"),
    ("1 batch", "1 get 11"),
    ("3 batch put 11 38 put 12 39 put 13 - put 1f 3a", "1 get 11", "1 get 1f"),
    ("3 batch put 11 38 put 1f 39 put 1e - put 1d -", "1 get 11", "1 get 1f"),
    ("1 migrate 1", "2 format"),
    ("1 migrate 2", "2 format", "2 root", "1 get 21"),
    # a pinned pass stays in the map that it has pinned
    ("2 pin", "1 migrate 2", "2 format", "2 root", "2 unpin", "2 format", "2 root"),
    ("1 pin", "2 migrate 2", "3 migrate 1", "1 root", "1 unpin", "1 root"),
]


def of_two_shards():
    puts = " ".join(f"put {key.hex()} {value.hex()}" for key, value in HELD.items())
    for lines in OF_TWO:
        yield over_shards(SHARDS, [SPLIT], [f"1 batch {puts}", *lines])


def of_four_shards():
    """Four shards of ten keys each: all have their edits, or none."""
    keys = [bytes([16 * (1 + shard), number]) for shard in range(4) for number in range(10)]
    batch = " ".join(["1 batch", *(f"put {key.hex()} 31" for key in keys)])
    gets = [f"1 get {key.hex()}" for key in keys]
    words = "run --rows 64 --passes 1 --splits 20,30,40"
    splits = [b"\x20", b"\x30", b"\x40"]
    yield over_shards(words, splits, [batch, *gets])
    yield over_shards(words, splits, [batch, "1 migrate 2", "1 format", *gets])


def of_odd_digits(program):
    """The growths of a text of an odd number of digits, for which no bytes are made, and of one of
    a digit less, for which they are."""
    for digits in 8_001, 8_000:
        program.run(["verify", NONE, "62"], b"0" * digits, {})
        yield program.growths()[0]


def judged(program):
    """A title and a fault, or none, of each run."""
    cases = [*STARTS, of_ranges(), of_proofs(), of_migrations(), of_batches(),
             *of_reads_under_a_pin(), *of_two_shards(), *of_four_shards()]
    for case in cases:
        for fault in case.faults(program):
            yield f"memory that is refused: {case.words}: {case.given[-80:]!r}", fault
    odd, even = of_odd_digits(program)
    yield "growths for an odd number of digits", "" if odd + 1 == even else f"{odd}, and {even}"
