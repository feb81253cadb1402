"""Cases of scripts whose answers are those of a plain model (model.py): stores that run out of
rows, random changes, all short batches, and a deep tree."""
import itertools

from model import Script, Version, spelt
from transcript import Case
import nodes

MASK = (1 << 64) - 1


def next_random(state):
    """The next of a sequence of random numbers of 64 bits."""
    return (state * 6_364_136_223_846_793_005 + 1_442_695_040_888_963_407) & MASK


# ---- stores that run out of rows

# The keys 1 and a are of layer 0, and 39 is of layer 1 and stands between them. Each write has its
# key, its value or none, its answer, and how many rows the map then takes.
ONE, TWO, TOP = (b"1", b"x", "none", 2), (b"a", b"z", "none", 3), (b"39", b"y", "none", 6)

ROOMS = [
    # two rows are left over, and three are needed
    (4, [ONE, (b"a", b"z", "noroom", 2), (b"z", None, "none", 2), (b"1", b"x", "some 78", 2),
         (b"1", b"y", "some 78", 2)]),
    (5, [ONE, TWO, (b"1", b"y", "noroom", 3)]),
    (6, [ONE, TWO, (b"1", b"y", "some 78", 3)]),
    # six rows are left over, and six are needed; to take the key out again, three and three
    (9, [ONE, TWO, TOP, (b"39", None, "some 79", 3)]),
    (8, [ONE, TWO, (b"39", b"y", "noroom", 3)]),
    # the node of a is shared, so four are needed
    (10, [ONE, TWO, TOP, (b"1", b"y", "some 78", 6)]),
    (9, [ONE, TWO, TOP, (b"1", b"y", "noroom", 6)]),
]


def rooms():
    for size, steps in ROOMS:
        script = Script(size)
        for key, value, answer, taken in steps:
            script.write(1, key, value)
            assert script.answers[-1] == answer
            script.root(1)
            script.get(1, key)
            script.rows(1)
            assert script.answers[-1] == f"rows {taken}"
        yield script.case("a node is copied whole, and a top node splits the tree below")


def see_all(script):
    """All that a pass says of a map: its root digest, rows, values, and what follows each key."""
    script.root(1)
    script.next(1)
    for key in script.current.keys:
        script.get(1, key)
        script.next(1, key)


def one_more_key(free):
    """A map of two keys beside so many free rows, to which the third one is put."""
    if free > 0:
        script = Script(3 + free)
    else:
        # a store has at least four rows: two are those of a pinned version
        script = Script(5, passes=2)
        script.put(1, b"1", b"x")
        script.pin(2)
    script.batch(1, [(b"1", b"x"), (b"a", b"z")])
    assert script.free() == free
    script.put(1, b"39", b"y")
    see_all(script)
    script.rows(1)
    return script


def one_key_less(free):
    """A map of three keys beside so many free rows, from which the one above is removed."""
    script = Script(6 + free)
    script.batch(1, [(b"1", b"x"), (b"39", b"y"), (b"a", b"z")])
    assert script.free() == free
    script.remove(1, b"39")
    see_all(script)
    script.rows(1)
    return script


def exact_rows():
    for free in range(7):
        script = one_more_key(free)
        assert script.refused == (free < 6) and script.free() == (free if free < 6 else 3 + 3 - 3)
        yield script.case("a put takes exactly six rows")
    for free in range(4):
        script = one_key_less(free)
        assert script.refused == (free < 3) and script.free() == (free if free < 3 else 6)
        yield script.case("a remove takes exactly three rows")


def full_rows():
    """What changes nothing takes no row where none is free."""
    script = Script(5, passes=2)
    script.put(1, b"1", b"x")
    script.pin(2)
    script.put(1, b"a", b"z")
    for key, value, refused in ((b"a", b"z", 0), (b"39", None, 0), (b"a", b"y", 1)):
        script.write(1, key, value)
        assert script.refused == refused and script.free() == 0
        see_all(script)
    yield script.case("what changes nothing takes no row")


# ---- random changes

# Keys of each layer from 0 to 4 in format 1, by their numbers in three bytes.
LAYERED = [
    [32304, 285841, 401284, 593176, 696936, 729438,
     772453, 827742, 829847, 889598, 941356, 1031604],
    [59407, 128036, 175591, 276789, 410889, 516087,
     519912, 723365, 864937, 938640, 970296, 1007905],
    [16855, 113891, 207175, 246990, 278595, 280696,
     317958, 432940, 466303, 613703, 647876, 818585],
    [454, 34446, 150314, 266472, 280245, 302533,
     331799, 335134, 426653, 431720, 732112, 851303],
    [188984, 210621, 297332, 403217, 464402, 611462,
     672457, 720972, 727357, 756205, 928957, 978653],
]


def numbered(number):
    return number.to_bytes(3, "big")


def layered_keys():
    for layer, numbers in enumerate(LAYERED):
        assert all(nodes.layer_of(numbered(number)) == layer for number in numbers)
    return [numbered(number) for numbers in LAYERED for number in numbers]


def change(script, key, value):
    """A change, and all values after it. Returns whether there was room."""
    refused = script.refused
    script.write(1, key, value)
    script.root(1)
    script.rows(1)
    for held in script.current.keys:
        script.get(1, held)
    return script.refused == refused


def random_changes(rows, seed):
    """Six hundred changes of sixty keys of five layers, three puts for two removes."""
    script, keys, state = Script(rows), layered_keys(), seed
    for _ in range(600):
        state = next_random(state)
        random = state >> 32
        value = random.to_bytes(4, "big")[: (random >> 24) % 5]
        change(script, keys[(random >> 8) % 60], value if random % 5 < 3 else None)
    see_all(script)
    return script


def changes_at_random():
    script = random_changes(300, 1)
    assert script.refused == 0
    yield script.case("random changes in many rows")
    script = random_changes(70, 2)
    assert 0 < script.refused < 300
    yield script.case("random changes in few rows")


def change_each(script, keys, value):
    for key in keys:
        assert change(script, key, value)


def filled_and_emptied():
    keys = layered_keys()
    script = Script(300)
    change_each(script, keys, b"value")
    change_each(script, keys[::-1], None)
    assert script.free() == 300
    yield script.case("the greatest layer goes first")

    script, longest = Script(40), [bytes([number]) * 32 for number in range(8)]
    for number in range(3):
        change_each(script, longest, bytes([number]) * 64)
    change_each(script, longest, None)
    assert script.free() == 40
    yield script.case("longest keys and values")

    # the node of twelve entries is written beside that of eleven, and takes the last row; so does
    # its removal
    script = Script(25)
    for number in range(10):
        change_each(script, keys[:12], bytes([number]))
        assert not change(script, keys[12], bytes([number]))
        see_all(script)
        change_each(script, keys[:12], None)
        assert script.free() == 25
    yield script.case("filled and emptied ten times")


# The numbers below 300 in decimal digits, of layers 0 to 2, and numbers of layers 2 to 4.
DECIMALS = [str(number).encode() for number in (*range(300), 671, 886, 1039, 88484, 172608)]


def random_call(script, state):
    """A migration, one time of sixteen, or else two puts for each remove; and what the map is then.
    Returns whether it was a migration that went through."""
    choice, refused = state.to_bytes(8, "big"), script.refused
    number = 1 + choice[1] % 2
    if choice[2] % 16 == 0:
        script.migrate(number, 1 + choice[4] % 2)
        script.root(number)
        script.format(number)
        return script.refused == refused
    key = DECIMALS[(state >> 33) % 305]
    script.write(number, key, bytes([choice[3] % 4]) if choice[0] % 3 < 2 else None)
    script.root(number)
    script.get(number, key)
    return False


def long_scripts():
    """Puts, removes and migrations of two passes. In the last store both trees of the whole map
    nearly find room beside each other."""
    for rows, format, seed in ((240, 1, 1), (240, 2, 2), (480, 1, 3)):
        script, state, moved = Script(rows, 2, format), seed, 0
        for _ in range(3_000):
            state = next_random(state)
            moved += random_call(script, state)
        script.rows(1)
        assert 0 < script.refused < 3_000 and moved > 0 and script.current.keys
        yield script.case(f"a long script in {rows} rows, by {seed}")


def random_edits(state):
    """Up to 15 edits, two puts for each remove, and the state of the generator after them."""
    edits, state = [], next_random(state)
    for _ in range(state >> 60):
        state = next_random(state)
        choice, key = state.to_bytes(8, "big"), DECIMALS[(state >> 33) % 305]
        edits.append((key, bytes([choice[3] % 4]) if choice[0] % 3 < 2 else None))
    return edits, state


def random_batches():
    for format in (1, 2):
        script, state = Script(240, 1, format), format
        for _ in range(100):
            edits, state = random_edits(state)
            script.batch(1, edits)
            script.root(1)
        assert 0 < script.refused < 100
        yield script.case(f"random batches in format {format}")


# ---- all batches of up to three edits

# Keys of the layers 0, 1, 0 and 2 in format 1, and of the layers 0, 2, 0 and 1 in format 2.
FOUR = {1: (b"1", b"39", b"4", b"671"), 2: (b"1", b"39", b"4", b"8")}


def edit(key, left):
    """The edit that leaves this at the key: 0 for nothing, or the one byte of the value."""
    return f"put {spelt(key)} {left:02x}" if left else f"del {spelt(key)}"


def found(left):
    return f"some {left:02x}" if left else "none"


def maps_of(keys, format):
    """The root digest and the rows of each map of these keys, by what it has at them."""
    maps = {}
    for held in itertools.product(range(3), repeat=4):
        version = Version([(key, bytes([left])) for key, left in zip(keys, held) if left], format)
        maps[held] = version.root.hex(), sum(version.rows().values())
    return maps


class ShortBatches:
    """A writer that makes one batch after another from the map of a set of four keys, while a
    reader pins the map before it."""

    def __init__(self, keys, maps):
        self.keys, self.maps, self.version, self.held = keys, maps, 0, (0, 0, 0, 0)
        self.lines, self.answers = [], []

    def begin(self, start):
        for key, old, left in zip(self.keys, self.held, start):
            self.lines.append(f"1 {edit(key, left)}")
            self.answers.append(found(old))
        self.version += 4

    def stands(self, held):
        root, rows = self.maps[held]
        self.lines += ["1 root", "1 rows"]
        self.answers += [root, f"rows {rows}"]

    def batch(self, start, edits):
        """The batch is one version, of the map that its edits leave, and the pinned one stays."""
        self.begin(start)
        self.stands(start)
        after, version = list(start), self.version
        for place, left in edits:
            after[place] = left
        words = " ".join(["1 batch", *(edit(self.keys[place], left) for place, left in edits)])
        self.lines += ["2 pin", words, "1 pin", "1 unpin"]
        self.answers += [f"pinned {version}", "done", f"pinned {version + 1}", "unpinned"]
        self.lines += [*(f"2 get {spelt(key)}" for key in self.keys), "2 root", "2 unpin"]
        self.answers += [*map(found, start), self.maps[start][0], "unpinned"]
        self.version, self.held = version + 1, tuple(after)
        self.stands(self.held)


def short_batches():
    """From each map of a set of the keys. All nodes of two maps find room in the store, and no
    more."""
    every = [(place, left) for left in range(3) for place in range(4)] + [None]
    for format, keys in FOUR.items():
        maps = maps_of(keys, format)
        for start in itertools.product(range(2), repeat=4):
            batches = ShortBatches(keys, maps)
            for edits in itertools.product(every, repeat=3):
                batches.batch(start, [it for it in edits if it])
            line = f"mst run --rows 16 --passes 2 --format {format}"
            given, out = ("\n".join(text) + "\n" for text in (batches.lines, batches.answers))
            yield Case(f"modelled.py: all short batches: {line}", line.encode().split(b" "),
                       given.encode(), True, 0, out.encode())


# ---- a deep tree

# A key of each layer in format 2, from 14 down to 0. Each lies between the two before it, so the
# nodes hang in turns before the entry of the node above and after it.
DEEP = [b"z338499454", b"b12483696", b"y20022483", b"c11371238", b"x842172", b"d467806", b"w48396",
        b"e17178", b"v6284", b"f61", b"u191", b"g57", b"t28", b"h1", b"s0"]


def stands(script, number, rows):
    script.root(number)
    script.rows(number)
    assert script.answers[-1] == f"rows {rows}"


def prove_each(script, number):
    """The proof of each key has a text for its node and for each above it."""
    for place, key in enumerate(DEEP):
        assert len(list(script.current.texts(key))) == place + 1
        script.prove(number, key)


def deep_trees():
    assert [nodes.layer_of(key, 2) for key in DEEP] == list(range(14, -1, -1))
    script = Script(64, passes=2)
    for key in DEEP:
        script.put(1, key, b"1")
    stands(script, 1, 23)
    script.migrate(2, 2)
    stands(script, 1, 30)
    prove_each(script, 1)
    for key in DEEP:
        script.get(1, key)
        script.remove(1, key)
        script.get(1, key)
        script.put(1, key, b"1")
    script.migrate(2, 1)
    stands(script, 2, 23)
    yield script.case("a deep tree is made by a migration")

    script = Script(64, passes=2, format=2)
    for key in DEEP[::-1]:
        script.put(1, key, b"1")
    stands(script, 2, 30)
    prove_each(script, 2)
    for key in DEEP:
        script.remove(2, key)
    stands(script, 1, 0)
    yield script.case("a deep tree grows from below and falls from above")


def cases():
    yield from rooms()
    yield from exact_rows()
    yield from full_rows()
    yield from changes_at_random()
    yield from filled_and_emptied()
    yield from long_scripts()
    yield from random_batches()
    yield from short_batches()
    yield from deep_trees()
