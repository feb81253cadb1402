"""A plain model of a store, beside which scripts are answered: a list of pairs, the nodes of its
tree by vectors/nodes.py, and which rows the versions hold that are kept."""
import bisect
import functools
import os
import sys

from transcript import Case

sys.path.append(os.path.join(os.path.dirname(os.path.abspath(__file__)), "..", "..", "vectors"))
import nodes


@functools.lru_cache(4_096)
def tree_of(pairs, format):
    """The root digest of the tree of these pairs in their order, or None if there are none, and its
    nodes by their digests. A change leaves most trees as they were, so they are kept."""
    if not pairs:
        return None, {}
    layers = [nodes.layer_of(key, format) for key, _ in pairs]
    layer = max(layers)
    tops = [place for place, it in enumerate(layers) if it == layer]
    bounds = [-1, *tops, len(pairs)]
    trees = [tree_of(pairs[low + 1 : high], format) for low, high in zip(bounds, bounds[1:])]
    keys, values = zip(*(pairs[place] for place in tops))
    node = nodes.Node(layer, keys, values, [digest for digest, _ in trees], format)
    found = {node.digest(): node}
    for _, below in trees:
        found.update(below)
    return node.digest(), found


class Version:
    """A map with its format and its tree, and of each node of it the number of the change that made
    its rows."""

    def __init__(self, pairs, format, before=None, change=0):
        self.pairs, self.format = sorted(pairs), format
        self.keys = [key for key, _ in self.pairs]
        root, self.nodes = tree_of(tuple(self.pairs), format)
        self.root = root or nodes.EMPTY
        made = before.made if before else {}
        self.made = {it: made.get(it, change) for it in self.nodes}

    def value(self, key):
        place = bisect.bisect_left(self.keys, key)
        return self.pairs[place][1] if self.keys[place : place + 1] == [key] else None

    def rows(self):
        """How many rows each node takes, by its digest and the change that made it."""
        return {(it, self.made[it]): 1 + len(node.keys) for it, node in self.nodes.items()}

    def texts(self, key):
        """The texts of the nodes that a search for the key meets."""
        digest = None if self.root == nodes.EMPTY else self.root
        while digest is not None:
            node = self.nodes[digest]
            yield node.text()
            place = bisect.bisect_left(node.keys, key)
            found = node.keys[place : place + 1] == [key]
            digest = None if found else node.children[place]

    def proof(self, key):
        claim = nodes.tail(self.value(key)) if self.format == 2 else b""
        return nodes.framed(list(self.texts(key)), format=self.format) + claim


def told(value):
    """The answer that has a value, or none."""
    return "none" if value is None else f"some {spelt(value)}"


def spelt(text):
    """A key, a value or a bound as it stands in a line."""
    return text.hex() or "-"


class Script:
    """The lines of a script with their answers: each method is a line of a pass."""

    def __init__(self, rows, passes=1, format=1):
        self.words = f"mst run --rows {rows} --passes {passes} --format {format}"
        self.size, self.version, self.changes = rows, 0, 0
        self.current, self.pinned = Version([], format), {}
        self.refused, self.lines, self.answers = 0, [], []

    def case(self, title):
        given, out = ("".join(f"{it}\n" for it in text) for text in (self.lines, self.answers))
        words = self.words.encode().split(b" ")
        return Case(f"modelled.py: {title}", words, given.encode(), True, 0, out.encode())

    def line(self, number, text, answer):
        self.lines.append(f"{number} {text}")
        self.answers.append(answer)

    def free(self):
        """How many rows no live version holds."""
        held = {}
        for version in (self.current, *(it for it, _ in self.pinned.values())):
            held.update(version.rows())
        return self.size - sum(held.values())

    def change(self, pairs, format=None):
        """Makes these pairs the newest version if there is room. Returns whether there is."""
        format = format or self.current.format
        new = Version(pairs, format, self.current, self.changes + 1)
        taken = sum(rows for (_, made), rows in new.rows().items() if made > self.changes)
        if taken > self.free():
            self.refused += 1
            return False
        self.changes += 1
        self.version += 1
        self.current = new
        return True

    def edited(self, edits):
        """The pairs after these edits, each a key with its value or None."""
        held = dict(self.current.pairs)
        held.update(edits)
        return [(key, value) for key, value in held.items() if value is not None]

    def put(self, number, key, value):
        old = told(self.current.value(key))
        made = self.change(self.edited({key: value}))
        self.line(number, f"put {spelt(key)} {spelt(value)}", old if made else "noroom")

    def remove(self, number, key):
        old = told(self.current.value(key))
        made = self.change(self.edited({key: None}))
        self.line(number, f"del {spelt(key)}", old if made else "noroom")

    def write(self, number, key, value):
        """A put, or a remove if there is no value."""
        if value is None:
            self.remove(number, key)
        else:
            self.put(number, key, value)

    def batch(self, number, edits):
        """A batch of these edits, each a key with its value or None."""
        made = self.change(self.edited(dict(edits)))
        words = (f" del {spelt(key)}" if value is None else f" put {spelt(key)} {spelt(value)}"
                 for key, value in edits)
        self.line(number, "batch" + "".join(words), "done" if made else "noroom")

    def migrate(self, number, format):
        was = self.current.format
        made = self.change(self.current.pairs, format)
        self.line(number, f"migrate {format}", f"was {was}" if made else "noroom")

    def seen(self, number):
        """The version that a pass reads."""
        return self.pinned[number][0] if number in self.pinned else self.current

    def get(self, number, key):
        self.line(number, f"get {spelt(key)}", told(self.seen(number).value(key)))

    def next(self, number, key=b""):
        version = self.seen(number)
        place = bisect.bisect_right(version.keys, key)
        answer = "none" if place == len(version.keys) else pair_line(*version.pairs[place])
        self.line(number, f"next {spelt(key)}", answer)

    def range(self, number, low=b"", high=b"", limit=65_535):
        """The range between two keys, of which the empty one does not bind."""
        version = self.seen(number)
        start = bisect.bisect_left(version.keys, low)
        end = bisect.bisect_left(version.keys, high) if high else len(version.keys)
        found = version.pairs[start : min(max(start, end), start + limit)]
        lines = [f"pairs {len(found)}", *(pair_line(*it) for it in found)]
        self.line(number, f"range {spelt(low)} {spelt(high)} {limit}", "\n".join(lines))

    def root(self, number):
        self.line(number, "root", self.seen(number).root.hex())

    def prove(self, number, key):
        self.line(number, f"prove {spelt(key)}", self.seen(number).proof(key).hex())

    def format(self, number):
        self.line(number, "format", f"format {self.seen(number).format}")

    def rows(self, number):
        taken = sum(self.current.rows().values())
        self.line(number, "rows", "held" if self.pinned else f"rows {taken}")

    def pin(self, number):
        self.pinned[number] = self.current, self.version
        self.line(number, "pin", f"pinned {self.version}")

    def unpin(self, number):
        del self.pinned[number]
        self.line(number, "unpin", "unpinned")

    def count(self, number):
        """The number of the newest version, by a pin that is over at once."""
        self.pin(number)
        self.unpin(number)


def pair_line(key, value):
    return f"pair {spelt(key)} {spelt(value)}"
