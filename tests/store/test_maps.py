"""Maps of many sizes from Python, each made by one batch in an empty store: next to the trees and
proofs that vectors/nodes.py makes of the same pairs, and to the verifier in Python."""
import contextlib
import os
import sys
import unittest

from mst_store import NO_FREE_ROWS, Format, Refused, open_store

HERE = os.path.dirname(os.path.abspath(__file__))
sys.path += [os.path.join(HERE, "..", "..", it)
             for it in ("vectors", "verifiers/python", "tests/transcripts")]
import longer  # noqa: E402
import mst_verifier  # noqa: E402
import nodes  # noqa: E402

# The most rows that a store can have.
MOST_ROWS = 65_535

# A key above all others.
ABSENT = b"\xff"


def tree_of(pairs, format=Format.ONE):
    """The root digest of a map of sorted pairs, and how many rows it takes: one for each pair and
    one for each node."""
    made, root = nodes.build(pairs, format)
    return root, len(pairs) + len(made)


def loaded(pairs, rows=MOST_ROWS, format=Format.ONE):
    """A store to which one batch has put these pairs."""
    (store,) = open_store(rows=rows, passes=1, format=format)
    store.apply(pairs)
    return store


@contextlib.contextmanager
def emptied(free, format):
    """A store with an empty map and so many free rows: a pinned version has the three others."""
    reader, writer = open_store(rows=3 + free, passes=2, format=format)
    writer.apply([(b"1", b"x"), (b"4", b"z")])
    with reader.pin():
        writer.apply([(b"1", None), (b"4", None)])
        yield writer


# Batches in the empty map, each with the rows that it takes in format 1 and in format 2.
LOADS = [
    ([(b"c", None), (b"8", b"x")], (2, 2)),
    # falling keys of several layers, and one key twice
    ([(b"b", b"1"), (b"a", b"2"), (b"8", b"3"), (b"4l", b"4"), (b"c", None), (b"05f", b""),
      (b"8", b"5")], (8, 9)),
    # what is put is removed
    ([(b"a", None), (b"b", b"1"), (b"b", None)], (0, 0)),
    # one edit, of keys of several layers
    *(([(key, b"x")], (2, 2)) for key in (b"8", b"4l", b"05f")),
    *(([(key, None)], (0, 0)) for key in (b"8", b"4l", b"05f")),
]


class Loads(unittest.TestCase):
    def test_a_batch_in_the_empty_map_takes_exactly_its_rows(self):
        for (edits, taken), format in ((load, format) for load in LOADS for format in Format):
            held = {key: value for key, value in dict(edits).items() if value is not None}
            root, rows = tree_of(sorted(held.items()), format)
            self.assertEqual(rows, taken[format - 1])
            for free in range(1, 16):
                with self.subTest(edits=edits, format=format, free=free), \
                        emptied(free, format) as writer:
                    self.fits(writer, edits, root, rows)

    def fits(self, writer, edits, root, rows):
        free = writer.free_rows()
        if rows <= free:
            writer.apply(edits)
            self.assertEqual((writer.root(), writer.free_rows()), (root, free - rows))
            return
        with self.assertRaises(Refused) as caught:
            writer.apply(edits)
        self.assertEqual(caught.exception.code, NO_FREE_ROWS)
        self.assertEqual((writer.root(), writer.free_rows()), (nodes.EMPTY, free))


def pairs_of_one_node(end):
    """Pairs whose keys all have layer 0 and so stand in one node, with values of 64 bytes: the
    numbers below this one, in three bytes, that have this layer."""
    keys = (number.to_bytes(3, "big") for number in range(end))
    return [(key, key[2:] * 64) for key in keys if nodes.layer_of(key) == 0]


def below(key):
    """The greatest key below this one, whose last byte is not 0."""
    return (key[:-1] + bytes([key[-1] - 1])).ljust(32, b"\xff")


class Maps(unittest.TestCase):
    def proves(self, store, root, key, value):
        self.assertEqual(mst_verifier.verify(Format.ONE, root, key, store.prove(key)), value)

    def finds_all(self, pairs, rows=MOST_ROWS):
        """All pairs in one range, and proofs of the pair in their middle and of a key behind them.
        Returns the store."""
        store = loaded(pairs, rows)
        root = store.root()
        self.assertEqual(store.range(), pairs)
        for key, value in pairs[len(pairs) // 2 :][:1]:
            self.proves(store, root, key, value)
        self.proves(store, root, ABSENT, None)
        return store

    def test_each_size_up_to_2000(self):
        pairs = longer.generated(2_000, 3)
        for count in range(2_001):
            self.finds_all(pairs[:count], 4_000)

    def test_roots_of_numbers(self):
        for count in (*range(301), 1_000, 1_001, 4_095, 4_096, 8_191, 16_385, 30_000, 30_001,
                      32_768, 60_000):
            keys = [number.to_bytes(3, "big") for number in range(count)]
            pairs = [(key, key[1:]) for key in keys]
            self.assertEqual(loaded(pairs).root(), tree_of(pairs)[0])

    def test_large_maps(self):
        for count, seed in ((4_096, 5), (30_001, 6), (60_000, 7)):
            pairs = longer.generated(count, seed)
            self.assertEqual(self.finds_all(pairs).root(), tree_of(pairs)[0])

    def test_large_nodes(self):
        # the entries of the last one, and its head, take all rows that there can be
        for end, count in ((5_000, 4_712), (69_815, MOST_ROWS - 1)):
            pairs = pairs_of_one_node(end)
            self.assertEqual(len(pairs), count)
            self.assertEqual(self.finds_all(pairs).root(), tree_of(pairs)[0])

    def test_ranges_inside_one_node(self):
        pairs = pairs_of_one_node(8_750)
        store, middle = self.finds_all(pairs), len(pairs) // 2
        key, last = pairs[middle][0], pairs[-1][0]
        self.assertEqual(store.range(key, limit=3), pairs[middle : middle + 3])
        self.assertEqual(store.range(key + b"\0", limit=3), pairs[middle + 1 : middle + 4])
        self.assertEqual(store.range(last + b"\0", limit=3), [])
        self.assertEqual(store.range(key, pairs[middle + 5][0]), pairs[middle : middle + 5])

    def test_proofs_beside_each_of_10000_keys(self):
        pairs = longer.generated(10_000, 11)
        store = loaded(pairs)
        root = store.root()
        self.assertEqual(root, tree_of(pairs)[0])
        for key, value in pairs:
            self.proves(store, root, key, value)
            self.proves(store, root, key + b"\0", None)
            if key[-1]:
                self.proves(store, root, below(key), None)
        for key in (b"\0", b"\xff" * 32):
            self.proves(store, root, key, None)


if __name__ == "__main__":
    unittest.main()
