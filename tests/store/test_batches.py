"""Batches over stores of few rows: many edits in one version, against the same edits one by one;
and batches that fill a store to its last row, are refused one row short, and free rows where none
is left."""
import unittest
from typing import NamedTuple

from mst_store import Format, open_store
from two_passes import ROOT_OF_BOTH, ROOT_OF_NONE, Case

# Of a with 1 and abc with x, in an order that is not that of the keys, by way of others.
EDITS = [(b"b", b"2"), (b"abc", b"y"), (b"a", b"1"), (b"b", None), (b"abc", b"x"), (b"z", None)]


class Batches(Case):
    def test_the_edits_one_by_one(self):
        store, _ = open_store(rows=8, passes=2)
        known = {}
        for key, value in EDITS:
            old = store.try_remove(key) if value is None else store.try_put(key, value)
            self.assertEqual(old, known.pop(key, None))
            if value is not None:
                known[key] = value
        self.assertEqual(store.root(), ROOT_OF_BOTH)
        self.assertEqual((store.rows(), store.version()), (3, len(EDITS)))

    def test_a_batch_leaves_the_map_of_its_edits_as_one_version(self):
        one, other = open_store(rows=8, passes=2)
        one.try_apply(EDITS)
        self.assertEqual((one.root(), other.root()), (ROOT_OF_BOTH, ROOT_OF_BOTH))
        self.assertIsNone(other.get(b"b"))
        self.assertEqual((one.rows(), one.version()), (3, 1))
        # all of it again changes nothing, and is a version
        other.try_apply(EDITS)
        self.assertEqual((other.root(), other.version()), (ROOT_OF_BOTH, 2))
        other.try_apply([(b"a", None), (b"abc", None)])
        self.assertEqual((one.root(), one.rows(), one.version()), (ROOT_OF_NONE, 0, 3))

    def test_no_edits_are_a_version_that_takes_no_row(self):
        one, other = open_store(rows=4, passes=2)
        one.try_apply([])
        self.assertEqual(one.root(), ROOT_OF_NONE)
        other.try_apply([(b"b", b"2"), (b"a", b"1"), (b"c", b"3")])
        # no row is left over
        self.assertEqual(one.rows(), 4)
        one.try_apply([])
        other.apply([])
        with self.no_room():
            other.try_apply([(b"b", None)])
        self.assertEqual((one.get(b"b"), one.version()), (b"2", 4))

    def test_a_batch_that_finds_no_room_changes_nothing(self):
        one, other = open_store(rows=4, passes=2)
        self.assertIsNone(one.try_put(b"abc", b"x"))
        # two rows are left over, and three are needed
        with self.no_room():
            one.try_apply(EDITS)
        with self.no_room():
            other.apply(EDITS)
        self.assertEqual((one.version(), one.rows()), (1, 2))
        self.assertEqual((one.get(b"abc"), one.get(b"a")), (b"x", None))
        # the turn was given back
        other.try_apply([(b"abc", None), (b"a", b"1")])
        self.assertEqual((one.get(b"abc"), one.version()), (None, 2))

    def test_a_pinned_pass_sees_none_of_a_batch(self):
        reader, writer = open_store(rows=6, passes=2)
        self.assertIsNone(reader.try_put(b"a", b"1"))
        self.assertIsNone(reader.try_put(b"abc", b"x"))
        with reader.pin() as then:
            writer.try_apply([(b"a", None), (b"b", b"2"), (b"abc", b"y")])
            self.assertEqual((then.get(b"a"), then.get(b"b")), (b"1", None))
            self.assertEqual((then.root(), then.version()), (ROOT_OF_BOTH, 2))
            self.assertEqual([writer.get(key) for key in (b"a", b"b", b"abc")], [None, b"2", b"y"])
            # both versions take three rows each
            with self.no_room():
                writer.try_apply([(b"b", None)])
        self.assertIsNone(reader.get(b"a"))
        writer.try_apply([(b"b", None)])
        self.assertEqual(reader.version(), 4)

    def test_a_batch_is_made_in_each_format(self):
        one, other = open_store(rows=16, passes=2)
        self.assertIs(one.try_migrate(Format.TWO), Format.ONE)
        other.try_apply(EDITS)
        self.assertIs(one.try_migrate(Format.ONE), Format.TWO)
        self.assertEqual((one.root(), one.version()), (ROOT_OF_BOTH, 3))

    def test_a_batch_in_turn_goes_through(self):
        one, other = open_store(rows=8, passes=2)
        one.apply(EDITS)
        self.assertEqual(other.root(), ROOT_OF_BOTH)
        other.apply([(b"abc", None), (b"a", None)])
        self.assertEqual((one.root(), one.version()), (ROOT_OF_NONE, 2))


class Load(NamedTuple):
    """A store of so many rows that the keys of the numbers below `count` take all. The tree of so
    many has a lowest node of the first few alone, which takes as many rows and one: the key of the
    number `first` is the first above layer 0."""

    rows: int
    format: Format
    count: int
    first: int


SMALL = Load(200, Format.ONE, 189, 38)
IN_ONE = Load(65535, Format.ONE, 61630, 38)
IN_TWO = Load(65535, Format.TWO, 52456, 4)


def numbered(number):
    return number.to_bytes(4, "big")


def puts_below(count):
    """Puts of the keys of the numbers below this, in falling order."""
    return [(numbered(number), numbered(number)) for number in reversed(range(count))]


class Loads(Case):
    def assert_no_room(self, store, edits, rows):
        with self.no_room():
            store.try_apply(edits)
        self.assertEqual(store.rows(), rows)

    def assert_fills(self, store, load, before):
        """The keys below the count fill the store, and one more finds no room."""
        self.assert_no_room(store, puts_below(load.count + 1), before)
        store.try_apply(puts_below(load.count))
        self.assertEqual(store.rows(), load.rows)

    def assert_full(self, store, load):
        """It takes no put, and no batch of one remove."""
        with self.no_room():
            store.try_put(numbered(0), b"x")
        self.assert_no_room(store, [(numbered(0), None)], load.rows)

    def assert_frees(self, store, load, left, rows):
        """The batch that leaves the keys below this goes through, though no row is free."""
        store.try_apply((numbered(number), None) for number in range(left, load.count))
        self.assertEqual(store.rows(), rows)

    def assert_fills_and_frees(self, load):
        (store,) = open_store(rows=load.rows, passes=1, format=load.format)
        self.assert_fills(store, load, 0)
        self.assert_full(store, load)
        root, left = store.root(), load.first + 1
        # all but one node, and then the same again beside it
        self.assert_frees(store, load, load.first, left)
        self.assert_fills(store, load, left)
        self.assertEqual(store.root(), root)
        self.assert_full(store, load)
        self.assert_frees(store, load, 0, 0)
        self.assertEqual((store.root(), store.version()), (ROOT_OF_NONE, 4))

    def assert_refused_short(self, load):
        """The load finds no room in a store that is one row short of it."""
        (store,) = open_store(rows=load.rows - 1, passes=1, format=load.format)
        self.assert_no_room(store, puts_below(load.count), 0)
        self.assertEqual(store.root(), ROOT_OF_NONE)

    def test_a_load_fills_a_store_to_the_last_row(self):
        for load in (SMALL, IN_ONE, IN_TWO):
            with self.subTest(load=load):
                self.assert_fills_and_frees(load)
                self.assert_refused_short(load)


if __name__ == "__main__":
    unittest.main()
