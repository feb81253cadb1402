"""Two passes of a small store, one after the other: what one writes the other reads, in ranges, by
next keys and by the root digest; and writes that wait for the turn, which nobody else has."""
import unittest

from mst_store import open_store
from two_passes import BOTH, ROOT_OF_BOTH, ROOT_OF_NONE, Case


class Shared(Case):
    def test_passes_share_a_map(self):
        one, other = open_store(rows=8, passes=2)
        self.assertIsNone(one.try_put(b"abc", b"x"))
        self.assertEqual(other.get(b"abc"), b"x")
        self.assertEqual(other.try_put(b"abc", b""), b"x")
        self.assertEqual((one.get(b"abc"), one.get(b"a")), (b"", None))
        self.assertEqual((one.version(), other.version()), (2, 2))
        # one key and one node
        self.assertEqual(one.rows(), 2)
        self.assertEqual(one.try_remove(b"abc"), b"")
        self.assertIsNone(other.next())

    def test_the_root_depends_on_the_pairs_alone(self):
        for order in (BOTH, BOTH[::-1]):
            one, other = open_store(rows=8, passes=2)
            self.assertEqual(one.root(), ROOT_OF_NONE)
            self.assertIsNone(one.try_put(*order[0]))
            self.assertIsNone(other.try_put(*order[1]))
            self.assertEqual(one.root(), ROOT_OF_BOTH)
            self.assertEqual((one.version(), other.version()), (2, 2))


class Reads(Case):
    def test_ranges_are_in_the_order_of_keys(self):
        _, store = open_store(rows=8, passes=2)
        for key, value in reversed(BOTH):
            self.assertIsNone(store.try_put(key, value))
        self.assertEqual(store.range(limit=10), BOTH)
        self.assertEqual(store.range(limit=1), BOTH[:1])
        self.assertEqual(store.range(limit=0), [])
        self.assertEqual(store.range(b"a", b"abc", 10), BOTH[:1])
        self.assertEqual(store.range(b"b", b"a", 10), [])
        self.assertEqual(store.range(b"abc", limit=10), BOTH[1:])
        self.assertEqual(store.range(b"b", limit=10), [])

    def test_next_goes_from_key_to_key(self):
        one, other = open_store(rows=8, passes=2)
        for key, value in reversed(BOTH):
            self.assertIsNone(one.try_put(key, value))
        self.assertEqual((other.next(), other.next(b"a"), other.next(b"abc")), (*BOTH, None))
        self.assertEqual((other.try_remove(b"a"), one.try_remove(b"a")), (b"1", None))
        self.assertEqual(one.next(), BOTH[1])
        # the remove of a key that is not there is a version too
        self.assertEqual((one.version(), other.version()), (4, 4))

    def test_a_new_store_is_read_as_the_empty_map(self):
        _, store = open_store(rows=8, passes=2)
        with store.pin() as then:
            self.assertEqual((then.version(), then.root()), (0, ROOT_OF_NONE))
            self.assertEqual((then.get(b"a"), then.next()), (None, None))
            self.assertEqual(then.range(stop=b"a", limit=100), [])
            # format 1, and no text
            self.assertEqual(then.prove(b"a"), bytes([1, 0]))
        self.assertEqual(store.root(), ROOT_OF_NONE)


class Waiting(Case):
    def test_a_remove_in_turn_answers_the_old_value(self):
        one, other = open_store(rows=8, passes=2)
        for key, value in reversed(BOTH):
            self.assertIsNone(one.try_put(key, value))
        self.assertEqual(other.remove(b"abc"), b"x")
        self.assertEqual((one.get(b"abc"), other.get(b"abc"), one.get(b"a")), (None, None, b"1"))
        self.assertEqual(one.rows(), 2)
        # a key that is not there: a version all the same
        self.assertEqual((one.remove(b"abc"), one.remove(b"a")), (None, b"1"))
        self.assertEqual((other.root(), other.version()), (ROOT_OF_NONE, 5))

    def test_a_write_in_turn_that_finds_no_room_changes_nothing(self):
        # a map takes three rows: that of the pinned version and the current one take all
        one, other = open_store(rows=6, passes=2)
        for key, value in reversed(BOTH):
            self.assertIsNone(one.try_put(key, value))
        with one.pin():
            self.assertEqual(other.try_put(b"a", b"2"), b"1")
            with self.no_room():
                other.put(b"a", b"3")
            with self.no_room():
                other.remove(b"a")
            self.assertEqual((other.get(b"a"), other.version()), (b"2", 3))
        self.assertEqual(other.remove(b"a"), b"2")
        self.assertIsNone(one.get(b"a"))


if __name__ == "__main__":
    unittest.main()
