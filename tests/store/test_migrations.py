"""Migrations over stores of few rows: the tree of the map in the other format, while a reader
stays in its own."""
import unittest
from hashlib import sha256

from mst_store import Format, open_store
from two_passes import ROOT_OF_NONE, Case, root_of

ONE, TWO = Format.ONE, Format.TWO

# In format 1 both stand in one node, in three rows. In format 2 the key 9 has layer 1, and stands
# in a node above that of the key 1: four rows.
PAIRS = [(b"1", b"a"), (b"9", b"1")]
ROOT_IN_ONE = sha256(bytes.fromhex("01 00 0002 00 01 31 01 61 00 01 39 01 31 00")).digest()
ROOT_IN_TWO = root_of(PAIRS, 2)

MOVES = 1000  # how many migrations go on beside a pin that stays


def with_pairs(rows):
    one, other = open_store(rows=rows, passes=2)
    for key, value in PAIRS:
        one.try_put(key, value)
    return one, other


class Migrations(Case):
    def assert_moves(self, store, to, before):
        self.assertIs(store.try_migrate(to), before)

    def test_a_store_goes_to_another_format_and_back(self):
        # four rows are blank, and four needed
        one, other = with_pairs(7)
        self.assertEqual((one.root(), one.format(), one.rows()), (ROOT_IN_ONE, ONE, 3))
        self.assert_moves(one, TWO, ONE)
        self.assertEqual((one.format(), other.format(), one.rows()), (TWO, TWO, 4))
        self.assertEqual((one.get(b"1"), one.root()), (b"a", ROOT_IN_TWO))
        # to the format that stands no row is taken
        self.assert_moves(one, TWO, TWO)
        self.assertEqual(one.rows(), 4)
        self.assert_moves(other, ONE, TWO)
        self.assertEqual((one.root(), one.version()), (ROOT_IN_ONE, 5))

    def test_a_migration_that_finds_no_room_changes_nothing(self):
        one, other = with_pairs(6)
        with self.no_room():
            one.try_migrate(TWO)
        self.assertEqual((one.version(), one.format()), (2, ONE))
        self.assertEqual((one.root(), one.rows()), (ROOT_IN_ONE, 3))
        # the turn was given back
        self.assert_moves(other, ONE, ONE)
        self.assertEqual(other.try_remove(b"9"), b"1")
        self.assert_moves(one, TWO, ONE)
        self.assertEqual(one.get(b"1"), b"a")

    def test_a_pinned_pass_keeps_its_format(self):
        reader, writer = with_pairs(7)
        with reader.pin() as then:
            self.assert_moves(writer, TWO, ONE)
            self.assertEqual((then.root(), then.format()), (ROOT_IN_ONE, ONE))
            self.assertEqual((writer.format(), writer.root()), (TWO, ROOT_IN_TWO))
            # no row is blank
            with self.no_room():
                writer.try_migrate(ONE)
            with self.no_room():
                writer.try_put(b"1", b"b")
            self.assert_moves(writer, TWO, TWO)
            self.assertEqual(then.get(b"9"), b"1")
        self.assertIs(reader.format(), TWO)
        self.assert_moves(writer, ONE, TWO)
        self.assertEqual(reader.version(), 5)

    def test_rows_of_a_pin_that_stays_are_in_its_format(self):
        reader, writer = with_pairs(7)
        with reader.pin():
            self.assert_moves(writer, TWO, ONE)
            self.assert_moves(writer, TWO, TWO)
            with self.no_room():
                writer.try_migrate(ONE)
            self.assertIs(writer.format(), TWO)

    def test_the_empty_map_goes_to_another_format(self):
        one, other = open_store(rows=4, passes=2)
        self.assert_moves(one, TWO, ONE)
        self.assertEqual((other.root(), other.format()), (ROOT_OF_NONE, TWO))
        self.assertEqual(other.rows(), 0)
        self.assertIsNone(other.try_put(b"9", b"1"))
        self.assertEqual(one.version(), 2)

    def test_a_thousand_migrations_beside_a_pin_take_six_rows(self):
        # two rows stay with the pinned version, and two and two serve the others in turn
        reader, writer = open_store(rows=6, passes=2)
        self.assertIsNone(reader.try_put(b"1", b"a"))
        with reader.pin():
            for number in range(MOVES):
                to, before = (TWO, ONE) if number % 2 == 0 else (ONE, TWO)
                self.assert_moves(writer, to, before)
            self.assert_not_counted(writer)
            self.assertEqual((writer.format(), writer.get(b"1")), (ONE, b"a"))
            self.assertEqual(writer.version(), 1 + MOVES)

    def test_five_rows_do_not_suffice_beside_a_pin(self):
        reader, writer = open_store(rows=5, passes=2)
        self.assertIsNone(reader.try_put(b"1", b"a"))
        with reader.pin() as then:
            self.assert_moves(writer, TWO, ONE)
            with self.no_room():
                writer.try_migrate(ONE)
            self.assert_moves(writer, TWO, TWO)
            self.assertIs(then.format(), ONE)
        self.assert_moves(writer, ONE, TWO)
        self.assertEqual(reader.rows(), 2)

    def test_a_store_opens_in_format_2(self):
        one, other = open_store(rows=8, passes=2, format=TWO)
        self.assertIs(one.format(), TWO)
        self.assertIsNone(one.try_put(*PAIRS[0]))
        self.assertIsNone(other.try_put(*PAIRS[1]))
        self.assertEqual((one.root(), one.rows()), (ROOT_IN_TWO, 4))
        self.assert_moves(other, ONE, TWO)
        self.assertEqual(one.root(), ROOT_IN_ONE)


if __name__ == "__main__":
    unittest.main()
