"""Pins over stores of few rows: a pinned pass reads its version while the other writes, and the
rows of an older version that is pinned are neither counted nor free."""
import unittest

from mst_store import Format, open_store
from two_passes import BOTH, PROOF_OF_BOTH, ROOT_OF_BOTH, Case

PUTS = 1000  # how many puts go on beside a pin that stays


def both_pinned(rows):
    """A pass that put both pairs, and the other one, which is to pin them."""
    writer, reader = open_store(rows=rows, passes=2)
    for key, value in BOTH:
        writer.try_put(key, value)
    return writer, reader


class Pinned(Case):
    def assert_both(self, then):
        """Each read of the pinned pass finds both pairs."""
        self.assertEqual((then.version(), then.root()), (2, ROOT_OF_BOTH))
        self.assertEqual((then.get(b"a"), then.get(b"b")), (b"1", None))
        self.assertEqual(then.next(), BOTH[0])
        self.assertEqual(then.range(limit=100), BOTH)
        self.assertEqual(then.prove(b"abc"), PROOF_OF_BOTH)

    def test_an_older_version_is_read_beside_the_newest(self):
        one, other = open_store(rows=4, passes=2)
        self.assertIsNone(one.try_put(b"a", b"1"))
        with other.pin() as older:
            self.assertEqual(one.try_put(b"a", b"2"), b"1")
            with one.pin() as newest:
                self.assertEqual((older.version(), older.get(b"a")), (1, b"1"))
                self.assertEqual((newest.version(), newest.get(b"a")), (2, b"2"))
            # the rows of both versions are in use
            with self.no_room():
                one.try_put(b"a", b"3")
        other.close()
        self.assertEqual(one.try_put(b"a", b"3"), b"2")

    def test_a_pinned_pass_reads_its_version(self):
        writer, reader = both_pinned(20)
        with reader.pin() as then:
            self.assert_both(then)
            self.assertEqual(writer.try_put(b"a", b"2"), b"1")
            self.assertIsNone(writer.try_put(b"b", b"3"))
            self.assert_both(then)
            self.assertEqual(writer.try_remove(b"abc"), b"x")
            self.assertEqual(writer.try_remove(b"a"), b"2")
            self.assert_both(then)
        self.assertEqual(reader.version(), 6)
        self.assertEqual((reader.get(b"b"), reader.get(b"a")), (b"3", None))
        self.assertEqual(reader.next(), (b"b", b"3"))

    def test_puts_go_on_beside_a_pin_that_stays(self):
        reader, writer = open_store(rows=6, passes=2)
        self.assertIsNone(reader.try_put(b"a", b"1"))
        with reader.pin():
            old = b"1"
            for number in range(1, PUTS + 1):
                new = bytes([number % 256])
                self.assertEqual(writer.try_put(b"a", new), old)
                old = new
            self.assert_not_counted(writer)
            self.assertEqual(writer.version(), 1 + PUTS)


class Rows(Case):
    def test_rows_are_not_counted_beside_a_pin(self):
        one, other = open_store(rows=8, passes=2)
        self.assertIsNone(one.try_put(b"a", b"1"))
        self.assertEqual(one.rows(), 2)
        # the current version is pinned, and then an older one
        with other.pin():
            self.assert_not_counted(one)
            self.assertEqual(one.try_put(b"a", b"2"), b"1")
            self.assert_not_counted(one)
        self.assertEqual((one.rows(), other.rows()), (2, 2))

    def test_the_rows_of_a_pinned_version_are_not_free(self):
        one, other = open_store(rows=4, passes=2)
        self.assertIsNone(one.try_put(b"a", b"1"))
        with other.pin():
            self.assertEqual(one.try_put(b"a", b"2"), b"1")
            with self.no_room():
                one.try_put(b"a", b"3")
            self.assertEqual(one.get(b"a"), b"2")
        other.close()
        self.assertEqual(one.try_put(b"a", b"3"), b"2")
        self.assertEqual(one.get(b"a"), b"3")

    def test_the_free_rows_are_counted_beside_a_pin(self):
        # a put of another value at a lone key takes two rows
        one, other = open_store(rows=5, passes=2)
        self.assertEqual(one.free_rows(), 5)
        self.assertIsNone(one.try_put(b"a", b"1"))
        self.assertEqual(other.free_rows(), 3)
        # the current version holds its rows, pinned or not
        with other.pin():
            self.assertEqual(one.free_rows(), 3)
            # then the pinned one holds two rows more
            self.assertEqual(one.try_put(b"a", b"2"), b"1")
            self.assertEqual(one.free_rows(), 1)
            with self.no_room():
                one.try_put(b"a", b"3")
            self.assertEqual(one.free_rows(), 1)
            self.assertEqual(one.try_put(b"a", b"2"), b"2")
        self.assertEqual(other.free_rows(), 3)

    def test_one_row_more_is_free_and_just_enough(self):
        one, other = open_store(rows=6, passes=2)
        self.assertIsNone(one.try_put(b"a", b"1"))
        with other.pin():
            self.assertEqual(one.try_put(b"a", b"2"), b"1")
            self.assertEqual(one.free_rows(), 2)
            self.assertEqual(one.try_put(b"a", b"3"), b"2")
            self.assertEqual(one.free_rows(), 2)
            self.assertEqual(one.try_remove(b"a"), b"3")
            self.assertEqual(one.free_rows(), 4)

    def test_a_batch_and_a_migration_find_the_rows_that_were_counted(self):
        one, other = open_store(rows=6, passes=2)
        self.assertIsNone(one.try_put(b"a", b"1"))
        with other.pin():
            self.assertEqual(one.try_put(b"a", b"2"), b"1")
            self.assertEqual(one.free_rows(), 2)
            self.assertIs(one.try_migrate(Format.TWO), Format.ONE)
            self.assertEqual(one.free_rows(), 2)
            with self.no_room():
                one.try_apply([(b"a", b"4"), (b"1", b"5")])
            one.try_apply([(b"a", b"4")])
            self.assertEqual(one.free_rows(), 2)

    def test_a_batch_and_a_migration_are_refused_a_row_short(self):
        one, other = open_store(rows=5, passes=2)
        self.assertIsNone(one.try_put(b"a", b"1"))
        with other.pin():
            self.assertEqual(one.try_put(b"a", b"2"), b"1")
            self.assertEqual(one.free_rows(), 1)
            with self.no_room():
                one.try_migrate(Format.TWO)
            with self.no_room():
                one.try_apply([(b"a", b"4")])
            self.assertEqual(one.free_rows(), 1)


class PinnedVersions(Case):
    def test_a_version_that_is_pinned_is_listed_once(self):
        one, other, third = open_store(rows=32, passes=3)
        self.assertEqual(one.pinned_versions(), [])
        self.assertIsNone(one.try_put(b"a", b"1"))
        with other.pin():
            # the current version, if it is pinned
            self.assertEqual(one.pinned_versions(), [1])
            with third.pin():
                self.assertEqual(one.pinned_versions(), [1])
            self.assertEqual(one.try_put(b"a", b"2"), b"1")
            self.assertEqual((one.pinned_versions(), third.pinned_versions()), ([1], [1]))
            with third.pin():
                self.assertEqual(one.pinned_versions(), [1, 2])
        self.assertEqual(one.pinned_versions(), [])

    def test_nothing_changes(self):
        one, other = open_store(rows=5, passes=2)
        self.assertIsNone(one.try_put(b"a", b"1"))
        with other.pin() as then:
            self.assertEqual(one.try_put(b"a", b"2"), b"1")
            root, free = one.root(), one.free_rows()
            for _ in range(3):
                self.assertEqual(one.pinned_versions(), [1])
            self.assertEqual((one.root(), one.free_rows(), one.version()), (root, free, 2))
            self.assertEqual((then.get(b"a"), one.made()), (b"1", 2))

    def test_a_pin_that_was_forgotten_is_found(self):
        one, other, third = open_store(rows=64, passes=3)
        self.assertIsNone(one.try_put(b"a", b"1"))
        other.pin()
        for _ in range(5):
            one.try_put(b"a", b"2")
            with third.pin() as then:
                self.assertEqual(one.pinned_versions(), [1, then.version()])


class Made(Case):
    def test_a_pass_knows_the_version_that_it_made(self):
        one, other = open_store(rows=32, passes=2)
        self.assertIsNone(one.made())
        self.assertIsNone(one.try_put(b"a", b"1"))
        self.assertEqual((one.made(), other.made()), (1, None))
        self.assertIsNone(other.try_put(b"b", b"1"))
        self.assertIsNone(other.try_remove(b"c"))
        self.assertEqual(other.made(), 3)
        # what the other pass wrote since does not count, and no read does
        self.assertEqual((one.version(), one.made()), (3, 1))
        with one.pin():
            other.try_apply([(b"b", b"2")])
            self.assertEqual(other.made(), 4)
        self.assertEqual(one.made(), 1)
        self.assertIs(one.try_migrate(Format.TWO), Format.ONE)
        self.assertEqual((one.made(), other.version(), other.made()), (5, 5, 4))

    def test_a_refused_write_makes_no_version(self):
        one, other = open_store(rows=4, passes=2)
        self.assertIsNone(one.try_put(b"a", b"1"))
        self.assertEqual(other.try_put(b"a", b"2"), b"1")
        with other.pin():
            self.assertEqual(one.try_put(b"a", b"3"), b"2")
            with self.no_room():
                one.try_put(b"a", b"4")
            self.assertEqual(one.made(), 3)


if __name__ == "__main__":
    unittest.main()
