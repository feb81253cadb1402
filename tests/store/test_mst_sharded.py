"""Sharded maps from Python: all of a block or nothing, also by several threads, snapshots that keep
theirs, copies, and what is refused by which exception."""
import copy
import os
import pickle
import random
import sys
import threading
import unittest
from concurrent.futures import ThreadPoolExecutor

import mst_store
from mst_store import (
    Format, Moving, Overtaken, Refused, RefusedEdit, RefusedShard, ShardedPart, ShardedReader,
    ShardedWriter, open_sharded,
)

HERE = os.path.dirname(os.path.abspath(__file__))
sys.path.append(os.path.join(HERE, "..", "..", "verifiers", "python"))
import mst_verifier  # noqa: E402

SPLITS = [bytes([number]) for number in range(16, 256, 16)]
KEYS = [bytes([number]) for number in range(0, 256, 5)]
# A key of each shard, and how many blocks a thread makes of them.
ONES, BLOCKS = [bytes([number]) for number in range(1, 256, 16)], 400


def edits_at_random(chance):
    """Up to 23 edits: keys of one byte, of which one in three is taken out."""
    keys = (bytes([chance.randrange(256)]) for _ in range(chance.randrange(24)))
    return [(key, chance.choice([None, b"", chance.randbytes(64)])) for key in keys]


def after(known, edits):
    both = {**known, **dict(edits)}
    return {key: value for key, value in both.items() if value is not None}


class Blocks(unittest.TestCase):
    def refused(self, code, call, *given):
        with self.assertRaises(Refused) as caught:
            call(*given)
        self.assertEqual(caught.exception.code, code)
        return caught.exception

    def shows(self, then, told, known):
        """Whether a snapshot has this number, root digest and map."""
        self.assertEqual((then.number(), then.root()), told)
        self.assertEqual((then.len(), bool(then)), (len(known), True))
        self.assertEqual(then.range(), sorted(known.items()))
        some = sorted(pair for pair in known.items() if b"0" <= pair[0] < b"p")
        self.assertEqual(then.range(b"0", b"p", 20), some[:20])
        self.assertEqual((list(then.items()), list(then.items(b"0", b"p"))), (then.range(), some))
        for key in KEYS:
            self.assertEqual(then.get(key), known.get(key))
            above = min((other for other in known if other > key), default=None)
            self.assertEqual(then.next(key), above and (above, known[above]))

    def proves(self, then, format, known):
        self.assertEqual((then.format(), len(then.directory())), (format, 16))
        for key in KEYS:
            told = mst_verifier.verify_sharded(int(format), then.root(), key, then.prove(key))
            self.assertEqual(told, known.get(key))

    def test_a_snapshot_is_of_one_block_and_keeps_it(self):
        for format in Format:
            chance, known = random.Random(7), {}
            writer, keeper, other = open_sharded(rows=256, readers=2, splits=SPLITS, format=format)
            self.assertEqual((writer.shards(), keeper.shards(), writer.number()), (16, 16, 0))
            for number in range(0, 60, 3):
                kept, told = known, (number, writer.root())
                with keeper.snapshot() as then:
                    for made in range(number + 1, number + 4):
                        edits = edits_at_random(chance)
                        self.assertEqual(writer.apply(edits), made)
                        known = after(known, edits)
                        with other.try_snapshot() as now:
                            self.shows(now, (made, writer.root()), known)
                    self.shows(then, told, kept)
                    self.proves(then, format, kept)
                self.assertEqual(keeper.get(KEYS[3]), known.get(KEYS[3]))

    def test_items_are_the_pairs_of_their_pages(self):
        pairs = [(bytes((number,)), b"%d" % number) for number in range(256)]
        for count in (0, 1, 63, 64, 65, 127, 128, 190, 256):
            writer, reader = open_sharded(rows=256, readers=1, splits=SPLITS)
            writer.apply(pairs[:count])
            with reader.snapshot() as then:
                writer.apply((key, None) for key, _ in pairs)
                self.assertEqual(list(then.items()), pairs[:count])
                self.assertEqual(list(then.items(b"\x05")), pairs[5:count])
                self.assertEqual(list(then.items(b"\x05", b"\xc8")), pairs[5:min(count, 200)])
                items = then.items()
                if count > 64:
                    next(items)
            if count > 64:
                self.assertEqual([next(items) for _ in range(63)], pairs[1:64])
            self.refused(mst_store.CLOSED, next, items)
            with reader.snapshot() as then:
                self.assertEqual(list(then.items()), [])
                self.refused(mst_store.BAD_KEY, next, then.items(bytes(33)))

    def test_a_refused_block_changes_no_shard(self):
        writer, reader, other = open_sharded(
            rows=12, readers=2, splits=[b"b", b"c", b"d"], format=Format.TWO)
        old = {b"a": b"old", b"c": b"old"}
        self.assertEqual(writer.apply(old.items()), 1)
        told = (1, writer.root())
        edits = [(b"d", b"1"), *((bytes((ord("c"), last)), b"1") for last in range(12))]
        edits += [(b"a", b"1")]
        with other.snapshot() as then:
            for _ in range(3):
                # the third shard has no rows for its edits
                refused = self.refused(mst_store.NO_FREE_ROWS, writer.apply, edits)
                self.assertIs(type(refused), RefusedShard)
                self.assertEqual(refused.shard, 2)
                with reader.snapshot() as now:
                    self.shows(now, told, old)
                self.assertEqual((writer.number(), writer.root()), told)
                self.assertEqual({key: writer.get(key) for key in old}, old)
            self.assertEqual(writer.apply([(b"a", b"new"), (b"d", b"new"), (b"c", None)]), 2)
            self.shows(then, told, old)
        with other.snapshot() as then:
            self.shows(then, (2, writer.root()), {b"a": b"new", b"d": b"new"})

    def test_copies(self):
        chance = random.Random(8)
        for format, other in zip(Format, reversed(Format)):
            known = {}
            writer, reader = open_sharded(rows=256, readers=1, splits=SPLITS, format=format)
            for _ in range(30):
                edits = edits_at_random(chance)
                writer.apply(edits)
                known = after(known, edits)
            (direct,) = open_sharded(rows=500, splits=[b"a"], format=other)
            copied, looker = open_sharded(rows=999, readers=1, splits=[b"a"], format=other)
            direct.apply(known.items())
            with reader.snapshot() as then:
                writer.apply([(b"later", b"1")])
                self.assertEqual(then.copy_to(copied), 1)
                self.refused(mst_store.BAD_KEY, then.get, b"")
            with looker.snapshot() as now:
                self.shows(now, (1, direct.root()), known)
                self.assertEqual(now.format(), other)
            self.assertEqual((reader.get(b"later"), copied.get(b"later")), (b"1", None))

    def test_copies_that_are_refused(self):
        writer, reader = open_sharded(rows=64, readers=1, splits=SPLITS)
        writer.apply([(bytes([number]), b"1") for number in range(48)])
        (full,) = open_sharded(rows=12, splits=[b"\20"])
        (other,) = open_sharded(rows=64, splits=[])
        with reader.snapshot() as then:
            refused = self.refused(mst_store.NO_FREE_ROWS, then.copy_to, full)
            self.assertIs(type(refused), RefusedShard)
            self.assertEqual((refused.shard, full.number(), full.get(b"\1")), (0, 0, None))
            for one in (reader, then, None):
                self.assertRaises(TypeError, then.copy_to, one)
            full.close()
            self.refused(mst_store.CLOSED, then.copy_to, full)
        self.refused(mst_store.CLOSED, then.copy_to, other)
        self.assertEqual(other.number(), 0)

    def test_edits_that_are_refused(self):
        writer, reader = open_sharded(rows=16, readers=1, splits=SPLITS)
        good = (b"a", b"1")
        for code, bad in ((mst_store.BAD_VALUE, (b"b", bytes(65))),
                          (mst_store.BAD_KEY, (b"", None)), (mst_store.BAD_KEY, (bytes(33), b""))):
            refused = self.refused(code, writer.apply, iter([good, bad, good]))
            self.assertIsInstance(refused, RefusedEdit)
            self.assertEqual(refused.place, 1)
        self.assertRaises(TypeError, writer.apply, [("a", b"1")])
        self.assertRaises(TypeError, writer.apply, None)
        self.assertEqual((writer.number(), reader.get(b"a")), (0, None))
        self.assertEqual(writer.apply([]), 1)
        self.assertEqual(writer.apply([good, (b"a", b"2")]), 2)
        self.assertEqual((reader.get(b"a"), writer.get(b"a")), (b"2", b"2"))
        self.refused(mst_store.BAD_KEY, writer.get, b"")

    def test_openings_that_are_refused(self):
        def opens(rows, readers, splits=(), format=Format.ONE):
            return open_sharded(rows=rows, readers=readers, splits=splits, format=format)

        self.refused(mst_store.UNKNOWN_FORMAT, opens, 16, 1, [], 3)
        for splits in ([b""], [b"\0"], [b"b", b"b"], [b"b", b"a"], [bytes(33)], [bytes(300)],
                       [bytes([1 + at // 256, at % 256]) for at in range(1024)]):
            self.refused(mst_store.BAD_SPLITS, opens, 16, 1, splits)
        for rows, readers in ((3, 1), (65536, 1), (16, -1), (16, 32), (16, 2**70), (-1, 1)):
            self.refused(mst_store.BAD_SHAPE, opens, rows, readers)
        self.assertRaises(TypeError, opens, 16, "1")
        self.assertRaises(TypeError, open_sharded, 16, 1, [])
        self.assertEqual(len(open_sharded(rows=16, readers=31)), 32)
        self.assertEqual(open_sharded(rows=16)[0].shards(), 1)
        (writer,) = open_sharded(rows=16, splits=[b"m"])
        self.assertEqual(writer.apply([(b"a", b"1")]), 1)

    def test_free_rows(self):
        writer, reader = open_sharded(rows=16, readers=1, splits=[b"m"])
        listed = writer.free_rows(2)
        self.assertEqual((writer.free_rows(0), writer.free_rows(1)), (16, 16))
        writer.apply([(b"a", b"1")])
        # the pair and its node, and no more in the directory, which listed the shard before
        self.assertEqual([writer.free_rows(at) for at in range(3)], [14, 16, listed])
        with reader.snapshot():
            writer.apply([(b"a", b"2")])
            self.assertEqual((writer.free_rows(0), writer.free_rows(1)), (12, 16))
            self.assertLess(writer.free_rows(2), listed)
        self.assertEqual([writer.free_rows(at) for at in range(3)], [14, 16, listed])
        for shard in (3, -1, 2**40):
            self.assertIsNone(writer.free_rows(shard))
        self.assertRaises(TypeError, writer.free_rows, "0")
        writer.close()
        self.refused(mst_store.CLOSED, writer.free_rows, 0)

    def test_calls_that_are_refused(self):
        writer, reader = open_sharded(rows=16, readers=1, splits=[b"m"])
        self.refused(mst_store.BAD_KEY, reader.get, b"")
        with reader.snapshot() as then:
            for again in (reader.snapshot, reader.try_snapshot):
                self.refused(mst_store.WRONG_STATE, again)
            for call in (then.get, then.prove):
                self.refused(mst_store.BAD_KEY, call, b"")
            self.refused(mst_store.BAD_KEY, then.next, bytes(33))
            self.refused(mst_store.BAD_KEY, then.range, b"", bytes(33))
            self.assertEqual(then.shards(), 2)
        for call in (then.number, then.root, then.format, then.next, then.range, then.directory,
                     then.shards, then.len, lambda: then.get(b"a"), lambda: then.prove(b"a")):
            self.refused(mst_store.CLOSED, call)
        # a second release ends no later snapshot
        later = reader.snapshot()
        then.release()
        self.assertEqual(later.number(), 0)
        later.release()
        self.refused(mst_store.CLOSED, later.number)
        for one in (writer, reader, then):
            self.assertRaises(TypeError, copy.copy, one)
            self.assertRaises(TypeError, pickle.dumps, one)
        self.assertRaises(TypeError, ShardedWriter, None)
        self.assertRaises(TypeError, ShardedReader, None)

    def test_closing(self):
        writer, reader, other = open_sharded(rows=16, readers=2, splits=[b"m"])
        writer.apply([(b"a", b"1")])
        told = (1, writer.root())
        with writer, reader.snapshot() as then:
            self.shows(then, told, {b"a": b"1"})
            reader.close()
            self.refused(mst_store.CLOSED, then.get, b"a")
        for call in (writer.number, writer.root, writer.shards, reader.shards,
                     reader.snapshot, lambda: writer.apply([])):
            self.refused(mst_store.CLOSED, call)
        reader.close()
        # the map is there for as long as one of its readers, and their snapshots
        snapshot = other.snapshot()
        del other
        with snapshot as then:
            self.shows(then, told, {b"a": b"1"})

    def test_exceptions(self):
        self.assertEqual((Moving().code, Moving().args), (mst_store.MOVING, Moving().args))
        overtaken = pickle.loads(pickle.dumps(Overtaken(mst_store.OVERTAKEN, 3)))
        self.assertIsInstance(overtaken, RefusedShard)
        self.assertEqual((overtaken.code, overtaken.shard), (mst_store.OVERTAKEN, 3))
        self.assertIs(type(pickle.loads(pickle.dumps(Moving()))), Moving)

    # ---- blocks by several threads

    def test_blocks_by_threads_are_those_by_one(self):
        chance = random.Random(9)
        (once,), (hers,), (writer,) = (open_sharded(rows=256, splits=SPLITS) for _ in range(3))
        with ThreadPoolExecutor(4) as pool:
            for number in range(1, 41):
                edits = [edit for _ in range(8) for edit in edits_at_random(chance)]
                self.assertEqual(once.apply(edits), number)
                self.assertEqual(hers.apply_in_threads(iter(edits), number % 5), number)
                # a block that is not committed is not made
                with writer.begin(edits_at_random(chance)) as block:
                    list(pool.map(ShardedPart.prepare, block.parts[:number % 17]))
                    self.refused(mst_store.WRONG_STATE, writer.number)
                self.refused(mst_store.CLOSED, block.commit)
                self.assertEqual(writer.number(), number - 1)
                with writer.begin(edits) as block:
                    self.assertEqual(len(block.parts), 16)
                    for _ in range(number % 3):
                        list(pool.map(ShardedPart.prepare, block.parts))
                    self.assertEqual(block.commit(), number)
                    self.refused(mst_store.CLOSED, block.commit)
                    self.refused(mst_store.WRONG_STATE, block.parts[0].prepare)
                block.cancel()
                self.assertEqual(writer.number(), number)
                self.assertEqual({writer.root(), hers.root()}, {once.root()})

    def test_blocks_by_threads_that_are_refused(self):
        (writer,) = open_sharded(rows=12, splits=[b"b", b"c", b"d"], format=Format.TWO)
        told = writer.number(), writer.root()
        edits = [(b"d", b"1"), *((bytes((ord("c"), last)), b"1") for last in range(12))]
        with writer.begin(edits) as block:
            block.parts[0].prepare()
            for call in (block.parts[2].prepare, block.commit):
                self.assertEqual(self.refused(mst_store.NO_FREE_ROWS, call).shard, 2)
            self.refused(mst_store.CLOSED, block.commit)
        for threads in (0, 1, 2, 2**70, -1):
            refused = self.refused(mst_store.NO_FREE_ROWS, writer.apply_in_threads, edits, threads)
            self.assertEqual((type(refused), refused.shard), (RefusedShard, 2))
        bad = [(b"a", b"1"), (b"", b"1")]
        for call in (lambda: writer.apply_in_threads(bad, 4), lambda: writer.begin(bad)):
            self.assertEqual(self.refused(mst_store.BAD_KEY, call).place, 1)
        self.assertRaises(TypeError, writer.apply_in_threads, edits, "4")
        self.assertEqual((writer.number(), writer.root()), told)
        with writer.begin([]) as block:
            for one in (block, block.parts[0]):
                self.assertRaises(TypeError, copy.copy, one)
            self.assertRaises(TypeError, ShardedPart, None, 0)
            writer.close()
            self.refused(mst_store.CLOSED, block.commit)
        for call in (lambda: writer.apply_in_threads(edits, 4), lambda: writer.begin(edits)):
            self.refused(mst_store.CLOSED, call)

    # ---- threads

    def reads(self, reader, call):
        """Takes snapshots until the last block, and notes what is wrong with one."""
        number = 0
        while number < BLOCKS:
            try:
                with call() as then:
                    values = {then.get(key) for key in ONES}
                    before, number = number, then.number()
                    is_one = values == {str(number).encode() if number > 0 else None}
                    is_noted = self.roots.get(number, then.root()) == then.root()
            except Moving:
                continue
            if not is_one or not is_noted or number < before:
                self.wrong.append((before, number, values))
                return

    def test_threads_read_while_blocks_are_made(self):
        writer, *readers = open_sharded(rows=64, readers=3, splits=SPLITS)
        self.wrong, self.roots = [], {0: writer.root()}
        threads = []
        for at, reader in enumerate(readers):
            call = reader.try_snapshot if at == 0 else reader.snapshot
            threads.append(threading.Thread(target=self.reads, args=(reader, call), daemon=True))
            threads[-1].start()
        for number in range(1, BLOCKS + 1):
            value = str(number).encode()
            self.assertEqual(writer.apply((key, value) for key in ONES), number)
            self.roots[number] = writer.root()
        for thread in threads:
            thread.join()
        self.assertEqual(self.wrong, [])


if __name__ == "__main__":
    unittest.main()
