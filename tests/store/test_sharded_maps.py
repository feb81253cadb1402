"""Sharded maps of one shard to 64: each block has the content, the root digest, the directory and
the proofs that vectors/sharding.py makes of a dict, as do snapshots of earlier blocks and copies."""
import itertools
import os
import random
import sys
import unittest
from contextlib import ExitStack

from mst_store import Format, open_sharded, open_store

TOP = os.path.join(os.path.dirname(os.path.abspath(__file__)), "..", "..")
sys.path += [os.path.join(TOP, "verifiers", "python"), os.path.join(TOP, "vectors")]
import mst_verifier  # noqa: E402
import sharding  # noqa: E402

COUNTS = (1, 2, 7, 64)  # of shards
KEYS = [bytes([1 + number // 16, number % 16]) for number in range(128)]
ROWS = 1024
# From one key on, below another one, and at most how many pairs.
RANGES = [(0, 127, 200), (17, 101, 1), (63, 64, 5), (64, 32, 5), (3, 120, 40)]


def splits_into(count):
    return [KEYS[shard * len(KEYS) // count] for shard in range(1, count)]


class Blocks(unittest.TestCase):
    def setUp(self):
        self.chance = random.Random(20)

    def opened(self, count, readers, format=Format.ONE):
        """The writer and the readers of a new map, of which each block's dict is known."""
        self.splits, self.blocks, self.format = splits_into(count), [{}], format
        return open_sharded(rows=ROWS, readers=readers, splits=self.splits, format=format)

    def edits(self, count):
        """Edits at random, of which one in four takes a key out."""
        values = [None, b"1", b"2", b"3"]
        return [(self.chance.choice(KEYS), self.chance.choice(values)) for _ in range(count)]

    def makes(self, writer, count):
        """Makes a block of so many edits, and checks what the writer tells of it."""
        edits, number = self.edits(count), len(self.blocks)
        self.assertEqual(writer.apply(edits), number)
        both = {**self.blocks[-1], **dict(edits)}
        self.blocks.append({key: value for key, value in both.items() if value is not None})
        self.assertEqual((writer.number(), writer.root()), (number, self.model(number).root))

    def model(self, number):
        return sharding.split(int(self.format), self.blocks[number], self.splits)

    def reads(self, then, known):
        """All reads of a snapshot."""
        self.assertEqual([then.get(key) for key in KEYS], list(map(known.get, KEYS)))
        pairs, walked, last = sorted(known.items()), [], b""
        while (pair := then.next(last)) is not None:
            walked.append(pair)
            last = pair[0]
        self.assertEqual(walked, pairs)
        self.assertEqual(then.range(), pairs)
        for low, high, limit in RANGES:
            inside = [pair for pair in pairs if KEYS[low] <= pair[0] < KEYS[high]]
            self.assertEqual(then.range(KEYS[low], KEYS[high], limit), inside[:limit])

    def proves(self, then, model, known):
        """The root digest, the directory, and a proof for each key."""
        root = then.root()
        self.assertEqual(root, model.root)
        self.assertEqual(then.directory(), sorted(model.directory.pairs.items()))
        for key in KEYS:
            proof = then.prove(key)
            self.assertEqual(proof, model.proof(key))
            told = mst_verifier.verify_sharded(model.format, root, key, proof)
            self.assertEqual(told, known.get(key))

    def looks(self, then, number, count):
        """Compares a snapshot with the block of this number."""
        told = then.number(), then.format(), then.shards()
        self.assertEqual(told, (number, self.format, count))
        self.reads(then, self.blocks[number])
        self.proves(then, self.model(number), self.blocks[number])

    def test_blocks_are_those_of_a_dict(self):
        for count in COUNTS:
            for format in Format:
                writer, reader = self.opened(count, 1, format)
                self.assertEqual((writer.shards(), reader.shards()), (count, count))
                for size in (0, 150, 1, 0, 50):
                    with reader.snapshot() as then:
                        self.looks(then, writer.number(), count)
                    self.makes(writer, size)
                with reader.snapshot() as then:
                    self.looks(then, 5, count)

    def test_each_snapshot_keeps_its_block(self):
        for count in (1, 7):
            writer, *readers = self.opened(count, 4)
            with ExitStack() as kept:
                snapshots = []
                for reader in readers:
                    snapshots.append(kept.enter_context(reader.snapshot()))
                    self.makes(writer, 60)
                for number, then in enumerate(snapshots):
                    self.looks(then, number, count)

    def test_one_shard_has_what_a_store_has(self):
        writer, _ = self.opened(1, 1)
        (store,) = open_store(rows=ROWS, passes=1)
        for size in (100, 3, 50):
            edits = self.edits(size)
            writer.apply(edits)
            store.apply(edits)
            self.assertEqual([writer.get(key) for key in KEYS], [store.get(key) for key in KEYS])

    def test_a_copy_is_a_map_that_was_filled_directly(self):
        for count, others in itertools.product(COUNTS, COUNTS):
            writer, reader = self.opened(count, 1, Format.ONE)
            self.makes(writer, 100)
            self.makes(writer, 50)
            other, looker = open_sharded(
                rows=ROWS, readers=1, splits=splits_into(others), format=Format.TWO)
            with reader.snapshot() as then:
                self.assertEqual(then.copy_to(other), 1)
            self.splits, self.format, self.blocks = splits_into(others), Format.TWO, self.blocks[1:]
            with looker.snapshot() as then:
                self.looks(then, 1, others)


if __name__ == "__main__":
    unittest.main()
