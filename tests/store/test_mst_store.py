"""The store from Python: its answers against those of a dict, its proofs against the verifier."""
import ctypes
import os
import random
import sys
import threading
import unittest

from mst_store import BAD_KEY, CLOSED, NO_FREE_ROWS, Format, Pass, Refused, open_store

HERE = os.path.dirname(os.path.abspath(__file__))
sys.path.append(os.path.join(HERE, "..", "..", "verifiers", "python"))
import mst_verifier  # noqa: E402


def one(rows=1000) -> Pass:
    return open_store(rows=rows, passes=1)[0]


def key_by(chance) -> bytes:
    """One of 300 keys, of all lengths."""
    seed = chance.randrange(300)
    return seed.to_bytes(2, "big") + bytes(seed % 31)


class Answers(unittest.TestCase):
    def test_answers_are_those_of_a_dict(self):
        chance, store, known = random.Random(7), one(4000), {}
        for step in range(4000):
            key = key_by(chance)
            if chance.randrange(3) == 0:
                self.assertEqual(store.remove(key), known.pop(key, None))
            else:
                value = chance.randbytes(chance.randrange(65))
                self.assertEqual(store.put(key, value), known.get(key))
                known[key] = value
            self.assertEqual((store.version(), store.len()), (step + 1, len(known)))
            asked = key_by(chance)
            self.assertEqual(store.get(asked), known.get(asked))
            above = min((key for key in known if key > asked), default=None)
            self.assertEqual(store.next(asked), above and (above, known[above]))
        self.assertEqual(list(store.items()), sorted(known.items()))
        self.assertGreaterEqual(store.rows(), len(known))
        self.ranges(chance, store, known)
        with store.pin() as then:
            self.ranges(chance, then, known)

    def ranges(self, chance, store, known):
        everything = sorted(known.items())
        self.assertEqual(store.range(), everything)
        for limit in (-1, 0, 1, 7, 2**32 + 1):
            start, stop = key_by(chance), key_by(chance)
            wanted = [pair for pair in everything if start <= pair[0] < stop]
            self.assertEqual(store.range(start, stop, limit), wanted[: max(limit, 0)])
            wanted = [pair for pair in everything if pair[0] < stop]
            self.assertEqual(store.range(stop=stop, limit=limit), wanted[: max(limit, 0)])
            self.assertEqual(store.range(stop), [pair for pair in everything if stop <= pair[0]])
            wanted = [pair for pair in everything if start < pair[0] < stop]
            self.assertEqual(store.page_after(start, stop, limit), wanted[: max(limit, 0)])
        for limit in (1, 7, 64, 1000):
            pages = list(store.pages(limit))
            self.assertEqual([pair for page in pages for pair in page], everything)
            self.assertTrue(all(len(page) == limit for page in pages[:-1]))
        self.assertEqual(list(store.pages(0)), [])
        stop = everything[5][0]
        self.assertEqual([pair for page in store.pages(2, stop) for pair in page], everything[:5])

    def test_pages_of_the_longest_keys(self):
        chance, store = random.Random(10), one(4000)
        keys = {bytes(chance.choice(b"\x00\x01\xfe\xff\xff") for _ in range(2)).rjust(32, fill)
                for fill in (b"\x00", b"k", b"\xff") for _ in range(100)}
        store.apply((key, key) for key in keys)
        self.assertEqual([key for page in store.pages(3) for key, _ in page], sorted(keys))
        self.assertEqual(store.page_after(b"\xff" * 32), [])

    def test_items_are_the_pairs_of_their_pages(self):
        chance = random.Random(12)
        keys = [b"\xff" * 30 + bytes(divmod(number, 256)) for number in range(301)]
        for count in (0, 1, 63, 64, 65, 127, 128, 190, 300):
            reader, writer = open_store(rows=2000, passes=2)
            pairs = [(key, key[30:]) for key in keys[:count]]
            writer.apply(pairs)
            with reader.pin() as then:
                self.empties(writer, then, pairs)
                self.assertEqual(list(then.items()), pairs)
                for _ in range(9):
                    start, stop = chance.randrange(301), chance.randrange(301)
                    self.assertEqual(list(then.items(keys[start], keys[stop])), pairs[start:stop])
                    self.assertEqual(list(then.items(keys[start])), pairs[start:])
                    self.assertEqual(list(then.items(stop=keys[stop])), pairs[:stop])
            # A free pass goes on behind a pair that is gone.
            writer.apply(pairs)
            self.empties(writer, reader, pairs)

    def empties(self, writer, reader, pairs):
        """Takes out each pair that a reader comes to."""
        for at, (key, value) in enumerate(reader.items()):
            self.assertEqual((key, value), pairs[at])
            self.assertEqual(writer.remove(key), value)
        self.assertEqual(list(writer.items()), [])

    def test_items_end_with_their_pass(self):
        store, seen = one(), 0
        store.apply((bytes((number,)), b"") for number in range(100))
        with self.assertRaises(Refused) as caught:
            for _ in store.items():
                seen += 1
                store.close()
        self.assertEqual((caught.exception.code, seen), (CLOSED, 64))
        for bounds in ((bytes(33),), (b"", bytes(33))):
            with self.assertRaises(Refused) as caught:
                next(one().items(*bounds))
            self.assertEqual(caught.exception.code, BAD_KEY)

    def test_each_proof_is_taken_by_the_verifier(self):
        chance, store, known = random.Random(8), one(4000), {}
        for _ in range(600):
            key, value = key_by(chance), chance.randbytes(8)
            store.put(key, value)
            known[key] = value
        for to in (Format.ONE, Format.TWO):
            store.migrate(to)
            for _ in range(600):
                self.proof(store, known, key_by(chance))

    def proof(self, store, known, key):
        format, root, proof = store.format(), store.root(), store.prove(key)
        self.assertEqual(mst_verifier.verify(format, root, key, proof), known.get(key))
        other = proof[:-1] + bytes([proof[-1] ^ 1])
        for number, text in (format, other), (3 - format, proof):
            with self.assertRaises(mst_verifier.Refused):
                mst_verifier.verify(number, root, key, text)

    def test_a_migration_gives_the_root_of_a_store_in_that_format(self):
        chance, store, known, format = random.Random(9), one(4000), {}, Format.ONE
        for step in range(40):
            for _ in range(20):
                key, value = key_by(chance), chance.randbytes(9)
                store.put(key, value)
                known[key] = value
            to = chance.choice(list(Format))
            self.assertEqual(store.migrate(to), format)
            format = to
            self.assertEqual((store.format(), store.version()), (format, 21 * (step + 1)))
            (twin,) = open_store(rows=4000, passes=1, format=format)
            for pair in sorted(known.items(), reverse=True):
                twin.put(*pair)
            self.assertEqual((twin.format(), twin.root()), (format, store.root()))
            self.assertEqual(store.range(), sorted(known.items()))
            asked = key_by(chance)
            self.assertEqual(store.prove(asked), twin.prove(asked))

    def test_a_pinned_version_keeps_its_format(self):
        reader, writer = open_store(rows=1000, passes=2)
        writer.put(b"key", b"value")
        with reader.pin() as then:
            seen = then.root(), then.prove(b"key"), then.version()
            self.assertIs(writer.try_migrate(2), Format.ONE)
            self.assertIs(then.format(), Format.ONE)
            self.assertEqual((then.root(), then.prove(b"key"), then.version()), seen)
            self.assertNotEqual(writer.root(), seen[0])
        self.assertIs(reader.format(), Format.TWO)
        self.assertEqual((reader.migrate(2), reader.migrate(1), reader.version()), (2, 2, 4))
        self.assertEqual((writer.format(), writer.root()), (1, seen[0]))

    def test_a_length_is_of_the_version(self):
        reader, writer = open_store(rows=1000, passes=2)
        with reader.pin() as then:
            writer.apply((bytes([key]), b"1") for key in range(200))
            writer.put(b"\7", b"2")
            self.assertEqual((then.len(), reader.len(), writer.len()), (0, 0, 200))
            self.assertTrue(then)
        with reader.pin() as then:
            writer.remove(b"\7")
            writer.remove(b"none")
            self.assertEqual((then.len(), writer.len()), (200, 199))
        self.assertEqual(reader.len(), 199)

    def test_a_batch_leaves_the_map_of_its_edits_as_one_version(self):
        chance, store, known = random.Random(11), one(4000), {}
        for step in range(300):
            edits = []
            for _ in range(chance.randrange(30)):
                value = chance.randbytes(chance.randrange(65)) if chance.randrange(3) else None
                edits.append((key_by(chance), value))
            self.assertIsNone(store.apply(edits))
            self.assertEqual(store.version(), step + 1)
            known.update(edits)
            known = {key: value for key, value in known.items() if value is not None}
            self.assertEqual(store.range(), sorted(known.items()))
        twin = one(4000)
        twin.apply(known.items())
        self.assertEqual((twin.root(), twin.version()), (store.root(), 1))

    def test_a_batch_is_made_whole_or_not_at_all(self):
        reader, writer = open_store(rows=64, passes=2)
        writer.apply([(b"a", b"1"), (bytearray(b"b"), memoryview(b"2"))])
        with reader.pin() as then:
            with self.assertRaises(Refused) as caught:
                writer.apply((bytes([key]), b"") for key in range(64))
            self.assertEqual(caught.exception.code, NO_FREE_ROWS)
            writer.try_apply([(b"a", None), (b"b", b"two"), (b"none", None)])
            writer.apply([])
            self.assertEqual((then.get(b"a"), then.get(b"b"), then.version()), (b"1", b"2", 1))
        self.assertEqual((reader.range(), reader.version()), ([(b"b", b"two")], 3))

    def test_a_proof_longer_than_the_room(self):
        store = one()
        store.put(b"key", b"value")
        short = store.prove(b"key")
        store._long_room = ctypes.create_string_buffer(1)
        self.assertEqual(store.prove(b"key"), short)
        store._long_room = ctypes.create_string_buffer(1)
        self.assertEqual(store.range(), [(b"key", b"value")])

    def test_the_empty_map(self):
        store = one()
        self.assertEqual((store.next(), list(store.items()), store.version()), (None, [], 0))
        self.assertEqual((store.len(), bool(store)), (0, True))
        for format in Format:
            self.assertEqual((store.migrate(format), store.format()), (Format.ONE, format))
            proof = store.prove(b"key")
            self.assertIsNone(mst_verifier.verify(format, store.root(), b"key", proof))

    def test_bytes_of_each_kind(self):
        store = one()
        store.put(bytearray(b"k\0y"), memoryview(b"\0v\0"))
        self.assertEqual(store.get(memoryview(b"k\0y")), b"\0v\0")
        self.assertEqual(store.get(memoryview(b"k.\0.y")[::2]), b"\0v\0")
        for wrong in (5, "key", None):
            with self.assertRaises(TypeError):
                store.get(wrong)


class Threads(unittest.TestCase):
    def in_threads(self, *calls):
        failed = []

        def run(call):
            try:
                call()
            except BaseException as error:
                failed.append(error)

        threads = [threading.Thread(target=run, args=(call,)) for call in calls]
        for thread in threads:
            thread.start()
        for thread in threads:
            thread.join()
        self.assertEqual(failed, [])

    def test_a_pinned_version_stays_while_another_thread_writes(self):
        reader, writer = open_store(rows=20000, passes=2)
        for i in range(40):
            writer.put(bytes([i]), b"0")

        def write():
            for i in range(3000):
                writer.put(bytes([i % 40]), i.to_bytes(8, "big"))
                if i % 10 == 9:
                    writer.migrate(1 + i // 10 % 2)

        def read():
            for i in range(60):
                with reader.pin() as then:
                    seen = then.version(), then.format(), then.root(), list(then.items())
                    self.assertEqual(len(seen[3]), 40)
                    key, value = seen[3][i % 40]
                    proof = then.prove(key)
                    self.assertEqual(mst_verifier.verify(seen[1], seen[2], key, proof), value)
                    again = then.version(), then.format(), then.root(), list(then.items())
                    self.assertEqual(again, seen)

        self.in_threads(write, read)
        self.assertEqual(reader.version(), 3340)

    def test_two_writers_wait_for_each_other(self):
        passes = open_store(rows=4000, passes=2)

        def write(at):
            for i in range(1000):
                before = passes[at].put(bytes([at, i % 50]), i.to_bytes(4, "big"))
                self.assertEqual(before, (i - 50).to_bytes(4, "big") if i >= 50 else None)
                if i % 20 == 19:
                    passes[at].migrate(1 + i // 20 % 2)

        self.in_threads(lambda: write(0), lambda: write(1))
        self.assertEqual(passes[0].version(), 2100)

    def test_one_pass_in_two_threads_has_one_call_at_a_time(self):
        store = one(4000)

        def write(at):
            for i in range(500):
                store.put(bytes([at]), i.to_bytes(4, "big"))
                self.assertEqual(store.get(bytes([at])), i.to_bytes(4, "big"))

        self.in_threads(lambda: write(0), lambda: write(1))


if __name__ == "__main__":
    unittest.main()
