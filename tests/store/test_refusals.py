"""What the store for Python refuses, and by which exception: keys, values, edits, shapes, formats,
numbers of other types; calls of pinned and of closed passes; codes that are not known."""
import copy
import os
import pickle
import threading
import unittest
from unittest import mock

import mst_store
from mst_store import Busy, Format, Pass, Pinned, Refused, RefusedEdit, _library, open_store


def one() -> Pass:
    return open_store(rows=1000, passes=1)[0]


class Refusals(unittest.TestCase):
    def refused(self, code, call, *given):
        with self.assertRaises(Refused) as caught:
            call(*given)
        self.assertEqual(caught.exception.code, code)

    def test_keys_and_values(self):
        store = one()
        for key in (b"", bytes(33), bytes(5000)):
            for call in (store.get, store.prove, store.remove, store.try_remove):
                self.refused(mst_store.BAD_KEY, call, key)
            self.refused(mst_store.BAD_KEY, store.put, key, b"")
        self.refused(mst_store.BAD_KEY, store.next, bytes(33))
        self.refused(mst_store.BAD_KEY, store.range, bytes(33))
        self.refused(mst_store.BAD_KEY, store.range, b"", bytes(33))
        self.refused(mst_store.BAD_KEY, store.page_after, bytes(33))
        self.refused(mst_store.BAD_KEY, store.page_after, b"\xff" * 32, bytes(33))
        self.refused(mst_store.BAD_VALUE, store.put, b"key", bytes(65))
        self.assertIsNone(store.put(bytes(32), bytes(64)))
        self.assertEqual(store.version(), 1)

    def test_edits(self):
        store, good = one(), (b"key", b"value")
        for place in range(3):
            for code, edit in ((mst_store.BAD_KEY, (b"", b"")), (mst_store.BAD_KEY, (b"", None)),
                               (mst_store.BAD_KEY, (bytes(33), bytes(65))),
                               (mst_store.BAD_KEY, (bytes(70000), None)),
                               (mst_store.BAD_VALUE, (b"key", bytes(65))),
                               (mst_store.BAD_VALUE, (b"key", bytes(70000)))):
                for call in (store.apply, store.try_apply):
                    with self.assertRaises(RefusedEdit) as caught:
                        call([good] * place + [edit, edit, good])
                    self.assertEqual((caught.exception.code, caught.exception.place), (code, place))
        for wrong in ("key", 5, None):
            self.assertRaises(TypeError, store.apply, [good, (wrong, b"")])
        self.assertRaises(TypeError, store.apply, [good, (b"key", "value")])
        self.assertEqual((store.range(), store.version()), ([], 0))
        store.apply([(bytes(32), bytes(64))])
        self.assertEqual(store.get(bytes(32)), bytes(64))

    def test_shapes(self):
        shapes = (3, 1), (65536, 1), (1000, 0), (1000, 33), (1000, -1), (-1, 1), (2**32 + 4, 1)
        for rows, passes in shapes:
            self.refused(mst_store.BAD_SHAPE, lambda: open_store(rows=rows, passes=passes))
        self.refused(
            mst_store.BAD_SHAPE, lambda: open_store(rows=3, passes=1, format=Format.TWO))
        self.assertRaises(TypeError, open_store, 1000, 1)

    def test_formats(self):
        store = one()
        for number in (-1, 0, 3, 2**32 + 1):
            self.refused(
                mst_store.UNKNOWN_FORMAT, lambda: open_store(rows=1000, passes=1, format=number))
            self.refused(mst_store.UNKNOWN_FORMAT, store.try_migrate, number)
            self.refused(mst_store.UNKNOWN_FORMAT, store.migrate, number)
        self.assertEqual((store.format(), store.version()), (Format.ONE, 0))
        self.assertIs(open_store(rows=1000, passes=1, format=2)[0].format(), Format.TWO)

    def test_a_pinned_pass_neither_writes_nor_migrates_nor_pins(self):
        store = one()
        with store.pin():
            for call in (lambda: store.put(b"key", b""), lambda: store.remove(b"key"), store.rows,
                         lambda: store.migrate(2), lambda: store.try_migrate(1),
                         lambda: store.apply([]), lambda: store.try_apply([(b"key", b"")]),
                         store.pin):
                self.refused(mst_store.WRONG_STATE, call)
        self.assertIsNone(store.put(b"key", b""))

    def test_numbers(self):
        store = one()
        for wrong in (1.0, "1", None, b"1"):
            for call in (lambda: open_store(rows=wrong, passes=1),
                         lambda: open_store(rows=1000, passes=wrong),
                         lambda: open_store(rows=1000, passes=1, format=wrong),
                         lambda: store.range(limit=wrong),
                         lambda: store.migrate(wrong), lambda: store.try_migrate(wrong)):
                self.assertRaises(TypeError, call)

        class Thousand:
            def __index__(self):
                return 1000

        self.assertEqual(store.range(limit=Thousand()), [])
        self.assertEqual(len(open_store(rows=Thousand(), passes=2)), 2)

    def test_a_pass_comes_from_open_store_alone(self):
        store = one()
        store.put(b"key", b"value")
        for call in (copy.copy, copy.deepcopy, pickle.dumps):
            self.assertRaises(TypeError, call, store)
        self.assertRaises(TypeError, Pass, None)
        self.assertEqual(store.get(b"key"), b"value")

    @unittest.skipUnless(hasattr(os, "fork"), "the system has no fork")
    def test_a_forked_child_closes_no_pass_by_itself(self):
        store = one()
        hand = store._hand
        child = os.fork()
        if child == 0:
            del store
            os._exit(0 if hand.contents.at else 1)
        self.assertEqual(os.waitpid(child, 0)[1], 0)
        del store
        self.assertIsNone(hand.contents.at)

    def test_rows(self):
        reader, writer = open_store(rows=8, passes=2)
        with self.assertRaises(Refused) as caught:
            for i in range(20):
                writer.put(bytes([i]), b"")
        self.assertEqual(caught.exception.code, mst_store.NO_FREE_ROWS)
        self.refused(mst_store.NO_FREE_ROWS, writer.migrate, Format.TWO)
        self.assertEqual(writer.migrate(Format.ONE), Format.ONE)
        with reader.pin():
            self.refused(mst_store.ROWS_PINNED, writer.rows)
            self.refused(mst_store.WRONG_STATE, reader.free_rows)
            self.refused(mst_store.WRONG_STATE, reader.pinned_versions)
            free = writer.free_rows()
        self.assertEqual(writer.rows(), 8 - free)

    def test_made(self):
        one, other = open_store(rows=32, passes=2)
        self.assertIsNone(one.made())
        one.put(b"key", b"1")
        other.put(b"key", b"2")
        self.assertEqual((one.made(), other.made(), one.version()), (1, 2, 2))

    def test_closed(self):
        with one() as store:
            store.put(b"key", b"")
        for call in (lambda: store.get(b"key"), store.next, store.range, store.root, store.version,
                     store.rows, store.pinned_versions,
                     lambda: store.prove(b"key"), lambda: store.put(b"key", b""),
                     lambda: store.remove(b"key"), store.format, store.len,
                     lambda: store.migrate(2),
                     lambda: store.try_migrate(3), lambda: store.apply([(b"", b"")]),
                     store.pin):
            self.refused(mst_store.CLOSED, call)
        store.close()

    def test_closed_inside_a_pin(self):
        store = one()
        with store.pin() as then:
            store.close()
            self.refused(mst_store.CLOSED, then.root)
        self.refused(mst_store.CLOSED, store.root)

    def test_a_pin_that_has_ended(self):
        store = one()
        then = store.pin()  # as within a `with`
        self.refused(mst_store.WRONG_STATE, store.pin)
        then.unpin()
        for call in (then.root, then.next, then.range, then.version, then.format, then.len,
                     lambda: then.get(b"key"), lambda: then.prove(b"key")):
            self.refused(mst_store.CLOSED, call)
        # a second unpin ends no later pin
        with store.pin() as later:
            then.unpin()
            self.refused(mst_store.WRONG_STATE, store.put, b"key", b"")
            self.assertEqual(later.version(), 0)
        self.assertIsNone(store.put(b"key", b""))

    def test_a_pin_keeps_its_pass(self):
        (store,) = open_store(rows=1000, passes=1)
        store.put(b"key", b"value")
        with store.pin() as then:
            del store
            self.assertEqual(then.get(b"key"), b"value")
        self.refused(mst_store.CLOSED, then.get, b"key")

    def test_a_pin_comes_from_a_pass_alone(self):
        with one().pin() as then:
            for call in (copy.copy, copy.deepcopy, pickle.dumps):
                self.assertRaises(TypeError, call, then)
        self.assertRaises(TypeError, Pinned, None)

    def test_a_pin_ends_with_its_pass(self):
        reader, writer = open_store(rows=1000, passes=2)
        with reader.pin():
            self.refused(mst_store.ROWS_PINNED, writer.rows)
            reader.close()
            self.assertEqual(writer.rows(), 0)

    def test_the_store_goes_with_its_last_pass(self):
        for _ in range(50):
            last, *others = open_store(rows=65535, passes=3)
            last.put(b"key", b"value")
            others[0].close()
            del others
            self.assertEqual(last.get(b"key"), b"value")

    def test_busy_is_told_by_a_try(self):
        store = one()
        for name, given in (("put", (b"key", b"")), ("remove", (b"key",)),
                            ("apply", ([(b"key", b"")],)), ("migrate", (Format.TWO,))):
            with mock.patch.object(_library.lib, f"mst_try_{name}", lambda *_: mst_store.BUSY):
                self.assertRaises(Busy, getattr(store, f"try_{name}"), *given)
        self.assertEqual(store.version(), 0)

    def test_other_threads_run_while_a_call_waits(self):
        # a migration of many pairs has the turn so long that the other pass waits
        passes, ticks = open_store(rows=65535, passes=2), []
        passes[0].apply((i.to_bytes(4, "big"), b"") for i in range(20000))
        ended = threading.Event()

        def migrate():
            for step in range(20):
                passes[0].migrate(2 - step % 2)
            ended.set()

        def write():
            while not ended.is_set():
                passes[1].put(b"key", b"")

        threads = [threading.Thread(target=call) for call in (migrate, write)]
        for thread in threads:
            thread.start()
        while not ended.wait(0.001):
            ticks.append(len(ticks))
        for thread in threads:
            thread.join()
        self.assertGreater(len(ticks), 20)

    def test_a_code_that_is_not_known(self):
        store = one()
        with mock.patch.object(_library.lib, "mst_get", lambda *_: -99):
            self.refused(-99, store.get, b"key")
        self.assertEqual(str(Refused(-99)), "the library answered -99")

    def test_exceptions(self):
        self.assertTrue(issubclass(Busy, Refused))
        self.assertEqual((Busy().code, str(Busy())), (-21, "another pass writes"))
        self.assertEqual(pickle.loads(pickle.dumps(Refused(-5))).code, -5)
        self.assertEqual(pickle.loads(pickle.dumps(RefusedEdit(-6, 7))).place, 7)


if __name__ == "__main__":
    unittest.main()
