"""Calls of the store for Python that wait: for no longer than a time, and in eight threads, each of
which is served."""
import math
import threading
import time
import unittest

import mst_store
from mst_store import Busy, Format, Refused, RefusedEdit, open_store

SHORT, LONG = 0.001, 60.0  # seconds


class Waits(unittest.TestCase):
    def busy_then_made(self, store, within):
        """Calls with too short a time until one is busy, and has made nothing. With more time it is
        made."""
        deadline = time.monotonic() + LONG
        is_busy = False
        while not is_busy:
            self.assertLess(time.monotonic(), deadline, "it is never busy")
            before = store.made()
            try:
                within(SHORT)
            except Busy:
                is_busy = True
            self.assertEqual(is_busy, store.made() == before)
        within(LONG)

    def test_calls_wait_no_longer_than_they_may(self):
        mover, store = open_store(rows=65535, passes=2)
        mover.apply_within(((at.to_bytes(4, "big"), b"") for at in range(20000)), 0)
        ended = threading.Event()

        def migrate():
            while not ended.is_set():
                mover.migrate(Format.TWO)
                mover.migrate(Format.ONE)

        thread = threading.Thread(target=migrate)
        thread.start()
        try:
            self.busy_then_made(store, lambda longest: store.put_within(b"a", b"1", longest))
            self.busy_then_made(store, lambda longest: store.remove_within(b"a", longest))
            self.busy_then_made(store, lambda longest: store.apply_within([(b"b", b"1")], longest))
            self.busy_then_made(store, lambda longest: store.migrate_within(Format.ONE, longest))
        finally:
            ended.set()
            thread.join()
        self.assertEqual((store.get(b"a"), store.get(b"b")), (None, b"1"))

    def test_times(self):
        store = open_store(rows=1000, passes=1)[0]
        for seconds in (0, -1, -math.inf, 1e-9, 0.5, 3, 1e300, math.inf):
            store.put_within(b"key", b"", seconds)
            store.remove_within(b"key", seconds)
        for wrong, error in ((math.nan, ValueError), ("1", TypeError), (None, TypeError)):
            self.assertRaises(error, store.put_within, b"key", b"", wrong)
        self.assertEqual(store.version(), 16)

    def test_refusals_wait_for_no_time(self):
        store = open_store(rows=4, passes=1)[0]
        self.assertIsNone(store.put_within(b"a", b"1", LONG))
        with self.assertRaises(Refused) as caught:
            for key in range(98, 256):
                store.put_within(bytes([key]), b"", LONG)
        self.assertEqual(caught.exception.code, mst_store.NO_FREE_ROWS)
        with self.assertRaises(Refused) as caught:
            store.remove_within(b"", LONG)
        self.assertEqual(caught.exception.code, mst_store.BAD_KEY)
        with self.assertRaises(RefusedEdit) as refused:
            store.apply_within([(b"a", b""), (b"a", bytes(65))], LONG)
        self.assertEqual((refused.exception.code, refused.exception.place),
                         (mst_store.BAD_VALUE, 1))
        with store.pin(), self.assertRaises(Refused) as caught:
            store.migrate_within(Format.TWO, LONG)
        self.assertEqual(caught.exception.code, mst_store.WRONG_STATE)

    def all_are_served(self):
        """Whether of eight threads that write for two seconds the slowest makes a quarter of the
        mean."""
        passes = open_store(rows=4096, passes=8)
        puts, ended = [0] * 8, threading.Event()

        def write(at):
            while not ended.is_set():
                passes[at].put(bytes([at]), puts[at].to_bytes(8, "big"))
                puts[at] += 1

        threads = [threading.Thread(target=write, args=(at,)) for at in range(8)]
        for thread in threads:
            thread.start()
        time.sleep(2)
        ended.set()
        for thread in threads:
            thread.join()
        return min(puts) * 4 * 8 >= sum(puts)

    def test_eight_threads_are_served(self):
        # ten times where other programs want all processors
        self.assertTrue(any(self.all_are_served() for _ in range(10)))


if __name__ == "__main__":
    unittest.main()
