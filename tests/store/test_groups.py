"""Groups from Python: threads that write a sharded map by its one writer, and the same blocks once
more; calls that are refused; the writer meanwhile; and groups that are closed, or forgotten."""
import copy
import gc
import pickle
import threading
import time
import unittest
from unittest import mock

import mst_store
from mst_store import (
    Format, Refused, RefusedEdit, RefusedShard, ShardedGroup, _library, open_sharded,
)

THREADS, REQUESTS = 8, 300
SPLITS = [bytes([number]) for number in range(2, 9)]


def edits_of(thread, request):
    """The edits of a request, which counts from 1, of keys that no other thread has. Some have no
    edits, and one in a while has so many that others come meanwhile."""
    value = b"%d" % request
    if thread == 0 and request % 50 == 1:
        return [(bytes([1 + at % 8, 200, at // 8]), value) for at in range(1000)]
    if request % 101 == 0:
        return []
    puts, removes = 7 * request, 5 * request + 3
    edits = [(bytes([1 + (thread + puts) % 8, thread, puts % 16]), value)]
    if request % 3 == 0:
        edits.append((bytes([1 + (thread + removes) % 8, thread, removes % 16]), None))
    return edits


def together(*calls):
    """Makes the calls in threads, and returns when all have ended. Of those that raise it raises
    one."""
    wrong = []

    def make(call):
        try:
            call()
        except BaseException as error:
            wrong.append(error)

    threads = [threading.Thread(target=make, args=(call,), daemon=True) for call in calls]
    for thread in threads:
        thread.start()
    for thread in threads:
        thread.join()
    if wrong:
        raise wrong[0]


class Groups(unittest.TestCase):
    def refused(self, code, call, *given):
        with self.assertRaises(Refused) as caught:
            call(*given)
        self.assertEqual(caught.exception.code, code)
        return caught.exception

    def all_refused(self, code, writer):
        """Whether all calls of the writer but close are refused by this code."""
        edits = [(b"a", b"1")]
        for call in (writer.shards, writer.number, writer.root, writer.group,
                     lambda: writer.get(b"a"), lambda: writer.apply(edits),
                     lambda: writer.apply_in_threads(edits, 2), lambda: writer.begin(edits)):
            self.refused(code, call)

    # ---- threads that write

    def writes(self, group, thread):
        """Makes the requests of a thread, whose numbers rise."""
        numbers = self.numbers[thread]
        try:
            for request in range(1, REQUESTS + 1):
                number = group.apply(iter(edits_of(thread, request)))
                self.assertGreater(number, numbers[-1])
                numbers.append(number)
                with self.lock:
                    self.highest = max(self.highest, number)
        finally:
            self.ended.append(thread)

    def looks(self, reader):
        """Takes snapshots until the threads have ended: none is older than a block that was
        told."""
        last = 0
        while last < self.highest or len(self.ended) < THREADS:
            least = max(last, self.highest)
            with reader.snapshot() as then:
                last = then.number()
                self.seen[last] = then.root()
            self.assertGreaterEqual(last, least)

    def replays(self):
        """Makes the requests once more in a second map, by the numbers that were told: it has each
        root digest that was seen. Each number is that of a block with requests."""
        (twin,) = open_sharded(rows=2048, splits=SPLITS)
        blocks = {number: [] for number in range(1, self.highest + 1)}
        for thread, numbers in enumerate(self.numbers):
            self.assertEqual(len(numbers), REQUESTS + 1)
            for request, number in enumerate(numbers[1:], 1):
                blocks[number].append(edits_of(thread, request))
        self.assertIn(self.highest, self.seen)
        for number, requests in blocks.items():
            self.assertNotEqual(requests, [])
            self.assertEqual(twin.apply(edit for edits in requests for edit in edits), number)
            self.assertEqual(twin.root(), self.seen.get(number, twin.root()))

    def test_threads_write_by_one_group(self):
        writer, reader = open_sharded(rows=2048, readers=1, splits=SPLITS)
        self.numbers, self.seen = [[0] for _ in range(THREADS)], {}
        self.lock, self.highest, self.ended = threading.Lock(), 0, []
        with writer.group() as group:
            together(lambda: self.looks(reader),
                     *(lambda at=at: self.writes(group, at) for at in range(THREADS)))
        # while long requests were made, others came, and were made as one block
        self.assertLess(self.highest, THREADS * REQUESTS)
        self.assertEqual(writer.number(), self.highest)
        known = {}
        for thread in range(THREADS):
            for request in range(1, REQUESTS + 1):
                known.update(edits_of(thread, request))
        self.assertEqual({key: writer.get(key) for key in known}, known)
        self.replays()
        self.assertEqual(writer.apply([]), self.highest + 1)

    def test_a_counter_with_a_lock_around_the_read(self):
        writer, reader = open_sharded(rows=64, readers=1, splits=SPLITS)
        lock = threading.Lock()

        def counts(group):
            for _ in range(50):
                with lock:
                    count = int(reader.get(b"count") or b"0")
                    group.apply([(b"count", b"%d" % (count + 1))])

        with writer.group() as group:
            together(*[lambda: counts(group)] * 4)
        self.assertEqual(writer.get(b"count"), b"200")

    # ---- refusals

    def test_no_call_is_refused_for_another(self):
        (writer,) = open_sharded(rows=80, splits=[b"b"], format=Format.TWO)
        many, last = [(bytes([ord("c"), 0, at]), b"1") for at in range(100)], 150

        def asks(thread):
            good, before = [(bytes([first, thread]), b"%d") for first in b"ac"], 0
            bad = {0: (mst_store.BAD_KEY, (b"", None)), 1: (mst_store.BAD_VALUE, (b"a", bytes(65)))}
            for request in range(1, last + 1):
                edits = [(key, value % request) for key, value in good]
                if thread in bad:
                    code, edit = bad[thread]
                    refused = self.refused(code, group.apply, [*edits, edit])
                    self.assertEqual((type(refused), refused.place), (RefusedEdit, 2))
                elif thread == 2:
                    refused = self.refused(mst_store.NO_FREE_ROWS, group.apply, many)
                    self.assertEqual((type(refused), refused.shard), (RefusedShard, 1))
                else:
                    number = group.apply(edits)
                    self.assertGreater(number, before)
                    before = number

        with writer.group() as group:
            together(*(lambda at=at: asks(at) for at in range(THREADS)))
        self.assertGreaterEqual(writer.number(), last)
        for thread in range(THREADS):
            for first in b"ac":
                wanted = b"%d" % last if thread > 2 else None
                self.assertEqual(writer.get(bytes([first, thread])), wanted)

    def test_the_writer_is_refused_while_a_group_has_it(self):
        writer, reader, other = open_sharded(rows=64, readers=2, splits=SPLITS)
        with other.snapshot() as then, writer.group() as group:
            self.all_refused(mst_store.WRONG_STATE, writer)
            self.refused(mst_store.WRONG_STATE, then.copy_to, writer)
            self.assertEqual((group.apply([(b"a", b"1")]), reader.get(b"a")), (1, b"1"))
            # no call is left in the group that raises something else
            for wrong in ([("a", b"1")], None):
                self.assertRaises(TypeError, group.apply, wrong)
            with mock.patch.object(
                    _library.lib, "mst_sharded_group_apply", side_effect=KeyboardInterrupt):
                self.assertRaises(KeyboardInterrupt, group.apply, [])
        self.assertEqual((writer.number(), writer.get(b"a")), (1, b"1"))
        for _ in range(2):
            group.close()
            self.refused(mst_store.CLOSED, group.apply, [])
        with writer.group() as later:
            # of a later group the older one knows nothing
            group.close()
            self.assertEqual(later.apply([]), 2)
        self.assertEqual(writer.apply([]), 3)

    def test_openings_that_are_refused(self):
        writer, reader = open_sharded(rows=64, readers=1, splits=SPLITS)
        with writer.begin([]):
            self.refused(mst_store.WRONG_STATE, writer.group)
        with mock.patch.object(_library.lib, "mst_sharded_group_open", lambda *_: mst_store.MEMORY):
            self.refused(mst_store.MEMORY, writer.group)
        self.assertEqual(writer.apply([]), 1)
        for wrong in (None, writer, reader._held):
            self.assertRaises(TypeError, ShardedGroup, wrong)
        with writer.group() as group:
            for call in (copy.copy, copy.deepcopy, pickle.dumps):
                self.assertRaises(TypeError, call, group)
        writer.close()
        self.refused(mst_store.CLOSED, writer.group)

    # ---- the end of a group

    def test_a_group_is_closed_with_its_writer(self):
        writer, reader = open_sharded(rows=64, readers=1, splits=SPLITS)
        with writer, writer.group() as group:
            group.apply([(b"a", b"1")])
            writer.close()
            self.refused(mst_store.CLOSED, group.apply, [])
            self.all_refused(mst_store.CLOSED, writer)
        self.assertEqual(reader.get(b"a"), b"1")

    def test_a_close_waits_for_the_calls_that_are_in_the_group(self):
        writer, reader = open_sharded(rows=500, readers=1, splits=SPLITS)
        edits = [[(bytes([1 + thread, at]), b"1") for at in range(20)] for thread in range(THREADS)]
        told, started = [], threading.Barrier(THREADS + 1)

        def writes(group, thread):
            started.wait()
            while True:
                try:
                    told.append(group.apply(edits[thread]))
                except Refused as refused:
                    self.assertEqual(refused.code, mst_store.CLOSED)
                    return

        def closes(one, after):
            started.wait()
            time.sleep(after / 1000)
            one.close()

        for turn in range(21):
            told.clear()
            group = writer.group()
            # at last the writer is closed, and the group with it
            one = writer if turn == 20 else group
            together(lambda: closes(one, turn),
                     *(lambda at=at: writes(group, at) for at in range(THREADS)))
            with reader.snapshot() as then:
                self.assertEqual(then.number(), max(told, default=then.number()))

    def test_a_forgotten_group_is_closed(self):
        writer, reader = open_sharded(rows=64, readers=1, splits=SPLITS)
        group = writer.group()
        self.assertEqual(group.apply([(b"a", b"1")]), 1)
        group = [group]
        group.append(group)  # which refers to itself
        del group
        gc.collect()
        self.assertEqual((writer.number(), writer.apply([])), (1, 2))
        # a group has the map also if nothing else refers to its writer, which goes with it
        group = writer.group()
        del writer
        gc.collect()
        self.assertEqual(group.apply([(b"a", b"2")]), 3)
        del group
        self.assertEqual(reader.get(b"a"), b"2")


if __name__ == "__main__":
    unittest.main()
