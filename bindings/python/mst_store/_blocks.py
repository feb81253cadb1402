"""Blocks of sharded maps: the writers that make them, and those that were begun, with their
parts."""
from __future__ import annotations

import ctypes
import operator
import time
from typing import Any, Callable, Iterable, List, NoReturn, Optional

from ._group import ShardedGroup
from ._hands import _NO_SHARD, _answer, _block, _block_of_edits, _Hand, _Held, _WriterHand
from ._library import ShardedHand
from ._library import lib as _lib
from ._passes import Edit
from ._passes import _packed as _packed_edits
from ._reads import Octets, _octets, _word
from ._refusals import ABSENT, BUSY, CLOSED
from ._refusals import refuse as _refuse


class ShardedPart:
    """A part of a block that was begun, from ShardedBlock.parts: the edits of one shard."""

    def __init__(self, hand: Any, shard: int) -> None:
        self._hand, self._shard = _Hand(hand), shard

    def prepare(self) -> None:
        """Makes the edits in free rows, and hashes them: readers see nothing of it. Parts may be
        prepared in any order, each in any thread, or not at all. Other Python threads run
        meanwhile. If nothing is left to do, it does nothing.

        If the shard refuses its edits, RefusedShard is raised, and ShardedBlock.commit will raise
        the same, unless a shard before it refuses its own. BusyShard is also raised while another
        thread ends the block, and then Refused with WRONG_STATE.
        """
        with self._hand.lock:
            code = _lib.mst_sharded_prepare(self._hand.hand)
        _block(code, ctypes.c_uint64(), ctypes.c_size_t(self._shard))

    def __reduce__(self) -> NoReturn:
        # A copy would have the same hand.
        raise TypeError("a part is neither copied nor pickled")


class ShardedBlock:
    """A block that was begun, from a writer's begin, with its `parts`, one for each shard, in their
    order. If it is not committed when the `with` ends, it is cancelled."""

    def __init__(self, held: _Held, parts: List[ShardedPart]) -> None:
        self.parts = parts
        self._held, self._is_over = held, False

    def commit(self) -> int:
        """Makes the block, as ShardedWriter.apply makes one of the same edits: returns its number,
        or raises why it is refused, and nothing has changed. It prepares the parts that are not
        prepared, and waits for one that another thread is just preparing. Then the block has ended:
        a second commit raises Refused with CLOSED."""
        number, shard = ctypes.c_uint64(), ctypes.c_size_t(_NO_SHARD)
        with self._held.lock:
            if self._is_over:
                _refuse(CLOSED)
            while True:
                code = _lib.mst_sharded_commit(
                    self._held.hand, ctypes.byref(shard), ctypes.byref(number))
                # of a part that is just being prepared no shard is told
                if code != BUSY or shard.value != _NO_SHARD:
                    break
                time.sleep(0)
            self._is_over = True
        return _block(code, number, shard)

    def cancel(self) -> None:
        """Takes the block back: nothing has changed. It waits for a part that another thread is
        just preparing. If the block has ended, it does nothing."""
        with self._held.lock:
            while not self._is_over and _lib.mst_sharded_cancel(self._held.hand) == BUSY:
                time.sleep(0)
            self._is_over = True

    def __enter__(self) -> ShardedBlock:
        return self

    def __exit__(self, *_: object) -> None:
        self.cancel()

    def __reduce__(self) -> NoReturn:
        # A copy would not know of its end.
        raise TypeError("a block is neither copied nor pickled")


class ShardedWriter:
    """The writer of a sharded map, from open_sharded, which alone makes its blocks."""

    def __init__(self, hand: Any) -> None:
        self._held = _WriterHand(hand)

    def shards(self) -> int:
        """Returns how many shards there are."""
        with self._held.taken() as held:
            return held.shards()

    def free_rows(self, shard: int) -> Optional[int]:
        """Returns how many rows are free to the next block in the shard with this number, from 0,
        or in the directory, which has the number of the shards; None if there is no such shard.
        Raises Busy if a thread has died within a call."""
        rows = ctypes.c_uint32()
        with self._held.taken() as held:
            code = _lib.mst_sharded_free_rows(held.hand, _word(shard), ctypes.byref(rows))
        if code == ABSENT:
            return None
        _answer(code)
        return int(rows.value)

    def apply(self, edits: Iterable[Edit]) -> int:
        """Makes edits of all shards, as Pass.apply takes them, as the next block, and returns its
        number: one more than that of the block before. Readers see none of them before all are
        made. No edits make a block too.

        If the block is refused, nothing has changed in any shard. RefusedEdit tells which edit has
        a key or a value of a bad length, and RefusedShard, or Overtaken, which shard refused its
        edits.
        """
        return self._applied(_lib.mst_sharded_apply, edits)

    def apply_in_threads(self, edits: Iterable[Edit], threads: int) -> int:
        """As apply, but by at most so many threads: this one, and others of the library, which have
        ended when it returns. Each makes and hashes the edits of other shards. It starts them anew
        each time, so a block of few edits may take longer than by apply. Where a thread cannot be
        started, the others do its work."""
        return self._applied(
            _lib.mst_sharded_apply_in_threads, edits, _word(max(operator.index(threads), 0)))

    def _applied(self, call: Callable[..., int], edits: Iterable[Edit], *more: int) -> int:
        packed, number = _packed_edits(edits), ctypes.c_uint64()
        place, shard = ctypes.c_size_t(), ctypes.c_size_t()
        with self._held.taken() as held:
            code = call(
                held.hand, packed, len(packed), *more, ctypes.byref(place), ctypes.byref(shard),
                ctypes.byref(number))
        return _block_of_edits(code, number, place, shard)

    def begin(self, edits: Iterable[Edit]) -> ShardedBlock:
        """Begins the next block, of these edits, for a `with`, with its parts, one for each shard,
        for threads that the caller has. Until the block ends, all other calls of the writer but
        close raise Refused with WRONG_STATE. If an edit is not valid, or memory is refused, nothing
        has changed, and the exception is that of apply.

            with writer.begin(edits) as block:
                list(pool.map(ShardedPart.prepare, block.parts))
                number = block.commit()
        """
        packed, place, count = _packed_edits(edits), ctypes.c_size_t(), self.shards()
        hands = (ShardedHand * count)()
        parts = [ShardedPart(ctypes.pointer(hands[at]), at) for at in range(count)]
        with self._held.taken() as held:
            code = _lib.mst_sharded_begin(
                held.hand, packed, len(packed), ctypes.byref(place), hands, count)
        _block_of_edits(code, ctypes.c_uint64(), place, ctypes.c_size_t(count))
        return ShardedBlock(self._held, parts)

    def group(self) -> ShardedGroup:
        """Makes a group of the writer, by which any number of threads make blocks. Until the group
        is closed, all other calls of the writer but close raise Refused with WRONG_STATE, and so
        does this one while a block is begun. If memory is refused, Refused has MEMORY, and the
        writer is as it was.

            with writer.group() as group:
                group.apply(edits)      # in any thread
        """
        return ShardedGroup(self._held)

    def get(self, key: Octets) -> Optional[bytes]:
        """Returns the value of the key in the last block, or None if the key is absent: so a block
        can depend on what the map has."""
        key = _octets(key)
        with self._held.taken() as held:
            return held.get(key)

    def number(self) -> int:
        """Returns the number of the last block; 0 is that of the empty map."""
        with self._held.taken() as held:
            return held.number()

    def root(self) -> bytes:
        """Returns the root digest of all shards after the last block, as a snapshot of it has
        it."""
        with self._held.taken() as held:
            return held.root()

    def close(self) -> None:
        """Closes the writer: then no more blocks are made, and readers go on. A group that has the
        writer is closed too, once no call is in it. Later calls raise Refused with CLOSED; a second
        close has no effect."""
        with self._held.lock:
            if self._held.calls is not None:
                self._held.calls.end()
            self._held.close()

    def __enter__(self) -> ShardedWriter:
        return self

    def __exit__(self, *_: object) -> None:
        self.close()

    def __reduce__(self) -> NoReturn:
        # A copy would have the same hand.
        raise TypeError("a writer is neither copied nor pickled")
