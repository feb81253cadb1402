"""Groups: threads that write a sharded map by its one writer."""
from __future__ import annotations

import ctypes
from typing import Any, Iterable, NoReturn

from ._hands import _block_of_edits, _WriterHand
from ._library import lib as _lib
from ._passes import Edit
from ._passes import _packed as _packed_edits


class ShardedGroup:
    """A writer of blocks for any number of threads (group commit), from a writer's group. While one
    of them makes a block, the edits of the others wait, and then all that wait are made as one
    block. The group has the map until it is closed, or nothing refers to it any more. Then its
    writer has the map again."""

    def __init__(self, held: Any) -> None:
        if not isinstance(held, _WriterHand):
            raise TypeError("a group comes from a writer's group")
        self._held, self._calls = held, held.share()

    def apply(self, edits: Iterable[Edit]) -> int:
        """Makes edits of all shards, as Pass.apply takes them, in a block, and returns its number
        once they are published. Any number of threads may be in this call at a time. Other Python
        threads run meanwhile.

        A block may have the edits of several calls, which are told one number. In it the edits of
        each call follow those of the calls that came before. The numbers that a thread is told
        rise. The root digest of the block is not told: a snapshot that is taken afterwards has it
        only if no later block was made, which its number tells.

        If the call is refused, none of its edits is made, and no other call is refused for it.
        RefusedEdit tells which of these edits has a key or a value of a bad length, and
        RefusedShard, or Overtaken, which shard refused them. If the group or its writer is closed,
        Refused has CLOSED.

        It reads nothing: what a reader or a snapshot told may be changed by another call before
        these edits are made. If edits depend on what the map has, such as those of a counter,
        updates may be lost. Hold a lock around the read and this call in all threads that write, or
        let one thread write without a group.
        """
        packed, number = _packed_edits(edits), ctypes.c_uint64()
        place, shard = ctypes.c_size_t(), ctypes.c_size_t()
        with self._calls.entered() as group:
            code = _lib.mst_sharded_group_apply(
                group, packed, len(packed), ctypes.byref(place), ctypes.byref(shard),
                ctypes.byref(number))
        return _block_of_edits(code, number, place, shard)

    def close(self) -> None:
        """Ends the group, and waits for the calls that are in it: then its writer has the map
        again. Later calls raise Refused with CLOSED; a second close has no effect."""
        with self._held.lock:
            # If not, the writer was closed, or has the map again.
            if self._held.calls is self._calls:
                self._calls.end()
                self._held.take_back()

    def __enter__(self) -> ShardedGroup:
        return self

    def __exit__(self, *_: object) -> None:
        self.close()

    def __reduce__(self) -> NoReturn:
        # A copy would not know of its end.
        raise TypeError("a group is neither copied nor pickled")

    def __del__(self) -> None:
        # This may run within a call of the writer, which has the lock. So the next call ends it.
        calls = getattr(self, "_calls", None)
        if calls is not None:
            calls.is_forgotten = True
