"""Readers of sharded maps, and the snapshots of blocks that they take."""
from __future__ import annotations

import ctypes
import operator
from contextlib import contextmanager
from typing import Any, Callable, Iterator, List, NoReturn, Optional, Tuple

from ._blocks import ShardedWriter
from ._hands import _answer, _block, _Held
from ._library import lib as _lib
from ._reads import Format, Octets, _format, _items, _octets, _pairs, _word
from ._refusals import CLOSED, MOVING, Moving
from ._refusals import refuse as _refuse


class ShardedSnapshot:
    """A snapshot of exactly one block, unless SHA-256 collides, from a reader's snapshot. All reads
    are of this block. Its pins end with the `with`, by release, or with its reader; then reads
    raise Refused with CLOSED."""

    def __init__(self, held: _Held) -> None:
        self._held, self._is_over = held, False

    def release(self) -> None:
        """Ends the pins before the `with` ends. A second release has no effect."""
        with self._held.lock:
            # If the reader was closed, the call is refused, and no pin is left.
            if not self._is_over:
                _lib.mst_sharded_release(self._held.hand)
            self._is_over = True

    def __enter__(self) -> ShardedSnapshot:
        return self

    def __exit__(self, *_: object) -> None:
        self.release()

    @contextmanager
    def _taken(self) -> Iterator[_Held]:
        with self._held.lock:
            if self._is_over:
                _refuse(CLOSED)
            yield self._held

    def shards(self) -> int:
        """Returns how many shards there are."""
        with self._taken() as held:
            return held.shards()

    def number(self) -> int:
        """Returns the number of the block: how many blocks led to this map."""
        with self._taken() as held:
            return held.number()

    def root(self) -> bytes:
        """Returns the root digest of all shards, of 32 bytes. It depends on their pairs, their
        format and the splits alone."""
        with self._taken() as held:
            return held.root()

    # No __len__, as of Reads.
    def len(self) -> int:
        """Returns how many pairs all shards have together. It counts them anew each time, by the
        nodes of their trees."""
        count = ctypes.c_uint64()
        with self._taken() as held:
            _answer(_lib.mst_sharded_len(held.hand, ctypes.byref(count)))
        return int(count.value)

    def format(self) -> Format:
        """Returns the format of the map, in which its root digest and its proofs are."""
        with self._taken() as held:
            return _format(_lib.mst_sharded_format(held.hand))

    def get(self, key: Octets) -> Optional[bytes]:
        """Returns the value of the key, or None if the key is absent."""
        key = _octets(key)
        with self._taken() as held:
            return held.get(key)

    def next(self, after: Octets = b"") -> Optional[Tuple[bytes, bytes]]:
        """Returns the pair of the least key above `after`, or of the least key of all if `after` is
        empty; None if there is no such pair."""
        after = _octets(after)
        with self._taken() as held:
            return held.next(after)

    def range(
        self, start: Octets = b"", stop: Octets = b"", limit: int = 2**32 - 1
    ) -> List[Tuple[bytes, bytes]]:
        """Returns the first pairs, at most `limit`, with start <= key < stop, in the order of
        rising keys. An empty bound does not bind."""
        start, stop, count = _octets(start), _octets(stop), ctypes.c_size_t()
        limit = _word(max(operator.index(limit), 0))
        with self._taken() as held:
            return list(_pairs(held.longest(lambda room, length: _lib.mst_sharded_range(
                held.hand, start, len(start), stop, len(stop), limit, room, len(room),
                ctypes.byref(count), length))))

    def items(self, start: Octets = b"", stop: Octets = b"") -> Iterator[Tuple[bytes, bytes]]:
        """Yields the pairs with start <= key < stop by rising keys, and reads them in pages of at
        most 64. An empty bound does not bind. Where it reads a page, it raises Refused as range
        does."""
        return _items(self.range, _octets(start), _octets(stop))

    def directory(self) -> List[Tuple[bytes, bytes]]:
        """Returns of each shard its lower bound, with its root digest of 32 bytes and its upper
        bound, which is empty if there is none: the pairs whose root digest is that of the
        snapshot."""
        count = ctypes.c_size_t()
        with self._taken() as held:
            return list(_pairs(held.longest(lambda room, length: _lib.mst_sharded_directory(
                held.hand, room, len(room), ctypes.byref(count), length))))

    def prove(self, key: Octets) -> bytes:
        """Returns the proof of the key's answer, for a verifier of sharded maps and the format and
        root digest of the same snapshot."""
        key = _octets(key)
        with self._taken() as held:
            return held.longest(lambda room, length: _lib.mst_sharded_prove(
                held.hand, key, len(key), room, len(room), length))

    def copy_to(self, writer: ShardedWriter) -> int:
        """Puts all pairs, as one block, into another sharded map, by its writer, and returns the
        number of this block.

        The other map may be of the other format, with other splits, or with more rows: so a map is
        migrated, split anew, or enlarged, while its readers go on. Keys that the other map has
        besides keep their values. Blocks that are made after the snapshot are not copied.

        If the block is refused, nothing has changed in any shard, as with ShardedWriter.apply.
        There may also be no memory for the list of all pairs.
        """
        if not isinstance(writer, ShardedWriter):
            raise TypeError("a snapshot is copied to a ShardedWriter")
        number, shard = ctypes.c_uint64(), ctypes.c_size_t()
        # Nothing else takes the locks of two hands, so none takes these in the other order.
        with self._taken() as held, writer._held.taken() as other:
            code = _lib.mst_sharded_copy(
                held.hand, other.hand, ctypes.byref(shard), ctypes.byref(number))
        return _block(code, number, shard)

    def __reduce__(self) -> NoReturn:
        # A copy would not know of its end.
        raise TypeError("a snapshot is neither copied nor pickled")


class ShardedReader:
    """A reader of a sharded map, from open_sharded. It takes snapshots, one at a time."""

    def __init__(self, hand: Any) -> None:
        self._held = _Held(hand)

    def shards(self) -> int:
        """Returns how many shards there are."""
        with self._held.lock:
            return self._held.shards()

    def get(self, key: Octets) -> Optional[bytes]:
        """Returns the value that the key has now, or None if the key is absent. Two such reads
        need not be of one block. While the reader has a snapshot, it reads the snapshot's block."""
        key = _octets(key)
        with self._held.lock:
            return self._held.get(key)

    def snapshot(self) -> ShardedSnapshot:
        """Takes a snapshot of one block, for a `with`; while a block is being published, it tries
        again. It is not promised when a try falls between two blocks; and if the writer's thread
        has died within apply, none may."""
        return self._taken_by(_lib.mst_sharded_snapshot)

    def try_snapshot(self) -> ShardedSnapshot:
        """As snapshot, but raises Moving while a block is just being published."""
        return self._taken_by(_lib.mst_sharded_try_snapshot)

    def _taken_by(self, call: Callable[..., int]) -> ShardedSnapshot:
        with self._held.lock:
            code = call(self._held.hand)
        if code == MOVING:
            raise Moving()
        _answer(code)
        return ShardedSnapshot(self._held)

    def close(self) -> None:
        """Closes the reader. Later calls raise Refused with CLOSED; a second close has no
        effect."""
        with self._held.lock:
            _lib.mst_sharded_close(self._held.hand)

    def __enter__(self) -> ShardedReader:
        return self

    def __exit__(self, *_: object) -> None:
        self.close()

    def __reduce__(self) -> NoReturn:
        # A copy would have the same hand.
        raise TypeError("a reader is neither copied nor pickled")
