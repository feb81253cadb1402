"""Hands and splits of sharded maps, and what the calls of blocks tell."""
from __future__ import annotations

import ctypes
import os
import threading
from contextlib import contextmanager
from typing import Any, Callable, Dict, Iterable, Iterator, Optional, Set, Tuple, Type

from ._library import KEY_LONGEST, ROOT_LENGTH, SHARDED_HAND, VALUE_LONGEST
from ._library import lib as _lib
from ._reads import Octets, _octets
from ._refusals import (
    ABSENT, BAD_KEY, BAD_VALUE, BUSY, CLOSED, MEMORY, NO_FREE_ROWS, OVERTAKEN, SHORT_ROOM,
    VERSIONS_SPENT, WRONG_STATE, BusyShard, Overtaken, RefusedEdit, RefusedShard,
)
from ._refusals import refuse as _refuse


def _packed_splits(splits: Iterable[Octets]) -> bytes:
    # A key that is too long is refused by its length, so that is enough.
    keys = map(_octets, splits)
    return b"".join(bytes((min(len(key), 255),)) + key[: KEY_LONGEST + 1] for key in keys)


def _answer(code: int) -> int:
    if code < 0:
        _refuse(code)
    return code


class _Hand:
    """A hand. It is in one call at a time, so who makes one has the lock."""

    def __init__(self, hand: Any) -> None:
        if not isinstance(hand, SHARDED_HAND):
            raise TypeError("writers and readers come from open_sharded, parts from begin")
        self.hand, self.process = hand, os.getpid()
        self.lock = threading.Lock()

    def close(self) -> None:
        _lib.mst_sharded_close(self.hand)

    def __del__(self) -> None:
        # As for a pass: no other call can be under way, and a forked child calls nothing by itself.
        if _lib is not None and getattr(self, "process", None) == os.getpid():
            self.close()


class _Held(_Hand):
    """A hand, and the rooms of its calls."""

    def __init__(self, hand: Any) -> None:
        super().__init__(hand)
        self.room = ctypes.create_string_buffer(VALUE_LONGEST)
        self.key_room = ctypes.create_string_buffer(KEY_LONGEST)
        self.long_room = ctypes.create_string_buffer(4096)  # grows with the longest proof or range

    def shards(self) -> int:
        return _answer(_lib.mst_sharded_shards(self.hand))

    def number(self) -> int:
        number = ctypes.c_uint64()
        _answer(_lib.mst_sharded_number(self.hand, ctypes.byref(number)))
        return int(number.value)

    def root(self) -> bytes:
        _answer(_lib.mst_sharded_root(self.hand, self.room, VALUE_LONGEST))
        return self.room.raw[:ROOT_LENGTH]

    def value(self, code: int) -> Optional[bytes]:
        return None if code == ABSENT else self.room.raw[: _answer(code)]

    def get(self, key: bytes) -> Optional[bytes]:
        return self.value(_lib.mst_sharded_get(
            self.hand, key, len(key), self.room, VALUE_LONGEST))

    def next(self, key: bytes) -> Optional[Tuple[bytes, bytes]]:
        length = ctypes.c_size_t()
        value = self.value(_lib.mst_sharded_next(
            self.hand, key, len(key), self.key_room, KEY_LONGEST, ctypes.byref(length), self.room,
            VALUE_LONGEST,
        ))
        return None if value is None else (self.key_room.raw[: length.value], value)

    def longest(self, call: Callable[[Any, Any], Any]) -> bytes:
        length = ctypes.c_size_t()
        while True:
            room = self.long_room
            code = call(room, ctypes.byref(length))
            if code != SHORT_ROOM:
                _answer(code)
                return ctypes.string_at(room, length.value)
            self.long_room = ctypes.create_string_buffer(length.value)


class _Calls:
    """A group of the library, and the calls that are in it."""

    def __init__(self, group: ctypes.c_void_p) -> None:
        self.group, self.is_over = group, False
        self.is_forgotten = False  # nothing refers to its ShardedGroup, so no call can be in it
        # The calls and not their count, so that none which Ctrl-C cuts short is left in it.
        self.inside: Set[object] = set()
        self.lock = threading.Lock()
        self.changes = threading.Condition(self.lock)

    @contextmanager
    def entered(self) -> Iterator[ctypes.c_void_p]:
        """The group for a call, for which end waits."""
        call = object()
        try:
            with self.lock:
                if self.is_over:
                    _refuse(CLOSED)
                self.inside.add(call)
            yield self.group
        finally:
            with self.lock:
                self.inside.discard(call)
                if self.is_over:
                    self.changes.notify_all()

    def end(self) -> None:
        """Lets no more calls in, and waits until none is inside. If Ctrl-C ends the wait, another
        try may follow."""
        with self.lock:
            self.is_over = True
            self.changes.wait_for(lambda: not self.inside)


class _WriterHand(_Held):
    """The hand of a writer. While a group has the writer, the hand is empty."""

    calls: Optional[_Calls] = None  # those of this group

    @contextmanager
    def taken(self) -> Iterator[_WriterHand]:
        """The hand for a call, unless a group has its writer."""
        with self.lock:
            if self.calls is not None and self.calls.is_forgotten:
                self.take_back()
            if self.calls is not None:
                _refuse(WRONG_STATE)
            yield self

    def share(self) -> _Calls:
        """Makes a group of the writer."""
        group = ctypes.c_void_p()
        with self.taken():
            _answer(_lib.mst_sharded_group_open(self.hand, ctypes.byref(group)))
            self.calls = _Calls(group)
            return self.calls

    def take_back(self) -> None:
        """Ends the group, if there is one. No call may be in it. Who calls has the lock."""
        if self.calls is not None:
            group, self.calls = self.calls.group, None
            _lib.mst_sharded_group_close(group, self.hand)

    def close(self) -> None:
        self.take_back()
        super().close()


# What a block that is not made tells of no shard.
_NO_SHARD = ctypes.c_size_t(-1).value

_REFUSALS_OF_A_SHARD: Dict[int, Type[RefusedShard]] = {
    BUSY: BusyShard,
    MEMORY: RefusedShard,
    NO_FREE_ROWS: RefusedShard,
    OVERTAKEN: Overtaken,
    VERSIONS_SPENT: RefusedShard,
}


def _block(code: int, number: ctypes.c_uint64, shard: ctypes.c_size_t) -> int:
    """Returns the number of a block that a call has made, or raises why it has not."""
    if code in _REFUSALS_OF_A_SHARD:
        raise _REFUSALS_OF_A_SHARD[code](code, shard.value)
    _answer(code)
    return int(number.value)


def _block_of_edits(
    code: int, number: ctypes.c_uint64, place: ctypes.c_size_t, shard: ctypes.c_size_t
) -> int:
    """The same, of a call that is given the edits."""
    if code in (BAD_KEY, BAD_VALUE):
        raise RefusedEdit(code, place.value)
    return _block(code, number, shard)
