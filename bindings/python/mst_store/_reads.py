"""The reads of stores, and what they and the other calls have in common."""
from __future__ import annotations

import ctypes
import enum
import operator
import struct
import threading
from typing import Any, Callable, Iterator, List, Optional, Tuple, Union

from ._differing import Difference
from ._differing import differing as _differing
from ._library import KEY_LONGEST, ROOT_LENGTH, VALUE_LONGEST
from ._library import lib as _lib
from ._refusals import ABSENT, SHORT_ROOM
from ._refusals import refuse as _refuse

Octets = Union[bytes, bytearray, memoryview]

# The lengths of a key and its value in front of them, as mst_range has them.
_LENGTHS = struct.Struct(">HH")


class Format(enum.IntEnum):
    """A format of trees and proofs, by the number that verifiers take."""

    ONE = 1
    TWO = 2


def _octets(given: Octets) -> bytes:
    # bytes(5) would be five zeros, so a number is no key.
    if not isinstance(given, (bytes, bytearray, memoryview)):
        raise TypeError(f"bytes are asked for, not {type(given).__name__}")
    return bytes(given)


def _word(number: int) -> int:
    # ctypes would cut greater numbers short. What is no integer raises TypeError.
    number = operator.index(number)
    return number if 0 <= number < 2**32 else 2**32 - 1


class Reads:
    """The reads of a Pass, which are of the current version, and of a Pinned, which are of the
    version that it pins. They wait for no one."""

    # A hand is in one call at a time, so each call has the lock. The rooms are shared by the calls.
    _hand: Any
    _lock: threading.Lock
    _room: ctypes.Array[ctypes.c_char]
    _key_room: ctypes.Array[ctypes.c_char]
    _long_room: ctypes.Array[ctypes.c_char]  # grows with the longest proof or range

    def _value(self, code: int) -> Optional[bytes]:
        if code >= 0:
            return self._room.raw[:code]
        if code != ABSENT:
            _refuse(code)
        return None

    def get(self, key: Octets) -> Optional[bytes]:
        """Returns the value of the key, or None if the key is absent."""
        key = _octets(key)
        with self._lock:
            return self._value(_lib.mst_get(self._hand, key, len(key), self._room, VALUE_LONGEST))

    def next(self, after: Octets = b"") -> Optional[Tuple[bytes, bytes]]:
        """Returns the pair of the least key above `after`, or of the least key of all if `after` is
        empty; None if there is no such pair."""
        after, length = _octets(after), ctypes.c_size_t()
        with self._lock:
            value = self._value(_lib.mst_next(
                self._hand, after, len(after), self._key_room, KEY_LONGEST, ctypes.byref(length),
                self._room, VALUE_LONGEST,
            ))
            return None if value is None else (self._key_room.raw[: length.value], value)

    def range(
        self, start: Octets = b"", stop: Octets = b"", limit: int = 2**32 - 1
    ) -> List[Tuple[bytes, bytes]]:
        """Returns the first pairs, at most `limit`, with start <= key < stop, all of one version.

        They are in the order of rising keys. An empty bound does not bind.
        """
        return self._listing(_lib.mst_range, start, stop, limit)

    def page_after(
        self, after: Octets, stop: Octets = b"", limit: int = 2**32 - 1
    ) -> List[Tuple[bytes, bytes]]:
        """As range, with after < key < stop: the page behind a pair that was the last of the page
        before. Behind an empty `after` are all pairs."""
        return self._listing(_lib.mst_page_after, after, stop, limit)

    def pages(self, limit: int, stop: Octets = b"") -> Iterator[List[Tuple[bytes, bytes]]]:
        """Yields all pairs with key < stop, in lists of `limit` pairs, the last one perhaps of
        fewer: of one version while the pass is pinned; otherwise each list is of one."""
        page = self.page_after(b"", stop, limit)
        while page:
            yield page
            page = self.page_after(page[-1][0], stop, limit)

    def _listing(
        self, call: Callable[..., int], low: Octets, stop: Octets, limit: int
    ) -> List[Tuple[bytes, bytes]]:
        low, stop = _octets(low), _octets(stop)
        limit = _word(max(operator.index(limit), 0))
        count, length = ctypes.c_size_t(), ctypes.c_size_t()
        with self._lock:
            while True:
                room = self._long_room
                code = call(
                    self._hand, low, len(low), stop, len(stop), limit, room, len(room),
                    ctypes.byref(count), ctypes.byref(length),
                )
                if code == 0:
                    return list(_pairs(ctypes.string_at(room, length.value)))
                if code != SHORT_ROOM:
                    _refuse(code)
                # A free pass may have more pairs by the next try, so this is a loop.
                self._long_room = ctypes.create_string_buffer(length.value)

    def items(self, start: Octets = b"", stop: Octets = b"") -> Iterator[Tuple[bytes, bytes]]:
        """Yields the pairs with start <= key < stop by rising keys, and reads them in pages of at
        most 64: of one version while the pass is pinned; otherwise each page is of one. An empty
        bound does not bind. Where it reads a page, it raises Refused as range does."""
        return _items(self.range, _octets(start), _octets(stop))

    def root(self) -> bytes:
        """Returns the root digest, of 32 bytes, in the format of the version."""
        with self._lock:
            code = _lib.mst_root(self._hand, self._room, VALUE_LONGEST)
            if code < 0:
                _refuse(code)
            return self._room.raw[:ROOT_LENGTH]

    def prove(self, key: Octets) -> bytes:
        """Returns the proof of the key's answer, for a verifier and the format and root digest of
        the same version."""
        key, length = _octets(key), ctypes.c_size_t()
        with self._lock:
            while True:
                room = self._long_room
                code = _lib.mst_prove(
                    self._hand, key, len(key), room, len(room), ctypes.byref(length))
                if code == 0:
                    return ctypes.string_at(room, length.value)
                if code != SHORT_ROOM:
                    _refuse(code)
                # The proof of a free pass may have grown again by the next try, so this is a loop.
                self._long_room = ctypes.create_string_buffer(length.value)

    def differing(
        self, root: Octets, ask: Callable[[bytes, int], Octets]
    ) -> List[Difference]:
        """Returns where the map differs from another one, of which only the root digest need be
        trusted: by rising keys, each with its two values.

        It goes down both trees from their root digests, passes subtrees with equal digests unread,
        and asks for the others node by node. ask(key, number) is to return what the other map gives
        by proof_piece(then.prove(key), number), all of one version; no piece is asked for twice.
        Each one is tested, so that it is the other map's, unless two texts have one SHA-256; one
        that is not raises Refused. What `ask` raises is raised.

        The root digest is in the format of this version. A pass that does not pin does so until
        this ends. `ask` uses other passes than this one, for which it would wait without end.
        """
        root = _octets(root)
        with self._lock:
            return _differing(
                self._hand, root, lambda key, number: _octets(ask(key, number)))

    def version(self) -> int:
        """Returns the number of the version: the number of writes and migrations before it.

        Sent with a message, it, or that of made, is all that read-your-writes over threads needs:
        a pass that is not pinned, and has here at least the number that it was sent, has seen, in
        this call and in each later one, all that the sender had written and read."""
        return self._number(_lib.mst_version, ctypes.c_uint64())

    # No __len__: by it a pass of the empty map would be false, and a test for truth would count.
    def len(self) -> int:
        """Returns how many pairs the version has. It counts them anew each time, by the nodes of
        the tree."""
        return self._number(_lib.mst_len, ctypes.c_uint64())

    def format(self) -> Format:
        """Returns the format of the version, in which its root digest and its proofs are."""
        with self._lock:
            return _format(_lib.mst_format(self._hand))

    def _number(self, call: Callable[..., int], number: Any) -> int:
        with self._lock:
            code = call(self._hand, ctypes.byref(number))
        if code < 0:
            _refuse(code)
        return int(number.value)


def proof_piece(proof: Octets, number: int) -> Optional[bytes]:
    """Returns a piece of a proof: of number 0 the text of the top node, of 1 that of the node below
    it, and so on; in format 2 there is one more piece behind the texts, in which the value stands.
    Returns None if the proof has no such piece. Nothing is verified."""
    proof, piece, length = _octets(proof), ctypes.c_void_p(), ctypes.c_size_t()
    code = _lib.mst_proof_piece(
        proof, len(proof), _word(number), ctypes.byref(piece), ctypes.byref(length))
    return None if code == ABSENT else ctypes.string_at(piece, length.value)


def _pairs(listing: bytes) -> Iterator[Tuple[bytes, bytes]]:
    at = 0
    while at < len(listing):
        key_length, value_length = _LENGTHS.unpack_from(listing, at)
        middle = at + 4 + key_length
        yield listing[at + 4 : middle], listing[middle : middle + value_length]
        at = middle + value_length


# The most pairs of a page of items.
_PAGE_MOST = 64


def _items(
    listing: Callable[[bytes, bytes, int], List[Tuple[bytes, bytes]]], start: bytes, stop: bytes
) -> Iterator[Tuple[bytes, bytes]]:
    page = listing(start, stop, _PAGE_MOST)
    yield from page
    while len(page) == _PAGE_MOST:
        last = page[-1][0]
        page = listing(last, stop, _PAGE_MOST)
        # It begins with the last pair of the page before, if that is still there.
        yield from (pair for pair in page if pair[0] != last)


def _format(code: int) -> Format:
    if code < 0:
        _refuse(code)
    return Format(code)
