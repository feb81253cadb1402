"""Stores and their passes."""
from __future__ import annotations

import ctypes
import operator
import os
import struct
import threading
from typing import Any, Callable, Iterable, List, NoReturn, Optional, Tuple

from ._library import HAND, KEY_LONGEST, PASSES_MOST, VALUE_LONGEST, Hand
from ._library import lib as _lib
from ._reads import Format, Octets, Reads, _format, _octets, _word
from ._refusals import ABSENT, BAD_KEY, BAD_VALUE, RefusedEdit
from ._refusals import refuse as _refuse

Edit = Tuple[Octets, Optional[Octets]]  # a key with its new value, or with None to take it out

# What an edit begins with: 1 for a put or 2 for a remove, and the two lengths.
_EDIT = struct.Struct(">BHH")


def _microseconds(seconds: float) -> int:
    # Below 0 it is none, and what a word has no room for is without end. NaN raises ValueError.
    longest = max(seconds * 1e6, 0)
    return 2**64 - 1 if longest >= 2**64 else int(longest)


def _edit(key: Octets, value: Optional[Octets]) -> bytes:
    name, kind = _octets(key), 2 if value is None else 1
    held = b"" if value is None else _octets(value)
    if len(name) > KEY_LONGEST or len(held) > VALUE_LONGEST:
        # It is refused by its lengths, so they are enough.
        return _EDIT.pack(kind, min(len(name), 2**16 - 1), min(len(held), 2**16 - 1))
    return _EDIT.pack(kind, len(name), len(held)) + name + held


def _packed(edits: Iterable[Edit]) -> bytes:
    return b"".join(_edit(key, value) for key, value in edits)


class Pass(Reads):
    """A pass of a store, from open_store. Its reads are of the current version, and of the pinned
    one while it pins."""

    def __init__(self, hand: Any) -> None:
        if not isinstance(hand, HAND):
            raise TypeError("a pass comes from open_store")
        self._hand, self._process = hand, os.getpid()
        self._lock = threading.Lock()
        self._room = ctypes.create_string_buffer(VALUE_LONGEST)
        self._key_room = ctypes.create_string_buffer(KEY_LONGEST)
        self._long_room = ctypes.create_string_buffer(4096)

    def rows(self) -> int:
        """Returns how many rows the current version takes; raises Busy if another pass has the
        turn, and Refused if some pass pins."""
        return self._number(_lib.mst_rows, ctypes.c_uint32())

    def free_rows(self) -> int:
        """Returns how many rows are free to the next write, also while versions are pinned; raises
        Busy if another pass has the turn."""
        return self._number(_lib.mst_free_rows, ctypes.c_uint32())

    def pinned_versions(self) -> List[int]:
        """Returns the versions that are pinned, in rising order, each once; raises Busy if another
        pass has the turn. The current version is among them only if it is pinned."""
        versions, count = (ctypes.c_uint64 * PASSES_MOST)(), ctypes.c_size_t()
        with self._lock:
            code = _lib.mst_pinned_versions(
                self._hand, versions, PASSES_MOST, ctypes.byref(count))
        if code < 0:
            _refuse(code)
        return versions[:count.value]

    def made(self) -> Optional[int]:
        """Returns the version that the last write of this pass made, whatever others wrote since,
        or None if it has made none."""
        version = ctypes.c_uint64()
        with self._lock:
            code = _lib.mst_made(self._hand, ctypes.byref(version))
        if code == ABSENT:
            return None
        if code < 0:
            _refuse(code)
        return int(version.value)

    def try_put(self, key: Octets, value: Octets) -> Optional[bytes]:
        """Gives the key the value, or raises Busy. Returns the value before, or None if the key is
        new."""
        return self._put(_lib.mst_try_put, key, value)

    def try_remove(self, key: Octets) -> Optional[bytes]:
        """Takes the key out, or raises Busy. Returns the value that it had, or None if it was
        absent."""
        return self._remove(_lib.mst_try_remove, key)

    def try_migrate(self, to: int) -> Format:
        """Turns the tree of the map to a format, or raises Busy. Returns the format before.

        The map stays, and so do the pinned versions, each in its format.
        """
        return self._migrate(_lib.mst_try_migrate, to)

    def try_apply(self, edits: Iterable[Edit]) -> None:
        """Makes edits as one version, or raises Busy.

        Each is a key with its new value, or with None to take the key out. They are made in their
        order: of those of one key the last decides. Each read sees all of them or none. No edits
        make a version too. RefusedEdit tells which edit has a key or a value of a bad length.
        """
        self._apply(_lib.mst_try_apply, edits)

    def put(self, key: Octets, value: Octets) -> Optional[bytes]:
        """As try_put, but waits for the turn."""
        return self._put(_lib.mst_put, key, value)

    def remove(self, key: Octets) -> Optional[bytes]:
        """As try_remove, but waits for the turn."""
        return self._remove(_lib.mst_remove, key)

    def apply(self, edits: Iterable[Edit]) -> None:
        """As try_apply, but waits for the turn."""
        self._apply(_lib.mst_apply, edits)

    def migrate(self, to: int) -> Format:
        """As try_migrate, but waits for the turn."""
        return self._migrate(_lib.mst_migrate, to)

    def put_within(self, key: Octets, value: Octets, seconds: float) -> Optional[bytes]:
        """As put, but waits for no longer than this, in whole microseconds: then it raises Busy,
        and nothing is written. It tries at least once, and with 0 exactly once, as try_put does.

        A thread that has this pass in another call is waited for all the same.
        """
        return self._put(_lib.mst_put_within, key, value, _microseconds(seconds))

    def remove_within(self, key: Octets, seconds: float) -> Optional[bytes]:
        """As remove, but waits for no longer than this, as put_within does."""
        return self._remove(_lib.mst_remove_within, key, _microseconds(seconds))

    def apply_within(self, edits: Iterable[Edit], seconds: float) -> None:
        """As apply, but waits for no longer than this, as put_within does."""
        self._apply(_lib.mst_apply_within, edits, _microseconds(seconds))

    def migrate_within(self, to: int, seconds: float) -> Format:
        """As migrate, but waits for no longer than this, as put_within does."""
        return self._migrate(_lib.mst_migrate_within, to, _microseconds(seconds))

    # Each of these is by a call that tries, by the one that waits, or by the one that waits for no
    # longer than a time, which stands last.
    def _put(
        self, call: Callable[..., int], key: Octets, value: Octets, *longest: int
    ) -> Optional[bytes]:
        key, value = _octets(key), _octets(value)
        with self._lock:
            return self._value(call(
                self._hand, key, len(key), value, len(value), self._room, VALUE_LONGEST, *longest))

    def _remove(self, call: Callable[..., int], key: Octets, *longest: int) -> Optional[bytes]:
        key = _octets(key)
        with self._lock:
            return self._value(
                call(self._hand, key, len(key), self._room, VALUE_LONGEST, *longest))

    def _apply(self, call: Callable[..., int], edits: Iterable[Edit], *longest: int) -> None:
        packed, place = _packed(edits), ctypes.c_size_t()
        with self._lock:
            code = call(self._hand, packed, len(packed), ctypes.byref(place), *longest)
        if code in (BAD_KEY, BAD_VALUE):
            raise RefusedEdit(code, place.value)
        if code < 0:
            _refuse(code)

    def _migrate(self, call: Callable[..., int], to: int, *longest: int) -> Format:
        with self._lock:
            return _format(call(self._hand, _word(to), *longest))

    def pin(self) -> Pinned:
        """Pins the current version, for a `with`: until that ends, each read by the result, and by
        this pass, is of it. A pass that pins neither writes nor counts rows."""
        return Pinned(self)

    def close(self) -> None:
        """Closes the pass. Later calls raise Refused with CLOSED; a second close has no effect."""
        with self._lock:
            _lib.mst_close(self._hand)

    def __enter__(self) -> Pass:
        return self

    def __exit__(self, *_: object) -> None:
        self.close()

    def __reduce__(self) -> NoReturn:
        # A copy would have the same hand, and close it when it goes.
        raise TypeError("a pass is neither copied nor pickled")

    def __del__(self) -> None:
        # No other call can be under way, since nothing refers to the pass. _lib goes first as
        # Python ends. A forked child calls nothing by itself: the pass is that of its parent.
        if _lib is not None and getattr(self, "_process", None) == os.getpid():
            _lib.mst_close(self._hand)


class Pinned(Reads):
    """A pass while it pins a version, from its pin: it has the reads alone. The pin ends with the
    `with`, by unpin, or with its pass; then reads raise Refused with CLOSED."""

    def __init__(self, of: Pass) -> None:
        if not isinstance(of, Pass):
            raise TypeError("a pin comes from a pass")
        self._lock, self._room, self._key_room = of._lock, of._room, of._key_room
        self._long_room = of._long_room
        with self._lock:
            code = _lib.mst_pin(of._hand)
        if code < 0:
            _refuse(code)
        self._hand = of._hand
        self._of: Optional[Pass] = of  # so it stays open

    def unpin(self) -> None:
        """Ends the pin before the `with` ends. A second unpin has no effect."""
        with self._lock:
            # If the pass was closed, this call is refused, and there is nothing to unpin.
            _lib.mst_unpin(self._hand)
            self._hand = ctypes.pointer(Hand())
        self._of = None

    def __enter__(self) -> Pinned:
        return self

    def __exit__(self, *_: object) -> None:
        self.unpin()

    def __reduce__(self) -> NoReturn:
        # A copy would not know of its end.
        raise TypeError("a pin is neither copied nor pickled")


def open_store(*, rows: int, passes: int, format: int = Format.ONE) -> List[Pass]:
    """Opens a store of the empty map and returns its passes.

    It has 4 to 65,535 rows and 1 to 32 passes; other numbers raise Refused. A map takes a row for
    each of its pairs and nodes.
    """
    # 33 hands are as refused as any greater number.
    count = min(max(operator.index(passes), 0), 33)
    hands = (Hand * count)()
    code = _lib.mst_open(_word(format), _word(rows), hands, count)
    if code < 0:
        _refuse(code)
    return [Pass(ctypes.pointer(hands[at])) for at in range(count)]
