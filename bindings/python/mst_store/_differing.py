"""Where two maps differ: what mst_differing calls while it goes over both trees."""
from __future__ import annotations

import ctypes
from typing import Any, Callable, List, NamedTuple, Optional

from ._library import ASK, TELL
from ._library import lib as _lib
from ._refusals import refuse as _refuse


class Difference(NamedTuple):
    """A key at which two maps differ, with its two values: None where the key is absent."""

    key: bytes
    ours: Optional[bytes]
    theirs: Optional[bytes]


# What a callback returns to end the call; no call of the library returns it.
_STOPPED = 1


def _value(at: Optional[int], length: int) -> Optional[bytes]:
    return None if at is None else ctypes.string_at(at, length)


class _Walk:
    """The callbacks, and what they were told. What one of them raises ends the call."""

    def __init__(self, ask: Callable[[bytes, int], bytes]) -> None:
        self.ask, self.piece = ask, b""  # the piece stays until the next one is asked for
        self.found: List[Difference] = []
        self.raised: Optional[BaseException] = None

    def asked(
        self, _: Any, key: int, key_length: int, number: int, piece: Any, length: Any
    ) -> int:
        try:
            self.piece = self.ask(ctypes.string_at(key, key_length), number)
            piece[0] = ctypes.cast(ctypes.c_char_p(self.piece), ctypes.c_void_p)
            length[0] = len(self.piece)
        except BaseException as raised:  # it would not come through the library
            self.raised = raised
        return 0 if self.raised is None else _STOPPED

    def told(self, _: Any, difference: Any) -> int:
        try:
            it = difference.contents
            ours, theirs = _value(it.ours, it.ours_length), _value(it.theirs, it.theirs_length)
            key = ctypes.string_at(it.key, it.key_length)
            self.found.append(Difference(key, ours, theirs))
        except BaseException as raised:
            self.raised = raised
        return 0 if self.raised is None else _STOPPED


def differing(hand: Any, root: bytes, ask: Callable[[bytes, int], bytes]) -> List[Difference]:
    """By the pass in this hand, of which the caller has the lock."""
    walk = _Walk(ask)
    code = _lib.mst_differing(
        hand, root, len(root), ASK(walk.asked), TELL(walk.told), None)
    if walk.raised is not None:
        raise walk.raised
    if code < 0:
        _refuse(code)
    return walk.found
