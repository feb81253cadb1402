"""The shared library and its calls."""
from __future__ import annotations

import ctypes
import os
from typing import Any, Dict, Tuple

KEY_LONGEST, VALUE_LONGEST, ROOT_LENGTH = 32, 64, 32

# The most passes of a store, so the most versions that are pinned.
PASSES_MOST = 32

# The name that the library is linked and found by where it is installed.
SONAME = "libmst_store.so.1"


class Hand(ctypes.Structure):
    """What holds a pass. It stays where mst_open found it, since no one but the library may copy
    it. The padding keeps other hands out of its cache lines."""

    _fields_ = [("at", ctypes.c_void_p), ("padding", ctypes.c_uint64 * 31)]


HAND = ctypes.POINTER(Hand)


class ShardedHand(ctypes.Structure):
    """What holds the writer of a sharded map, a reader, a snapshot, a block that was begun, or a
    part of one. It stays where it is, and has padding, as a Hand."""

    _fields_ = [("at", ctypes.c_void_p), ("padding", ctypes.c_uint64 * 31)]


SHARDED_HAND = ctypes.POINTER(ShardedHand)


class Difference(ctypes.Structure):
    """A key at which two maps differ, with its two values. One that is absent is null."""

    _fields_ = [
        *((name, ctypes.c_void_p) for name in ("key", "ours", "theirs")),
        *((name, ctypes.c_size_t) for name in ("key_length", "ours_length", "theirs_length")),
    ]


# What mst_differing asks for a piece, and what it tells of a difference.
ASK = ctypes.CFUNCTYPE(
    ctypes.c_int32, ctypes.c_void_p, ctypes.c_void_p, ctypes.c_size_t, ctypes.c_uint32,
    ctypes.POINTER(ctypes.c_void_p), ctypes.POINTER(ctypes.c_size_t),
)
TELL = ctypes.CFUNCTYPE(ctypes.c_int32, ctypes.c_void_p, ctypes.POINTER(Difference))


def _signatures() -> Dict[str, Tuple[Any, ...]]:
    hand, size, text = HAND, ctypes.c_size_t, ctypes.c_char_p
    pointer = ctypes.POINTER
    listing = (
        hand, text, size, text, size, ctypes.c_uint32, text, size, pointer(size), pointer(size),
    )
    writes = {
        "put": (hand, text, size, text, size, text, size),
        "remove": (hand, text, size, text, size),
        "apply": (hand, text, size, pointer(size)),
        "migrate": (hand, ctypes.c_uint32),
    }
    return {
        "mst_open": (ctypes.c_uint32, ctypes.c_uint32, hand, size),
        "mst_close": (hand,),
        "mst_get": (hand, text, size, text, size),
        "mst_next": (hand, text, size, text, size, pointer(size), text, size),
        "mst_range": listing,
        "mst_page_after": listing,
        "mst_root": (hand, text, size),
        "mst_prove": (hand, text, size, text, size, pointer(size)),
        "mst_version": (hand, pointer(ctypes.c_uint64)),
        "mst_len": (hand, pointer(ctypes.c_uint64)),
        "mst_format": (hand,),
        "mst_rows": (hand, pointer(ctypes.c_uint32)),
        "mst_free_rows": (hand, pointer(ctypes.c_uint32)),
        "mst_pinned_versions": (hand, pointer(ctypes.c_uint64), size, pointer(size)),
        "mst_made": (hand, pointer(ctypes.c_uint64)),
        **{f"mst_{tries}{name}": types for tries in ("", "try_") for name, types in writes.items()},
        **{f"mst_{name}_within": (*types, ctypes.c_uint64) for name, types in writes.items()},
        "mst_proof_piece": (text, size, ctypes.c_uint32, pointer(ctypes.c_void_p), pointer(size)),
        "mst_differing": (hand, text, size, ASK, TELL, ctypes.c_void_p),
        "mst_pin": (hand,),
        "mst_unpin": (hand,),
    }


def _sharded_signatures() -> Dict[str, Tuple[Any, ...]]:
    hand, size, text = SHARDED_HAND, ctypes.c_size_t, ctypes.c_char_p
    pointer, number = ctypes.POINTER, ctypes.POINTER(ctypes.c_uint64)
    group = ctypes.c_void_p  # its address
    return {
        "mst_sharded_open": (ctypes.c_uint32, ctypes.c_uint32, text, size, hand, size),
        "mst_sharded_close": (hand,),
        "mst_sharded_shards": (hand,),
        "mst_sharded_free_rows": (hand, size, pointer(ctypes.c_uint32)),
        "mst_sharded_apply": (hand, text, size, pointer(size), pointer(size), number),
        "mst_sharded_apply_in_threads": (
            hand, text, size, size, pointer(size), pointer(size), number,
        ),
        "mst_sharded_begin": (hand, text, size, pointer(size), hand, size),
        "mst_sharded_prepare": (hand,),
        "mst_sharded_commit": (hand, pointer(size), number),
        "mst_sharded_cancel": (hand,),
        "mst_sharded_number": (hand, number),
        "mst_sharded_try_snapshot": (hand,),
        "mst_sharded_snapshot": (hand,),
        "mst_sharded_release": (hand,),
        "mst_sharded_get": (hand, text, size, text, size),
        "mst_sharded_next": (hand, text, size, text, size, pointer(size), text, size),
        "mst_sharded_range": (
            hand, text, size, text, size, ctypes.c_uint32, text, size, pointer(size), pointer(size),
        ),
        "mst_sharded_len": (hand, number),
        "mst_sharded_format": (hand,),
        "mst_sharded_root": (hand, text, size),
        "mst_sharded_prove": (hand, text, size, text, size, pointer(size)),
        "mst_sharded_directory": (hand, text, size, pointer(size), pointer(size)),
        "mst_sharded_copy": (hand, hand, pointer(size), number),
        "mst_sharded_group_open": (hand, pointer(group)),
        "mst_sharded_group_apply": (group, text, size, pointer(size), pointer(size), number),
        "mst_sharded_group_close": (group, hand),
    }


def _path() -> str:
    """Returns the path of the shared library: in the folder MST_STORE_DIR if that is set, otherwise
    in this package, or where make puts it; if it is in none, the name by which the system finds one
    that is installed."""
    here = os.path.dirname(os.path.abspath(__file__))
    named = os.environ.get("MST_STORE_DIR")
    folders = [named] if named else [here, os.path.join(here, "..", "..", "out")]
    for folder in folders:
        path = os.path.join(os.path.abspath(folder), "libmst_store.so")
        if os.path.exists(path):
            return path
    return os.path.join(named, "libmst_store.so") if named else SONAME


def _load() -> ctypes.CDLL:
    try:
        found = ctypes.CDLL(_path())
    except OSError as error:
        raise ImportError(f"{error}: install {SONAME} of a release, run `make -C bindings`, which "
                          "needs the kit, or set MST_STORE_DIR to the folder of libmst_store.so"
                          ) from error
    for name, types in {**_signatures(), **_sharded_signatures()}.items():
        call = getattr(found, name)
        call.argtypes, call.restype = types, ctypes.c_int32
    found.mst_library_version.argtypes, found.mst_library_version.restype = (), ctypes.c_char_p
    return found


lib = _load()


def library_version() -> str:
    """Returns the version of the shared library, which is this package's own if both are of one
    release."""
    return str(lib.mst_library_version().decode())
