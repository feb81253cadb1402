"""A present key, an absent key and a forged proof, by the C library, from Python.

After `make -C ../bindings`:

    python3 verify.py ../bindings/out/libmst_verifier.so

Or a static library becomes a shared one by

    cc -shared -o libmst_verifier.so -Wl,--whole-archive \\
        ../crates/mst_verifier/out/libmst_verifier.a -Wl,--no-whole-archive

and then: python3 verify.py libmst_verifier.so
"""
import ctypes
import os
import sys

# The root digest of the map of "a" and "abc", with the values "1" and "x".
ROOT = bytes.fromhex("d4a8a9fc55058427163bd8a1f09ca5ec542de1cdaf28df100be5472e47b72503")

# That map's proof, which is the same for each key: its one node has both entries.
PROOF = bytes.fromhex("0101000000110100000200016101310003616263017800")

ROOM = 64
ABSENT = -1


class Refused(Exception):
    """The number of the refusal."""


def open_library(path):
    call = ctypes.CDLL(os.path.abspath(path)).mst_verify
    part = [ctypes.c_char_p, ctypes.c_size_t]
    call.argtypes = [ctypes.c_uint32, *part, *part, *part, *part]
    call.restype = ctypes.c_int32
    return call


def verify(call, root, key, proof):
    """Returns the value of the key, or None if it is absent."""
    room = ctypes.create_string_buffer(ROOM)
    told = call(1, root, len(root), key, len(key), proof, len(proof), room, ROOM)
    if told >= 0:
        return room.raw[:told]
    if told == ABSENT:
        return None
    raise Refused(told)


if __name__ == "__main__":
    call = open_library(sys.argv[1])
    forged = PROOF.replace(b"\x01a\x011", b"\x01a\x012")
    for key, proof in [(b"a", PROOF), (b"b", PROOF), (b"a", forged)]:
        try:
            value = verify(call, ROOT, key, proof)
            print("absent" if value is None else f"present {value.decode()}")
        except Refused as refused:
            print(f"refused {refused}")
