"""kinds_python.py FILE: what a client accepts that takes a root digest for one of the other kind, by
mst_verifier.py, as docs/VERIFIER.md says it. The lines of FILE are vectors of sharded maps: a
format, a root digest, a key, a proof and the answer.

A proof of the other kind is refused by its first byte. But the directory's part of a proof of a
sharded map is a proof of one map, and keys that shards have are absent by it. And a value of 32
bytes in one map is read as the root digest of a shard. Both have to be so: the page that warns of
them would be wrong if they were not.
"""
import os
import sys
from hashlib import sha256

here = os.path.dirname(os.path.abspath(__file__))
sys.path.append(os.path.join(here, "..", "..", "verifiers", "python"))
from mst_verifier import line_for, read_parts, verify, verify_sharded


def text_of(key, value):
    """The text of the one node of a map of this pair, whose key has layer 0, in format 1."""
    return bytes([1, 0, 0, 1, 0, len(key)]) + key + bytes([len(value)]) + value + bytes([0])


def proof_of(text):
    """The proof of one map that this one text makes."""
    return bytes([1, 1]) + len(text).to_bytes(4, "big") + text


def is_false_absence(line):
    """Whether the directory's part of an honest proof shows that a key is absent which the sharded
    map has."""
    format, root, key, proof, answer = line.rstrip("\n").split("\t")[:5]
    if not answer.startswith("present"):
        return False
    format, root, key, proof = int(format), *map(bytes.fromhex, (root, key, proof))
    assert line_for(format, root, key, proof) == "P1"
    directory = read_parts(format, proof)[1]
    return line_for(format, root, key, directory) == "absent"


def is_false_value():
    """Whether a value of 32 bytes in one map makes another value of a key above it accepted."""
    key, low = b"apple", b"a"
    forged = text_of(key, b"999")
    honest = text_of(low, sha256(forged).digest())
    root = sha256(honest).digest()
    assert line_for(1, root, key, proof_of(honest)) == "absent"
    assert line_for(1, root, key, proof_of(honest), verify_sharded) == "S1"
    directory = proof_of(honest)
    proof = bytes([3, len(low)]) + low + len(directory).to_bytes(4, "big") + directory
    return verify_sharded(1, root, key, proof + proof_of(forged)) == b"999"


assert verify(1, sha256(text_of(b"a", b"1")).digest(), b"a", proof_of(text_of(b"a", b"1"))) == b"1"
absences = sum(map(is_false_absence, open(sys.argv[1])))
print(f"{absences} false absences and {int(is_false_value())} false value by the wrong call")
sys.exit(absences == 0 or not is_false_value())
