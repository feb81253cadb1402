"""The verifier of proofs in Python, written from docs/FORMAT.md alone, with the standard library
alone.

    python3 mst_verifier.py FORMAT ROOT KEY < PROOF      1 or 2, and the other three in
                                                         hexadecimal digits
    python3 mst_verifier.py --sharded FORMAT ROOT KEY < PROOF      for a sharded map

A root digest tells neither its format nor whether it is of one map or of a sharded map. Take both
from where you take the root digest, never from the proof: the wrong call may accept a false answer.
"""
import sys
from hashlib import sha256


class Refused(Exception):
    """A test that a proof fails, as "P1", of a sharded map as "S1" or "S4 P1"."""


class Short(Exception):
    """Fewer bytes are left than are asked for."""


class Bytes:
    """Bytes that are read from the front."""

    def __init__(self, whole):
        self.whole, self.at = whole, 0

    def take(self, count):
        part = self.whole[self.at : self.at + count]
        if len(part) < count:
            raise Short
        self.at += count
        return part

    def number(self, count):
        return int.from_bytes(self.take(count), "big")

    def is_at_end(self):
        return self.at == len(self.whole)


def layer_of(format, key):
    """How many digits of the key's SHA-256 are 0 at its front: of base 16 in format 1, of base 4 in
    format 2."""
    zeros = 256 - int.from_bytes(sha256(key).digest(), "big").bit_length()
    return zeros // (4 if format == 1 else 2)


def read_child(text):
    flag = text.number(1)
    if flag > 1:
        raise Refused("P4")
    return text.take(32) if flag else None


def read_counted(text, least, most):
    length = text.number(1)
    if not least <= length <= most:
        raise Refused("P4")
    return text.take(length)


def read_held(format, text):
    """What a node holds of a value: the value in format 1, its SHA-256 in format 2."""
    return read_counted(text, 0, 64) if format == 1 else text.take(32)


def read_node(format, whole):
    """The layer, the keys, what is held of the values, and the children of a node: one child more
    than keys."""
    text = Bytes(whole)
    try:
        if text.number(1) != format:
            raise Refused("P4")
        layer, count = text.number(1), text.number(2)
        keys, values, children = [], [], [read_child(text)]
        for _ in range(count):
            keys.append(read_counted(text, 1, 32))
            values.append(read_held(format, text))
            children.append(read_child(text))
    except Short:
        raise Refused("P4")
    rising = all(one < next for one, next in zip(keys, keys[1:]))
    layered = all(layer_of(format, key) == layer for key in keys)
    if not keys or not text.is_at_end() or not rising or not layered:
        raise Refused("P4")
    return layer, keys, values, children


UNFIT = object()


def read_tail(proof):
    """The answer that a proof of format 2 claims: None, a value, or UNFIT if it can be no
    answer."""
    first = proof.number(1)
    if first == 1:
        value = proof.take(proof.number(1))
        return value if len(value) <= 64 else UNFIT
    return None if first == 0 else UNFIT


def read_frame(format, whole):
    """The texts of a proof, and the answer that it claims."""
    proof = Bytes(whole)
    try:
        if proof.number(1) != format:
            raise Refused("P1")
        texts = [proof.take(proof.number(4)) for _ in range(proof.number(1))]
        claim = read_tail(proof) if format == 2 else None
    except Short:
        raise Refused("P2")
    if not proof.is_at_end():
        raise Refused("P3")
    return texts, claim


def verify(format, root, key, proof):
    """Returns the key's value in the map with this root digest, or None if the key is absent.
    Raises Refused if the proof fails a test."""
    if format not in (1, 2):
        raise ValueError("there are formats 1 and 2")
    if len(root) != 32 or not 1 <= len(key) <= 32:
        raise ValueError("a root digest has 32 bytes, a key 1 to 32")
    texts, claim = read_frame(format, proof)
    held = follow(format, root, key, texts)
    return held if format == 1 else opened(claim, held)


def opened(claim, held):
    """The claimed answer, if its SHA-256 is what is held."""
    if claim is UNFIT or (claim is None) != (held is None):
        raise Refused("P10")
    if claim is not None and sha256(claim).digest() != held:
        raise Refused("P10")
    return claim


def follow(format, root, key, texts):
    """What the texts show that a node holds of the key, or None if it is absent."""
    if not texts:
        if root != sha256(b"").digest():
            raise Refused("P5")
        return None
    expected, upper, low, high = root, None, None, None
    for place, text in enumerate(texts):
        is_last = place == len(texts) - 1
        layer, keys, values, children = read_node(format, text)
        if sha256(text).digest() != expected:
            raise Refused("P5")
        if upper is not None and layer >= upper:
            raise Refused("P6")
        if any((low is not None and k <= low) or (high is not None and k >= high) for k in keys):
            raise Refused("P7")
        gap = sum(k < key for k in keys)
        is_held = key in keys
        if is_held or children[gap] is None:
            if not is_last:
                raise Refused("P9")
            return values[gap] if is_held else None
        if is_last:
            raise Refused("P8")
        expected, upper = children[gap], layer
        low = keys[gap - 1] if gap > 0 else low
        high = keys[gap] if gap < len(keys) else high


def read_parts(format, whole):
    """The lower bound in a proof of a sharded map, the directory's proof and the shard's."""
    proof = Bytes(whole)
    try:
        if proof.number(1) != format + 2:
            raise Refused("S1")
        low = proof.take(proof.number(1))
        if not 1 <= len(low) <= 32:
            raise Refused("S3")
        directory = proof.take(proof.number(4))
    except Short:
        raise Refused("S2")
    return low, directory, whole[proof.at :]


def verify_part(test, format, root, key, proof):
    """As verify, for a part of the proof of which this is the test."""
    try:
        return verify(format, root, key, proof)
    except Refused as refused:
        raise Refused(f"{test} {refused}")


def verify_sharded(format, root, key, proof):
    """Returns the key's value in the sharded map with this root digest, or None if the key is
    absent. Raises Refused if the proof fails a test."""
    if format not in (1, 2):
        raise ValueError("there are formats 1 and 2")
    if len(root) != 32 or not 1 <= len(key) <= 32:
        raise ValueError("a root digest has 32 bytes, a key 1 to 32")
    low, directory, shard = read_parts(format, proof)
    held = verify_part("S4", format, root, low, directory)
    if held is None:
        raise Refused("S5")
    if len(held) < 32:
        raise Refused("S6")
    digest, high = held[:32], held[32:]
    if key < low:
        raise Refused("S7")
    if high and key >= high:
        raise Refused("S8")
    return verify_part("S9", format, digest, key, shard)


def line_for(format, root, key, proof, by=verify):
    """The answer as a line has it, by verify or by verify_sharded."""
    try:
        value = by(format, root, key, proof)
    except Refused as refused:
        return str(refused)
    return "absent" if value is None else f"present {value.hex() or '-'}"


def main(words):
    by = verify
    if words[:1] == ["--sharded"]:
        by, words = verify_sharded, words[1:]
    if len(words) != 3:
        sys.exit(__doc__)
    format, *texts = *words, sys.stdin.read()
    line = line_for(int(format), *(bytes.fromhex(text) for text in texts), by)
    print(line)
    return line[0] in "PS"


if __name__ == "__main__":
    sys.exit(main(sys.argv[1:]))
