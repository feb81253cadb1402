"""Sharded maps and their proofs as bytes, for making vectors (docs/FORMAT.md)."""
from typing import NamedTuple

from nodes import EMPTY, build, framed, tail

LEAST = b"\0"


class Map:
    """A map in a format, with its nodes by their digests and its root digest."""

    def __init__(self, format, pairs):
        self.format, self.pairs = format, dict(pairs)
        self.nodes, self.root = build(sorted(self.pairs.items()), format)

    def trail(self, key):
        """The nodes that a search for the key meets, from the top down."""
        trail, digest = [], None if self.root == EMPTY else self.root
        while digest is not None:
            node = self.nodes[digest]
            trail.append(node)
            digest = None if key in node.keys else node.children[node.gap(key)]
        return trail

    def proof(self, key):
        return proof_of(self.format, self.trail(key), self.pairs.get(key))


def proof_of(format, nodes, value):
    """A proof of these nodes, which in format 2 claims this value, or absence if it is None."""
    return framed_in(format, [node.text() for node in nodes], value)


def framed_in(format, texts, value, count=None):
    return framed(texts, count, format) + (tail(value) if format == 2 else b"")


class Shard(NamedTuple):
    """The keys from `low` on and below `high`, if there is one, with the map of these keys."""

    low: bytes
    high: bytes | None
    map: Map

    def has(self, key):
        return self.low <= key and (self.high is None or key < self.high)

    def listing(self):
        return listing(self.map.root, self.high)


def listing(root, high):
    """What a directory holds of a shard."""
    return root + (high or b"")


def frame(format, low, directory, shard):
    """The proof of a lower bound, the directory's proof for it and the shard's for the key."""
    long = len(directory).to_bytes(4, "big")
    return bytes([format + 2, len(low)]) + low + long + directory + shard


class Sharded:
    """Shards in a format, and their directory. Nothing says that they meet or hold their keys."""

    def __init__(self, format, shards):
        self.format, self.shards = format, list(shards)
        self.directory = Map(format, [(shard.low, shard.listing()) for shard in self.shards])
        self.root = self.directory.root

    def shard_of(self, key):
        return next(shard for shard in self.shards if shard.has(key))

    def proof(self, key, shard=None):
        """The proof of the key's shard, or of another one that is given."""
        shard = shard or self.shard_of(key)
        directory = self.directory.proof(shard.low)
        return frame(self.format, shard.low, directory, shard.map.proof(key))

    def relisted(self, shard, held):
        """The directory in which a shard's listing is another."""
        return Map(self.format, {**self.directory.pairs, shard.low: held})


def split(format, pairs, splits):
    """The map of these pairs, with splits that rise."""
    shards = []
    for low, high in zip([LEAST, *splits], [*splits, None]):
        empty = Shard(low, high, None)
        inside = {key: value for key, value in pairs.items() if empty.has(key)}
        shards.append(Shard(low, high, Map(format, inside)))
    return Sharded(format, shards)
