"""How the map is spread: the splits, the shards between them, and what the directory has of each.

A shard has the keys from its lower bound on and below its upper bound. The splits rise, and each is
the upper bound of one shard and the lower bound of the next. The first shard begins with the least
key of all; the last one has no upper bound.
"""
import bisect

SHARDS, WORKERS = 32, 4
SPLITS = [(at * 2**16 // SHARDS).to_bytes(2, "big") for at in range(1, SHARDS)]
LEAST_KEY, NO_BOUND = b"\0", b""
LOWER, UPPER = [LEAST_KEY, *SPLITS], [*SPLITS, NO_BOUND]
# The first byte of a two-part proof, by the format.
FIRST_BYTES = {1: b"\x03", 2: b"\x04"}


def shard_of(key):
    """The number of the shard whose interval has this key."""
    return bisect.bisect_right(SPLITS, key)


def shards_of(worker):
    """The shards that a worker holds."""
    share = SHARDS // WORKERS
    return range(worker * share, (worker + 1) * share)


def splits_of(worker):
    """The splits between the shards that a worker holds."""
    held = shards_of(worker)
    return SPLITS[held.start : held.stop - 1]


def worker_of(shard):
    """The worker that holds a shard."""
    return shard // (SHARDS // WORKERS)


def directory_pair(shard, root):
    """What the directory has of a shard: the lower bound is the key, the root digest and the upper
    bound are the value."""
    return LOWER[shard], root + UPPER[shard]


def root_in(listed):
    """The root digest in what a directory has of a shard."""
    return listed[:32]


def two_part(format, bound, listed, held):
    """The proof of a key's answer: the lower bound of its shard, the directory's proof for that
    bound, and the shard's proof for the key."""
    head = FIRST_BYTES[format] + bytes([len(bound)]) + bound
    return head + len(listed).to_bytes(4, "big") + listed + held


def parts(proof):
    """The bound, the directory's proof and the shard's proof of a good two-part proof."""
    begun = 2 + proof[1]
    ended = begun + 4 + int.from_bytes(proof[begun : begun + 4], "big")
    return proof[2:begun], proof[begun + 4 : ended], proof[ended:]
