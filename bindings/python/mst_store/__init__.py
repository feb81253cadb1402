"""An in-memory ordered map of short keys and values, with a root digest, proofs, and pinned
versions.

A store is used through its passes alone. By their code reads wait for no one (docs/LIMITS.md has
how that is known); one write runs at a time. The store is freed with its last pass.

    writer, reader = open_store(rows=1000, passes=2)
    writer.put(b"apple", b"30")
    with reader.pin() as then:
        writer.put(b"apple", b"31")
        then.get(b"apple")          # b"30"
    reader.get(b"apple")            # b"31"
    writer.apply([(b"apple", b"32"), (b"pear", None)])  # one version; None takes a key out
    writer.migrate(Format.TWO)      # shorter proofs; a store opens in Format.ONE

A sharded map is many stores as one map. Its writer makes blocks, each one version of the whole map,
and its readers take snapshots, each of one block:

    writer, reader = open_sharded(rows=1000, readers=1, splits=[b"m"])
    writer.apply([(b"apple", b"30"), (b"pear", b"12")])     # block 1
    with reader.snapshot() as then:
        then.number(), then.root()
    with writer.group() as group:       # several threads write by one writer
        group.apply([(b"apple", b"31")])                    # in any thread

Keys have 1 to 32 bytes, values 0 to 64. Use a pass for each thread: ctypes lets other threads run
during a call, and two calls by one pass wait for each other. So make none in a signal handler: it
would wait for ever for the call that it interrupts. A store does not outlive os.fork() in a process
with threads.
"""
from ._blocks import ShardedBlock, ShardedPart, ShardedWriter
from ._differing import Difference
from ._group import ShardedGroup
from ._library import KEY_LONGEST, ROOT_LENGTH, VALUE_LONGEST, library_version
from ._passes import Edit, Pass, Pinned, open_store
from ._reads import Format, Octets, Reads, proof_piece
from ._refusals import (
    ABSENT, BAD_BATCH, BAD_KEY, BAD_ROOT, BAD_SHAPE, BAD_VALUE, BUSY, CLOSED, MEMORY, NO_FREE_ROWS,
    ROWS_PINNED, SHORT_ROOM, UNKNOWN_FORMAT, VERSIONS_SPENT, WRONG_STATE, Busy, Refused,
    RefusedEdit,
)
from ._refusals import BAD_SPLITS, MOVING, OVERTAKEN, BusyShard, Moving, Overtaken, RefusedShard
from ._sharded import open_sharded
from ._snapshots import ShardedReader, ShardedSnapshot

__version__ = "0.4.0-dev"

__all__ = [
    "ABSENT", "BAD_BATCH", "BAD_KEY", "BAD_ROOT", "BAD_SHAPE", "BAD_VALUE", "BUSY", "CLOSED",
    "KEY_LONGEST", "MEMORY", "NO_FREE_ROWS", "ROOT_LENGTH", "ROWS_PINNED", "SHORT_ROOM",
    "UNKNOWN_FORMAT", "VALUE_LONGEST", "VERSIONS_SPENT", "WRONG_STATE", "Busy", "Difference",
    "Edit", "Format", "Octets", "Pass", "Pinned", "Reads", "Refused", "RefusedEdit",
    "library_version", "open_store", "proof_piece",
    "BAD_SPLITS", "MOVING", "OVERTAKEN", "BusyShard", "Moving", "Overtaken", "RefusedShard",
    "ShardedBlock", "ShardedGroup", "ShardedPart", "ShardedReader", "ShardedSnapshot",
    "ShardedWriter", "open_sharded",
]
