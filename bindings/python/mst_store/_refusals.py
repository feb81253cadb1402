"""The numbers of include/mst_store.h, and the exceptions for those that refuse."""
from __future__ import annotations

from typing import NoReturn, Tuple, Type

# Neither of these two is raised. A key that is absent has no value. A put, which has been made all
# the same when the library returns SHORT_ROOM, has room for each old value, and the room of a range
# or a proof grows.
ABSENT = -1
SHORT_ROOM = -2
UNKNOWN_FORMAT = -3
BAD_ROOT = -4
BAD_KEY = -5
BAD_VALUE = -6
CLOSED = -7
WRONG_STATE = -8
MEMORY = -9
BAD_SHAPE = -10
BUSY = -21
VERSIONS_SPENT = -22
NO_FREE_ROWS = -23
ROWS_PINNED = -24
BAD_BATCH = -25
BAD_SPLITS = -26
OVERTAKEN = -29
MOVING = -30

_REASONS = {
    UNKNOWN_FORMAT: "no format has this number",
    BAD_ROOT: "a root digest has 32 bytes",
    BAD_KEY: "a key has 1 to 32 bytes",
    BAD_VALUE: "a value has 0 to 64 bytes",
    CLOSED: "the pass is closed",
    WRONG_STATE: "the pass is pinned, a block or a group has the writer, or the part's has ended",
    MEMORY: "a growth of memory was refused",
    BAD_SHAPE: "a store has 4 to 65535 rows and 1 to 32 passes",
    BUSY: "another pass writes",
    VERSIONS_SPENT: "the store has made all the versions that it can number",
    NO_FREE_ROWS: "the write or the migration needs more rows than are free",
    ROWS_PINNED: "some pass pins a version, so the rows are not counted",
    BAD_BATCH: "the bytes are no batch of edits",
    BAD_SPLITS: "splits are at most 1023 keys that rise strictly, from above the least key",
    OVERTAKEN: "another than the writer of blocks has written",
    MOVING: "a block is just being published",
    # what a verifier tests, of pieces of proofs
    **{-10 - test: f"a piece is not the one that was asked for: P{test}" for test in range(1, 11)},
}


class Refused(Exception):
    """A refusal: nothing has changed, but where the call says otherwise. `code` is its number in
    include/mst_store.h."""

    def __init__(self, code: int) -> None:
        super().__init__(_REASONS.get(code, f"the library answered {code}"))
        self.code = code

    def __reduce__(self) -> Tuple[Type[Refused], Tuple[int, ...]]:
        return type(self), (self.code,)


class RefusedEdit(Refused):
    """A batch is refused for an edit. `place` is the number of the first such edit, from 0."""

    def __init__(self, code: int, place: int) -> None:
        super().__init__(code)
        self.place = place

    def __reduce__(self) -> Tuple[Type[Refused], Tuple[int, ...]]:
        return type(self), (self.code, self.place)


class Busy(Refused):
    """Another pass has the turn: it writes, migrates or counts rows. Nothing has changed."""

    def __init__(self, code: int = BUSY) -> None:
        super().__init__(code)


class RefusedShard(Refused):
    """A block is refused, since a shard refused its edits: `shard` is its number, from 0. Nothing
    has changed in any shard. `shard` is the number of the shards if the directory refused its own
    edits, or if there was no memory for the lists of all edits."""

    def __init__(self, code: int, shard: int) -> None:
        super().__init__(code)
        self.shard = shard

    def __reduce__(self) -> Tuple[Type[Refused], Tuple[int, ...]]:
        return type(self), (self.code, self.shard)


class BusyShard(RefusedShard, Busy):
    """A RefusedShard that is Busy. Only a thread that has ended within a call leaves it so."""


class Overtaken(RefusedShard):
    """A block is refused, since a shard or the directory has a version that is not the writer's
    last: another has written. No call leads to this."""


class Moving(Refused):
    """A block is just being published, so there is no snapshot of one block: try again."""

    def __init__(self, code: int = MOVING) -> None:
        super().__init__(code)


def refuse(code: int) -> NoReturn:
    """Raises the exception for the number that a call returned."""
    raise Busy() if code == BUSY else Refused(code)
