"""Opens sharded maps."""
from __future__ import annotations

import ctypes
import operator
from typing import TYPE_CHECKING, Iterable, Tuple

from ._blocks import ShardedWriter
from ._hands import _answer, _packed_splits
from ._library import ShardedHand
from ._library import lib as _lib
from ._reads import Format, Octets, _word
from ._snapshots import ShardedReader

if TYPE_CHECKING:
    from typing_extensions import Unpack


def open_sharded(
    *, rows: int, readers: int = 0, splits: Iterable[Octets] = (), format: int = Format.ONE
) -> Tuple[ShardedWriter, Unpack[Tuple[ShardedReader, ...]]]:
    """Opens a sharded map of the empty map, which is block 0, and returns its writer and then its
    readers: `writer, *readers = open_sharded(rows=1000, readers=2, splits=[b"m"])`.

    The splits are at most 1,023 keys that rise strictly, from above b"\\0": the keys from one of
    them on, and below the next, are those of a shard. Each shard has 4 to 65,535 rows, and there
    are 0 to 31 readers. Otherwise Refused is raised. The map keeps its format;
    ShardedSnapshot.copy_to copies it to a map of another.
    """
    # 33 hands are as refused as any greater number, and of fewer than none there is no writer.
    count = operator.index(readers) + 1
    count = count if 0 < count <= 32 else 33
    hands, packed = (ShardedHand * count)(), _packed_splits(splits)
    _answer(_lib.mst_sharded_open(_word(format), _word(rows), packed, len(packed), hands, count))
    others = [ShardedReader(ctypes.pointer(hands[at])) for at in range(1, count)]
    return (ShardedWriter(ctypes.pointer(hands[0])), *others)
