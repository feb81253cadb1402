"""The whole map once more, from its pairs and the splits alone: no store takes part, only hashlib.
"""
import os
import sys

here = os.path.dirname(os.path.abspath(__file__))
sys.path.append(os.path.join(here, "../../vectors"))
import splits
from sharding import Map, Shard, Sharded


def rebuilt(format, pairs):
    """The sharded map of these pairs, with its root digest and its proofs."""
    inside = [{} for _ in splits.LOWER]
    for key, value in pairs.items():
        inside[splits.shard_of(key)][key] = value
    return Sharded(format, [
        Shard(low, high or None, Map(format, held))
        for low, high, held in zip(splits.LOWER, splits.UPPER, inside)
    ])
