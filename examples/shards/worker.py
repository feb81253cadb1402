"""A worker, in a process of its own: it holds some of the shards, as one sharded map.

    worker.py [--format F] [--rows N] PORT FOLDER NUMBER

It reads the streams of its shards from their beginning. What they say up to a checkpoint is one
block: made whole or not at all, with the number of the checkpoint. The worker keeps a snapshot of
it, publishes its shards' root digests, and waits until that of the whole is published. A block
depends on the log alone. So a worker that begins again makes the same blocks.
"""
import argparse
import itertools
import os
import sys
import time

here = os.path.dirname(os.path.abspath(__file__))
sys.path += [os.path.join(here, it) for it in ("../replicas", "../../bindings/python")]
import checkpoints
import shard_log
import splits
from change_log import connect
from mst_store import open_sharded
from versions import Versions


def take(entries, checkpoint, edits):
    """Adds the edits of entries to others, up to the marker of a checkpoint. Returns the place of
    the last entry taken, and whether it is the marker."""
    for place, entry in entries:
        marker = shard_log.marker_in(entry)
        if marker is not None:
            if marker != checkpoint:
                raise ValueError(f"the log has checkpoint {marker} in place of {checkpoint}")
            return place, True
        edits += shard_log.edits_in(entry)
    return place, False


def edits_to(client, places, checkpoint):
    """The edits of each shard from its place to the marker of a checkpoint, which is its place
    then; None where the map ends before it."""
    behind, edits = set(places), []
    while behind:
        came = list(shard_log.read(client, {it: places[it] for it in behind}))
        for shard, entries in came:
            places[shard], is_there = take(entries, checkpoint, edits)
            if is_there:
                behind.remove(shard)
        if not came and checkpoints.has_ended(client):
            return None
    return edits


def publish(client, checkpoint, block, shards):
    """Publishes the root digests of these shards in a snapshot of their block."""
    number = block.number()
    for shard, (_, listed) in zip(shards, block.directory()):
        checkpoints.tell_shard(client, checkpoint, shard, splits.root_in(listed), number)


def main(port, folder, number, rows, format):
    client, seconds = connect(port), 0.0
    places = dict.fromkeys(splits.shards_of(number), shard_log.BEGINNING)
    writer, *readers = open_sharded(
        rows=rows, readers=2, splits=splits.splits_of(number), format=format)
    versions = Versions([it.snapshot for it in readers])
    versions.serve(os.path.join(folder, f"worker {number}"))
    for checkpoint in itertools.count(1):
        edits = edits_to(client, places, checkpoint)
        if edits is None:
            return
        begun = time.perf_counter()
        writer.apply(edits)
        seconds += time.perf_counter() - begun
        checkpoints.tell_seconds(client, number, seconds)
        publish(client, checkpoint, versions.keep(checkpoint), places)
        if checkpoints.until(client, lambda: checkpoints.whole(client, checkpoint)) is None:
            return
        versions.let_go_before(checkpoint)


words = argparse.ArgumentParser()
words.add_argument("--format", type=int, default=1)
words.add_argument("--rows", type=int, default=65_535)
words.add_argument("port", type=int)
words.add_argument("folder")
words.add_argument("number", type=int)
main(**vars(words.parse_args()))
