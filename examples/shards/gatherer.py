"""The gatherer, in a process of its own: it makes the directory of the shards at each checkpoint.

    gatherer.py [--format F] PORT FOLDER

The directory is a store, too: from the lower bound of each shard to its root digest and its upper
bound. Once each shard has published a checkpoint, the gatherer puts the root digests that changed,
by one batch, and publishes the directory's root digest: that of the whole.
"""
import argparse
import itertools
import os
import sys

here = os.path.dirname(os.path.abspath(__file__))
sys.path += [os.path.join(here, it) for it in ("../replicas", "../../bindings/python")]
import checkpoints
import splits
from change_log import connect
from mst_store import open_store
from versions import Versions

# Room for three versions of the directory.
ROWS = 8 * splits.SHARDS


def roots(client, checkpoint):
    """The root digests of all shards at a checkpoint; None as long as some are not published."""
    told = checkpoints.shards(client, checkpoint)
    if len(told) < splits.SHARDS:
        return None
    return {shard: root for shard, (root, _) in told.items()}


def main(port, folder, format):
    client, listed = connect(port), {}
    writer, *readers = open_store(rows=ROWS, passes=3, format=format)
    versions = Versions([it.pin for it in readers])
    versions.serve(os.path.join(folder, "gatherer"))
    for checkpoint in itertools.count(1):
        told = checkpoints.until(client, lambda: roots(client, checkpoint))
        if told is None:
            return
        changed = {shard: root for shard, root in told.items() if listed.get(shard) != root}
        writer.apply(splits.directory_pair(shard, root) for shard, root in changed.items())
        listed.update(changed)
        versions.keep(checkpoint)
        checkpoints.tell_whole(client, checkpoint, writer.root(), len(changed))
        versions.let_go_before(checkpoint)


words = argparse.ArgumentParser()
words.add_argument("--format", type=int, default=1)
words.add_argument("port", type=int)
words.add_argument("folder")
main(**vars(words.parse_args()))
