"""The log of changes, parted by the splits: a stream of a Redis server for each shard.

A producer routes each change by its key, and an entry of a stream has some changes of one shard: of
each key the last one. A checkpoint is a marker in each stream, all with one number: what stands
before these markers makes one map of the whole.
"""
import splits

BEGINNING = b"0"
# An entry has keys as names of its fields. So a name of no bytes is free for a marker.
MARKER = b""
PUT, REMOVE = b"+", b"-"
# The most changes in an entry, and the most entries of a stream that come at a time.
CHANGES, ENTRIES = 64, 100


def stream(shard):
    return f"shard {shard}"


class Producer:
    """Adds changes and checkpoints to the log. A change may wait until it is flushed."""

    def __init__(self, client):
        self.waiting = [{} for _ in splits.LOWER]
        self.pipe = client.pipeline(transaction=False)

    def change(self, key, value):
        """Logs a key with its new value, or with None where it is taken out."""
        shard = splits.shard_of(key)
        self.waiting[shard][key] = REMOVE if value is None else PUT + value
        if len(self.waiting[shard]) == CHANGES:
            self._add(shard)
        if len(self.pipe) == ENTRIES:
            self.pipe.execute()

    def _add(self, shard):
        self.pipe.xadd(stream(shard), self.waiting[shard])
        self.waiting[shard] = {}

    def flush(self):
        """Hands all changes to the server."""
        for shard, changes in enumerate(self.waiting):
            if changes:
                self._add(shard)
        self.pipe.execute()

    def checkpoint(self, number):
        """Flushes, and logs the marker of a checkpoint in each stream."""
        self.flush()
        for shard in range(splits.SHARDS):
            self.pipe.xadd(stream(shard), {MARKER: number})
        self.pipe.execute()


def read(client, places):
    """Yields the number of each of these shards whose stream goes on behind the place, with some
    entries from there on: each its place, and what it says. It waits a while for them."""
    streams = {stream(shard): place for shard, place in places.items()}
    for name, entries in client.xread(streams, count=ENTRIES, block=200):
        yield int(name.split()[1]), entries


def marker_in(entry):
    """The number of the checkpoint that an entry marks; None of changes."""
    return int(entry[MARKER]) if MARKER in entry else None


def edits_in(entry):
    """The edits of an entry: each a key with its new value, or with None where it is taken out."""
    return [(key, None if how == REMOVE else how[1:]) for key, how in entry.items()]
