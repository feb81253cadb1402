"""Where the changes come from: they are logged, and made in a plain dictionary too."""
import hashlib
import random

import shard_log
import splits


def key_of(number):
    """A key of 16 bytes that may be anywhere."""
    return hashlib.sha256(b"key %d" % number).digest()[:16]


class Source:
    """Logs changes. `pairs` is the map after them, `checkpoint` the number of the last one."""

    def __init__(self, client, count):
        self.producer, self.count = shard_log.Producer(client), count
        self.pairs, self.some, self.checkpoint = {}, random.Random(7), 0

    def _change(self, key, value):
        self.producer.change(key, value)
        if value is None:
            self.pairs.pop(key, None)
        else:
            self.pairs[key] = value

    def load(self):
        """Puts as many keys as there are to be, every other split among them."""
        for split in splits.SPLITS[::2]:
            self._change(split, b"a split")
        for number in range(self.count - len(self.pairs)):
            self._change(key_of(number), b"value %d" % number)
        self.producer.flush()

    def change(self, count, shards=range(splits.SHARDS)):
        """Changes this many keys of these shards: a quarter is taken out, the others get new values,
        and some of them are new."""
        while count:
            key = key_of(self.some.randrange(self.count * 9 // 8))
            if splits.shard_of(key) in shards:
                is_taken = self.some.randrange(4) == 0
                self._change(key, None if is_taken else b"new %d" % self.some.randrange(10**9))
                count -= 1
        self.producer.flush()

    def mark(self):
        """Marks the next checkpoint."""
        self.checkpoint += 1
        self.producer.checkpoint(self.checkpoint)
