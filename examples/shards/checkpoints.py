"""What is published at the Redis server of each checkpoint: of each shard its root digest and the
number of its worker's block, and the root digest of the whole."""
import time

LAST, END, WHOLES, LISTED, SECONDS = "last", "end", "wholes", "listed", "seconds"
NUMBER_BYTES = 8


def told_of(number):
    return f"checkpoint {number}"


def tell_shard(client, number, shard, root, block):
    """Publishes a shard's root digest, and the number of the block that it is of."""
    client.hset(told_of(number), shard, root + block.to_bytes(NUMBER_BYTES, "big"))


def shards(client, number):
    """What shards have published so far: of each its root digest and the number of its block."""
    told = client.hgetall(told_of(number))
    return {
        int(shard): (both[:-NUMBER_BYTES], int.from_bytes(both[-NUMBER_BYTES:], "big"))
        for shard, both in told.items()
    }


def take_back(client, number, shard):
    """Makes a shard's publication undone."""
    client.hdel(told_of(number), shard)


def tell_whole(client, number, root, listed):
    """Publishes the root digest of the whole, and how many shards' roots were put for it."""
    client.hset(LISTED, number, listed)
    client.hset(WHOLES, number, root)
    client.set(LAST, number)


def whole(client, number):
    """The root digest of the whole at a checkpoint; None if it is not published yet."""
    return client.hget(WHOLES, number)


def listed(client, number):
    """How many shards' roots were put into the directory for a published checkpoint."""
    return int(client.hget(LISTED, number))


def last(client):
    """The number of the last published checkpoint, 0 before the first."""
    return int(client.get(LAST) or 0)


def tell_seconds(client, worker, seconds):
    """Publishes how long a worker has spent in making blocks so far."""
    client.hset(SECONDS, worker, seconds)


def seconds(client):
    """How long each worker has spent in making blocks, as far as it was published."""
    return [float(it) for it in client.hvals(SECONDS)]


def end(client):
    """Tells all processes to end."""
    client.set(END, 1)


def has_ended(client):
    return client.exists(END) > 0


def until(client, look, seconds=600):
    """What `look` finds, as soon as that is not None; None where all have to end before."""
    late = time.monotonic() + seconds
    while time.monotonic() < late:
        found = look()
        if found is not None or has_ended(client):
            return found
        time.sleep(0.005)
    raise TimeoutError("what is awaited was not published")
