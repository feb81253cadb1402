"""The log of changes: a stream of a Redis server, which is started on loopback and ended here.

A block is what stands between two commits of the log: a replica makes it as one version. Beside the
log the server holds the root digests that replicas tell after each block, a snapshot, and where
audits are served.
"""
import collections
import contextlib
import os
import socket
import subprocess
import tempfile
import time

import redis

STREAM = "changes"
PUT, REMOVE, COMMIT, END = b"put", b"remove", b"commit", b"end"
BEGINNING = b"0"

# Its number, the place in the log where it ends, and its edits: each a key with its new value, or
# with None where the key is taken out.
Block = collections.namedtuple("Block", "number place edits")


def free_port():
    """A port of loopback that nobody listens at now."""
    with socket.socket() as one:
        one.bind(("127.0.0.1", 0))
        return one.getsockname()[1]


def connect(port):
    """A connection to the server, once it answers."""
    client = redis.Redis(host="127.0.0.1", port=port)
    for _ in range(200):
        try:
            client.ping()
            return client
        except redis.exceptions.ConnectionError:
            time.sleep(0.05)
    raise TimeoutError(f"no Redis server answers at port {port}")


@contextlib.contextmanager
def server():
    """The port of a Redis server that keeps nothing on disk, and ends with the context."""
    port = free_port()
    with tempfile.TemporaryDirectory() as folder:
        words = ["--port", str(port), "--bind", "127.0.0.1", "--save", "", "--appendonly", "no"]
        ran = subprocess.Popen(
            ["redis-server", *words, "--dir", folder, "--logfile", os.path.join(folder, "log")]
        )
        try:
            yield port
        finally:
            ran.terminate()
            ran.wait()


def append(client, kind, key=b"", value=b"", number=0):
    """Adds an entry: a change of a key, the commit of a block with its number, or the end."""
    client.xadd(STREAM, {"kind": kind, "key": key, "value": value, "number": number})


def blocks(client, place=BEGINNING):
    """Yields the blocks behind a place of the log, up to its end; it waits for entries that are
    still to come."""
    edits = []
    while True:
        for _, entries in client.xread({STREAM: place}, count=500, block=1000):
            for place, entry in entries:
                kind = entry[b"kind"]
                if kind == END:
                    return
                if kind == COMMIT:
                    yield Block(int(entry[b"number"]), place, edits)
                    edits = []
                else:
                    edits.append((entry[b"key"], entry[b"value"] if kind == PUT else None))


def tell_snapshot(client, block, pairs):
    """Publishes the pairs that a replica has after a block. Several may do so after one block."""
    client.hset("snapshot", mapping=dict(pairs))
    client.hset("snapshot of", mapping={"number": block.number, "place": block.place})


def snapshot(client):
    """The block that stands for the whole log up to the snapshot: its edits put all the pairs.
    There has to be a snapshot."""
    of = client.hgetall("snapshot of")
    return Block(int(of[b"number"]), of[b"place"], list(client.hgetall("snapshot").items()))


def tell_audit(client, name, address):
    """Publishes the address of the audit service of a replica."""
    client.hset("audits", name, address)


def audits(client):
    """The addresses of the audit services, by the names of their replicas."""
    told = client.hgetall("audits")
    return {name.decode(): address.decode() for name, address in told.items()}


def tell_root(client, number, name, root):
    """Publishes the root digest of a replica after a block."""
    client.hset(f"roots {number}", name, root)


def roots(client, number, names):
    """The root digests that these replicas published after a block, once all have."""
    for _ in range(1200):
        told = client.hgetall(f"roots {number}")
        if all(name.encode() in told for name in names):
            return {name: told[name.encode()] for name in names}
        time.sleep(0.05)
    raise TimeoutError(f"not all replicas told a root digest after block {number}")
