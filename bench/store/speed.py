"""The nanoseconds of one call from Python, as speed.c has them from C.

    speed.py ENGINE KEYS CALL [COUNT [ROUNDS]]

ENGINE is store or lmdb; CALL is get, get-within, next, range, put, prove, batch-N or load. Writes
the nanoseconds a call of the fastest round, of the processor that this thread had, or `none` where
the engine is not there or does not have the call. Of a batch of N puts they are those of one put. A
load is a batch that fills a new map, one in each round.
"""
import os
import random
import sys
import tempfile
import time
from contextlib import nullcontext

HERE = os.path.dirname(os.path.abspath(__file__))
sys.path.append(os.path.join(HERE, "..", "..", "bindings", "python"))
RANGE_PAIRS = 100


class Store:
    """The store, by its Python module."""

    def __init__(self) -> None:
        import mst_store

        self.reader, self.writer = mst_store.open_store(rows=65535, passes=2)
        self.get, self.next, self.prove = self.reader.get, self.reader.next, self.reader.prove
        self.put, self.apply = self.writer.put, self.writer.apply

    def range(self, key: bytes) -> list:
        return self.reader.range(key, limit=RANGE_PAIRS)

    def version(self):
        """One version, whose `get` is timed."""
        return self.reader.pin()


class Lmdb:
    """LMDB, in memory and without a sync. A read of the newest version is a transaction."""

    prove = None

    def __init__(self) -> None:
        import lmdb

        self.folder = tempfile.TemporaryDirectory(dir=os.environ.get("LMDB_DIR", "/dev/shm"))
        self.env = lmdb.open(self.folder.name, map_size=2**31, sync=False, writemap=True)

    def get(self, key: bytes):
        with self.env.begin() as txn:
            return txn.get(key)

    def put(self, key: bytes, value: bytes):
        with self.env.begin(write=True) as txn:
            old = txn.get(key)
            txn.put(key, value)
            return old

    def apply(self, pairs: list) -> None:
        with self.env.begin(write=True) as txn:
            for key, value in pairs:
                txn.put(key, value)

    def next(self, key: bytes):
        with self.env.begin() as txn:
            cursor = txn.cursor()
            found = cursor.set_range(key) and (cursor.key() != key or cursor.next())
            return cursor.item() if found else None

    def range(self, key: bytes) -> list:
        found = []
        with self.env.begin() as txn:
            cursor = txn.cursor()
            if cursor.set_range(key):
                for pair in cursor:
                    found.append(pair)
                    if len(found) == RANGE_PAIRS:
                        break
        return found

    def version(self):
        """One version, whose `get` is timed."""
        return self.env.begin()


def opened(engine: str):
    """The engine with its map, or None if it is not there."""
    try:
        return {"store": Store, "lmdb": Lmdb}[engine]()
    except ModuleNotFoundError:
        return None


def round_of(call, given: list) -> float:
    """How long the calls took, one for each tuple of arguments."""
    before = time.thread_time()
    for one in given:
        call(*one)
    return time.thread_time() - before


def least_of_loads(engine: str, all_keys: list, rounds: int) -> float:
    """How long the fastest load took."""
    pairs = [(key, bytes(32)) for key in all_keys]
    return min(round_of(opened(engine).apply, [(pairs,)]) for _ in range(rounds))


def arguments(call: str, all_keys: list, count: int) -> list:
    """What a round gives to its calls, a tuple to each."""
    keys = random.choices(all_keys, k=count)
    if call == "put":
        return [(key, random.randbytes(32)) for key in keys]
    if not call.startswith("batch"):
        return [(key,) for key in keys]
    return [([(key, random.randbytes(32)) for key in random.choices(all_keys, k=puts_of(call))],)
            for _ in range(count)]


def puts_of(call: str) -> int:
    """The number of the puts of a batch, 1 for another call."""
    return int(call[len("batch-"):]) if call.startswith("batch") else 1


def least_of_calls(timed, call: str, all_keys: list, count: int, rounds: int) -> float:
    """How long the fastest round took."""
    for key in all_keys:
        timed.put(key, bytes(32))
    within = call == "get-within"
    with timed.version() if within else nullcontext(timed) as of:
        made = getattr(of, "get" if within else "apply" if call.startswith("batch") else call)
        return min(round_of(made, arguments(call, all_keys, count)) for _ in range(rounds))


def main() -> None:
    engine, keys, call = sys.argv[1], int(sys.argv[2]), sys.argv[3]
    count, rounds = (int(word) for word in (sys.argv[4:] + ["1000", "1"][len(sys.argv) - 4:]))
    random.seed(1)
    all_keys = [random.randbytes(16) for _ in range(keys)]
    timed = opened(engine)
    if timed is None or getattr(timed, call, timed) is None:
        print("none")
    elif call == "load":
        print(least_of_loads(engine, all_keys, rounds) * 1e9 / keys)
    else:
        took = least_of_calls(timed, call, all_keys, count, rounds)
        print(took * 1e9 / (count * puts_of(call)))


if __name__ == "__main__":
    main()
