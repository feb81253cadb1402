"""Watches a store: its free rows, who pins, a writer that has died; and moves to a new store."""
import threading
import time
from contextlib import contextmanager

from mst_store import Busy, open_store

KEYS = 18_000
LEAST_FREE = 2 * (KEYS * 17 // 16)  # (1 + S) * W: a batch may change all keys, and S = 1
ROWS = 65_000  # for these, for the map, and some more
FALLS = 3  # so many polls, each with fewer free rows: a pin is old
LONGEST_WRITE = 0.002  # seconds; less than a batch here takes


class Pins:
    """The program's own list, since no call tells who pins: who pins which version, since when."""

    def __init__(self):
        self._entries, self._lock = {}, threading.Lock()

    @contextmanager
    def pinned(self, reader, who):
        with reader.pin() as then:
            with self._lock:
                self._entries[reader] = then.version(), time.monotonic(), who
            try:
                yield then
            finally:
                with self._lock:
                    del self._entries[reader]

    def told(self, version):
        """Who pins a version. One that is not in the list is of a read that is just being made, or
        of a thread that has ended within a read."""
        with self._lock:
            found = [it for it in self._entries.values() if it[0] == version]
        if not found:
            return "a read"
        _, since, who = min(found)
        return f"{who}, for {(time.monotonic() - since) / 60:.0f} minutes"


class Watch:
    """Polls, every few seconds, by the spare pass."""

    def __init__(self, spare, pins):
        self._spare, self._pins, self._free_rows, self._falls = spare, pins, 0, 0

    def poll(self):
        """The alarms of a poll."""
        try:
            free_rows, pinned = self._spare.free_rows(), self._spare.pinned_versions()
        except Busy:  # `put` tells whether it ever ends
            return ["another pass has the turn"]
        self._falls = self._falls + 1 if free_rows < self._free_rows else 0
        self._free_rows, alarms = free_rows, []
        if self._falls >= FALLS and pinned:  # the oldest first
            alarms.append(f"free rows fall: version {pinned[0]} is pinned by"
                          f" {self._pins.told(pinned[0])}")
        if free_rows < LEAST_FREE:
            alarms.append("fewer rows are free than (1 + S) * W")
        return alarms


def change(writer, numbers, value):
    """Gives some keys a value, by one batch."""
    writer.apply([(b"key %05d" % number, value) for number in numbers])


def watch_pins(writer, reader, spare, pins):
    """A report pins a version and is forgotten, while a writer goes on: the list tells of it."""
    watch = Watch(spare, pins)
    tell(watch)
    with pins.pinned(reader, "the report"):
        for poll in range(4):
            change(writer, range(2_000 * poll, 2_000 * (poll + 1)), b"x")
            tell(watch)
    change(writer, [0], b"y")  # the next write finds the rows free
    tell(watch)


def tell(watch):
    for alarm in watch.poll() or ["all is well"]:
        print(alarm)


class DeadWriter(Exception):
    """Another pass has had the turn for longer than a write takes, and has made no version: its
    thread has ended within a write, or stands still."""


def put(writer, key, value):
    """Puts a pair, or raises DeadWriter."""
    now = writer.version()
    while True:
        before = now
        try:
            return writer.put_within(key, value, LONGEST_WRITE)
        except Busy:
            now = writer.version()
            if now == before:
                raise DeadWriter from None


def write_on(writer, is_over):
    """Stands for a writer that has died: it has the turn for nearly all of the time."""
    while not is_over.is_set():
        change(writer, range(KEYS), b"z")


def moved(spare, pins):
    """The passes of a new store with the map of the spare pass's store."""
    with pins.pinned(spare, "the move") as last:
        fresh = open_store(rows=ROWS, passes=4, format=last.format())
        pairs = last.range()
        fresh[0].apply(pairs)
        if fresh[0].root() != last.root():
            raise SystemExit("another map")
    print(f"moved {len(pairs)} keys: equal root digests")
    return fresh


def watch_writer(passes, pins):
    """Puts until the alarm, moves, and puts once more."""
    writer, other, _, spare = passes
    is_over = threading.Event()
    thread = threading.Thread(target=write_on, args=(writer, is_over), daemon=True)
    thread.start()
    try:
        while True:
            put(other, b"key 00000", b"1")
    except DeadWriter:
        print("a writer has died: nobody else writes, and reads go on")
    passes[:] = moved(spare, pins)  # from here on all threads use the new passes
    put(passes[1], b"key 00000", b"2")
    is_over.set()
    thread.join()


def main():
    pins, passes = Pins(), open_store(rows=ROWS, passes=4)
    writer, _, reader, spare = passes
    change(writer, range(KEYS), b"w")
    watch_pins(writer, reader, spare, pins)
    watch_writer(passes, pins)


if __name__ == "__main__":
    main()
