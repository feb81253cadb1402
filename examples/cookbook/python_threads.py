"""A writer and three readers on threads of Python, each with a pass of its own."""
import threading

from mst_store import open_store

READERS = 3
writer, *readers = open_store(rows=200, passes=1 + READERS)
writer.put(b"sent", b"0")
writer.put(b"received", b"0")
failures = []


def write():
    """Raises both counters by one version each time."""
    for number in range(1, 1000):
        count = b"%d" % number
        writer.apply([(b"sent", count), (b"received", count)])


def read(reader):
    """Each pinned version has equal counters, and none is older than the one before."""
    last = 0
    for _ in range(1000):
        with reader.pin() as version:
            if version.get(b"sent") != version.get(b"received") or version.version() < last:
                failures.append(reader)
            last = version.version()


threads = [threading.Thread(target=write)]
threads += [threading.Thread(target=read, args=(reader,)) for reader in readers]
for thread in threads:
    thread.start()
for thread in threads:
    thread.join()
print(f"1 writer, {READERS} readers: {len(failures)} failures, {writer.get(b'sent').decode()} sent")
