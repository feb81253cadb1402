"""A writer and a reader that pins, in a thread each.

    make -C bindings && PYTHONPATH=bindings/python python3 examples/store.py

With the wheel installed it needs no PYTHONPATH. It needs the library: that of a release (there is
none yet), or the kit, by which make makes it.
"""
import threading

from mst_store import open_store

writer, reader = open_store(rows=1000, passes=2)
writer.put(b"apple", b"30")
with reader.pin() as then:
    root = then.root()
    thread = threading.Thread(target=writer.put, args=(b"apple", b"31"))
    thread.start()
    thread.join()
    assert then.get(b"apple") == b"30" and then.root() == root
    print("a proof of", len(then.prove(b"apple")), "bytes")
for key, value in reader.items():
    print(key.decode(), value.decode())
writer.close()
reader.close()
