"""Pages through 10,000 digests of 32 bytes, all of one version, while another pass takes keys out.

    make -C bindings && PYTHONPATH=bindings/python python3 examples/paging.py

It needs the library: that of a release (there is none yet), or the kit, by which make makes it.
"""
import hashlib

from mst_store import Format, open_store

PAGE = 256

writer, reader = open_store(rows=65535, passes=2, format=Format.TWO)
writer.apply((hashlib.sha256(b"%d" % number).digest(), b"%d" % number) for number in range(10000))
with reader.pin() as then:
    pages = 0
    keys = []
    for page in then.pages(PAGE):
        keys += [key for key, value in page]
        pages += 1
        writer.remove(page[-1][0])
assert keys == sorted(keys)
print(len(keys), "digests on", pages, "pages")
writer.close()
reader.close()
