"""One replica, in a process of its own: it makes each block of the log by one batch, so as one
version of its store, and then tells its root digest.

    replica.py [--by-key] [--late] [--pin-at NUMBER] [--audits-for SECONDS] PORT NAME

Changes of different keys may change places. So a replica takes those of a block as they were
logged, or key by key, each key's in their order. A late one loads a snapshot by one batch, and goes
on with the log from there. NUMBER is that of the block after which the replica pins its version: of
this version it tells a snapshot and serves audits, while it goes on with the log, and then for so
many seconds (60; 0 for no end) until it is told that the audits are done.
"""
import argparse
import contextlib
import operator
import os
import sys

here = os.path.dirname(os.path.abspath(__file__))
sys.path.append(os.path.join(here, "../../bindings/python"))
import audit
import change_log
from mst_store import open_store

ROWS = 20_000


def blocks(client, late):
    """Yields what the store has to make, a block a version."""
    place = change_log.BEGINNING
    if late:
        begun = change_log.snapshot(client)
        place = begun.place
        yield begun
    yield from change_log.blocks(client, place)


def others(client, name):
    """What tells the addresses of the other replicas' services."""
    return lambda: [it for other, it in change_log.audits(client).items() if other != name]


def main(port, name, by_key, late, pin_at, audits_for):
    client = change_log.connect(port)
    writer, reader = open_store(rows=ROWS, passes=2)
    with contextlib.ExitStack() as until_end:
        for block in blocks(client, late):
            if by_key:
                block.edits.sort(key=operator.itemgetter(0))
            writer.apply(block.edits)
            if block.number == pin_at:
                then = until_end.enter_context(reader.pin())
                change_log.tell_snapshot(client, block, then.range())
                service = until_end.enter_context(audit.service(then, others(client, name)))
                change_log.tell_audit(client, name, audit.address(service))
            change_log.tell_root(client, block.number, name, writer.root())
        # The audits may last longer than the log.
        if pin_at:
            client.blpop("audited", timeout=audits_for)


words = argparse.ArgumentParser()
words.add_argument("--by-key", action="store_true")
words.add_argument("--late", action="store_true")
words.add_argument("--pin-at", type=int, default=0)
words.add_argument("--audits-for", type=int, default=60)
words.add_argument("port", type=int)
words.add_argument("name")
main(**vars(words.parse_args()))
