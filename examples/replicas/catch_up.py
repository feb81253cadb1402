"""Two replicas in two processes: one becomes equal to the other, and asks for the nodes that differ
alone.

The other process serves a pinned version of its store: its root digest, and pieces of proofs. A
proof has the texts of the nodes on the way to a key, and a text has the digests of the nodes below
it. So the replica goes down from the root digest, skips each subtree whose digest its own tree has,
and asks for one text at a time, each once. It tests each text that comes against the digest that
asked for it: it trusts the root digest, and nothing else that the other says. What differs it makes
by one batch, so its readers see the one map or the other.

    make -C bindings && python3 examples/replicas/catch_up.py
"""
import multiprocessing
import os
import random
import sys

here = os.path.dirname(os.path.abspath(__file__))
sys.path.append(os.path.join(here, "../../bindings/python"))
from mst_store import Format, open_store, proof_piece


def filled(seed, changes, format):
    """A store of 5,000 pairs, which some changes set apart: one batch loads it."""
    edits = [(b"%05d" % at, b"value %d" % at) for at in range(5000)]
    some = random.Random(seed)
    for _ in range(changes):
        key = b"%05d" % some.randrange(6000)
        edits.append((key, None if some.randrange(3) == 0 else b"changed %d" % seed))
    (one,) = open_store(rows=20000, passes=1, format=format)
    one.apply(edits)
    return one


def serve(pipe, format):
    """Tells the root digest of a pinned version, and then answers questions of it until None is
    asked: a key and a number, for this piece of the key's proof."""
    with filled(1, 10, format).pin() as version:
        pipe.send(version.root())
        for key, number in iter(pipe.recv, None):
            pipe.send(proof_piece(version.prove(key), number))


class Asker:
    """Asks the other process, and counts what comes."""

    def __init__(self, pipe):
        self.pipe, self.pieces, self.bytes = pipe, 0, 0

    def ask(self, key, number):
        self.pipe.send((key, number))
        piece = self.pipe.recv()
        self.pieces, self.bytes = self.pieces + 1, self.bytes + len(piece)
        return piece


def mirror(mine, root, ask):
    """Makes a store's map the one with this root digest. Returns how many pairs changed."""
    edits = [(key, theirs) for key, _, theirs in mine.differing(root, ask)]
    mine.apply(edits)
    return len(edits)


def catch_up(format):
    """Whether a replica becomes equal to another one of this format."""
    pipe, other = multiprocessing.Pipe()
    process = multiprocessing.Process(target=serve, args=(other, format))
    process.start()
    root, asker, mine = pipe.recv(), Asker(pipe), filled(2, 10, format)
    changed = mirror(mine, root, asker.ask)
    pipe.send(None)
    process.join()
    equal = mine.root() == root
    print(f"format {int(format)}: {changed} of {mine.len()} pairs changed,"
          f" {asker.pieces} pieces of {asker.bytes} bytes came, roots equal: {equal}")
    return equal


def main():
    return 0 if all([catch_up(format) for format in Format]) else 1


if __name__ == "__main__":
    sys.exit(main())
