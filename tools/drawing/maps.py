"""The map of docs/pictures/map.txt, a script of puts, as trees before and after its last line."""
import os
import sys

TOP = os.path.join(os.path.dirname(os.path.abspath(__file__)), "..", "..")
sys.path.insert(0, os.path.join(TOP, "vectors"))
from nodes import EMPTY, build, layer_of  # noqa: E402  (found only once the path has its folder)

SCRIPT = os.path.join(TOP, "docs", "pictures", "map.txt")


class Version:
    """The map after a number of puts: its pairs, its nodes by their digests, its root digest."""

    def __init__(self, puts):
        self.number = len(puts)
        self.pairs = sorted(dict(puts).items())
        self.nodes, self.root = build(self.pairs)

    def rows(self, digest):
        """How many rows a node takes: its head, and one for each entry."""
        return 1 + len(self.nodes[digest].keys)


def puts():
    """The keys and values that the script puts."""
    found = []
    with open(SCRIPT, encoding="ascii") as lines:
        for line in lines:
            _, word, key, value = line.split()
            if word != "put":
                sys.exit(f"{SCRIPT} has a line that is no put: {line.rstrip()}")
            found.append((bytes.fromhex(key), bytes.fromhex(value)))
    return found


def last_two():
    """The versions before and after the last put, and the key of that put."""
    all_puts = puts()
    return Version(all_puts[:-1]), Version(all_puts), all_puts[-1][0].decode()


__all__ = ["EMPTY", "Version", "last_two", "layer_of", "puts"]
