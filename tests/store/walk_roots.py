"""Computes the root digest of each list that the program `walk` has written, by vectors/nodes.py,
which shares nothing with the store, and compares it with the one that stands there.

    walk_roots.py FILE
"""
import os
import sys

sys.path.append(os.path.join(os.path.dirname(os.path.abspath(__file__)), "..", "..", "vectors"))
import nodes


def lists(lines):
    """Each list: its format, its root digest and its pairs. An empty line stands in the place of a
    key behind the last pair."""
    for line in lines:
        root, keys = bytes.fromhex(next(lines)), iter(lambda: bytes.fromhex(next(lines)), b"")
        yield int(line), root, [(key, bytes.fromhex(next(lines))) for key in keys]


def main(path):
    with open(path, encoding="ascii") as lines:
        found = list(lists(lines))
    of_format_2 = sum(form == 2 for form, _, _ in found)
    wrong = sum(nodes.build(pairs, form)[1] != root for form, root, pairs in found)
    print(f"{len(found)} root digests computed, {of_format_2} of format 2, {wrong} wrong")
    return not found or wrong > 0


if __name__ == "__main__":
    sys.exit(main(sys.argv[1]))
