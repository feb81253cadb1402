"""What tests of two passes of a small store share: texts, root digests, and refusals."""
import os
import sys
import unittest
from contextlib import contextmanager
from hashlib import sha256

from mst_store import NO_FREE_ROWS, ROWS_PINNED, Refused

HERE = os.path.dirname(os.path.abspath(__file__))
sys.path.append(os.path.join(HERE, "..", "..", "vectors"))
import nodes  # noqa: E402

ROOT_OF_NONE = sha256(b"").digest()

# The node of the map of a with 1 and abc with x: format and layer, how many entries, and each with
# its key and value between gaps.
BOTH = [(b"a", b"1"), (b"abc", b"x")]
TEXT_OF_BOTH = bytes.fromhex("01 00 0002 00 01 61 01 31 00 03 616263 01 78 00")
ROOT_OF_BOTH = sha256(TEXT_OF_BOTH).digest()

# Format 1, one text, its length, and the text.
PROOF_OF_BOTH = bytes.fromhex("01 01 00000011") + TEXT_OF_BOTH


def root_of(pairs, format):
    """The root digest of the tree of these pairs, made by another program."""
    return nodes.build(sorted(pairs), format)[1]


class Case(unittest.TestCase):
    @contextmanager
    def no_room(self):
        """What is called inside is refused for want of rows."""
        with self.assertRaises(Refused) as caught:
            yield
        self.assertEqual(caught.exception.code, NO_FREE_ROWS)

    def assert_not_counted(self, store):
        """The rows are not counted, since a version is pinned."""
        with self.assertRaises(Refused) as caught:
            store.rows()
        self.assertEqual(caught.exception.code, ROWS_PINNED)
