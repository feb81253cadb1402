"""Where two maps differ: against the difference of two dictionaries, with how little is asked for;
pieces that are spoiled, and what `ask` raises."""
import random
import unittest

from mst_store import BAD_ROOT, CLOSED, Format, Refused, open_store, proof_piece
from two_passes import Case

KEYS = 400
# A key of each layer in format 2, from layer 14 down to 0, each between the two above.
DEEP = (b"z338499454 b12483696 y20022483 c11371238 x842172 d467806 w48396 e17178 v6284 f61 u191 g57"
        b" t28 h1 s0").split()
TESTS_OF_TEXTS, TESTS_OF_VALUES = {-14, -15}, {-12, -13, -20}


def filled(pairs, format):
    (one,) = open_store(rows=4000, passes=1, format=format)
    one.apply(pairs.items())
    return one


def chosen(some, share):
    """About this share of all keys, each with a value."""
    keys = (b"%d" % number for number in range(KEYS))
    return {key: some.randbytes(some.randrange(4)) for key in keys if some.random() < share}


def changed(some, pairs, changes):
    """The same pairs, but for some changes."""
    pairs = dict(pairs)
    for _ in range(changes):
        key = b"%d" % some.randrange(KEYS)
        if some.randrange(3) == 0:
            pairs.pop(key, None)
        else:
            pairs[key] = b"new"
    return pairs


def differences(ours, theirs):
    keys = sorted({*ours, *theirs})
    return [(it, ours.get(it), theirs.get(it)) for it in keys if ours.get(it) != theirs.get(it)]


class Other:
    """The other map, which counts the texts and the values that it is asked for."""

    def __init__(self, store, spoil=None, at=-1):
        self.store, self.spoil, self.at = store, spoil, at
        self.texts, self.values, self.is_value = [], 0, False

    def ask(self, key, number):
        proof = self.store.prove(key)
        piece, self.is_value = proof_piece(proof, number), number == proof[1]
        asked = len(self.texts) + self.values
        if self.is_value:
            self.values += 1
        else:
            self.texts.append(piece)
        return self.spoil(piece) if asked == self.at else piece


def cut_short(some, piece):
    return piece[: some.randrange(len(piece))]


def longer(some, piece):
    return piece + some.randbytes(1)


def with_a_change(some, piece):
    at = some.randrange(len(piece))
    return piece[:at] + bytes([piece[at] ^ some.randrange(1, 256)]) + piece[at + 1 :]


class Differing(Case):
    def assert_told(self, ours, theirs, format):
        one, other = filled(ours, format), Other(filled(theirs, format))
        wanted = differences(ours, theirs)
        root, depth = other.store.root(), max(other.store.prove(it)[1] for it in [b"1", *theirs])
        self.assertEqual(one.differing(root, other.ask), wanted)
        self.assertEqual(len(other.texts), len({*other.texts}))
        self.assertLessEqual(len(other.texts), 2 * depth * len(wanted))
        values = sum(it is not None for _, _, it in wanted)
        self.assertEqual(other.values, values if format == Format.TWO else 0)
        # it is free again
        one.apply([(key, value) for key, _, value in wanted])
        self.assertEqual(one.root(), root)
        self.assertEqual(one.differing(root, self.fail), [])

    def test_maps_that_differ_in_few_keys_or_in_all(self):
        some = random.Random(1)
        for format in Format:
            for changes in [0, 1, 1, 1, 2, 5, 20, 1000]:
                pairs = chosen(some, 0.9)
                self.assert_told(pairs, changed(some, pairs, changes), format)

    def test_empty_maps_and_maps_within_others(self):
        some = random.Random(2)
        pairs = chosen(some, 0.5)
        within = {key: value for key, value in pairs.items() if key < b"2"}
        for format in Format:
            for ours, theirs in [({}, {}), (pairs, {}), (within, pairs), (chosen(some, 0.1), {})]:
                self.assert_told(ours, theirs, format)
                self.assert_told(theirs, ours, format)

    def test_one_key_of_a_deep_tree(self):
        pairs = dict.fromkeys(DEEP, b"1")
        for key in DEEP:
            without = {it: value for it, value in pairs.items() if it != key}
            self.assert_told(pairs, without, Format.TWO)
            self.assert_told(without, pairs, Format.TWO)
            self.assert_told(pairs, {**pairs, key: b""}, Format.TWO)

    def test_spoiled_pieces_are_refused(self):
        some = random.Random(3)
        for format in Format:
            pairs = chosen(some, 0.9)
            one, other = filled(pairs, format), filled(changed(some, pairs, 5), format)
            whole = Other(other)
            one.differing(other.root(), whole.ask)
            for at in range(len(whole.texts) + whole.values):
                for way in (cut_short, longer, with_a_change):
                    spoiled = Other(other, lambda piece: way(some, piece), at)
                    with self.assertRaises(Refused) as caught:
                        one.differing(other.root(), spoiled.ask)
                    tests = TESTS_OF_VALUES if spoiled.is_value else TESTS_OF_TEXTS
                    self.assertIn(caught.exception.code, tests)

    def test_what_ends_it(self):
        one, other = filled({}, Format.ONE), filled({b"a": b"1"}, Format.ONE)

        def asked(*_):
            raise KeyError("as it is to")

        with self.assertRaises(KeyError):
            one.differing(other.root(), asked)
        with self.assertRaises(TypeError):
            one.differing(other.root(), lambda *_: None)
        for root, code in [(b"", BAD_ROOT), (bytes(33), BAD_ROOT), (bytes(32), -15)]:
            with self.assertRaises(Refused) as caught:
                one.differing(root, Other(other).ask)
            self.assertEqual(caught.exception.code, code)
        with one.pin() as then:
            told = then.differing(bytearray(other.root()), Other(other).ask)
            self.assertEqual(told, [(b"a", None, b"1")])
        with self.assertRaises(Refused) as caught:
            then.differing(other.root(), Other(other).ask)
        self.assertEqual(caught.exception.code, CLOSED)

    def test_the_pieces_of_a_proof(self):
        for format in Format:
            proof = filled({b"1": b"x", b"39": b"y", b"a": b"z"}, format).prove(b"1")
            pieces = [proof_piece(proof, number) for number in range(4)]
            lengths = [75, 10] if format == Format.ONE else [105, 40, 3]
            self.assertEqual([len(it) for it in pieces if it is not None], lengths)
            self.assertIsNone(proof_piece(proof, -1))
        self.assertIsNone(proof_piece(b"", 0))


if __name__ == "__main__":
    unittest.main()
