"""Proofs of one map of which each fails one test, for making vectors of sharded maps."""
from nodes import EMPTY, Node, layer_of, linked
from sharding import framed_in, proof_of


def broken(some, it, key):
    """What was changed, the test that fails, a root digest and a proof for the key."""
    yield from broken_frames(it, key)
    yield from broken_roots(it, key)
    yield from broken_texts(it, key)
    yield from broken_links(some, it.format, key)
    if it.format == 2:
        yield from broken_tails(it, key)


def broken_frames(it, key):
    proof, root = it.proof(key), it.root
    for byte in (0, 3 - it.format, it.format + 2, 0xFF):
        yield f"first byte {byte:02x}", "P1", root, bytes([byte]) + proof[1:]
    yield "no bytes", "P2", root, b""
    yield "no bytes after the format", "P2", root, proof[:1]
    yield "the last byte cut", "P2", root, proof[:-1]
    more = bytes([proof[1] + 1])
    yield "a count that is one more", "P2", root, proof[:1] + more + proof[2:]
    yield "a byte behind", "P3", root, proof + b"\0"
    if proof[1]:
        less = bytes([proof[1] - 1])
        yield "a count that is one less", "P3", root, proof[:1] + less + proof[2:]
        yield "the longest length", "P2", root, proof[:2] + b"\xff" * 4 + proof[6:]


def broken_roots(it, key):
    proof, root = it.proof(key), it.root
    yield "a bit of the root changed", "P5", bytes([root[0] ^ 1]) + root[1:], proof
    yield "another last byte of the root", "P5", root[:-1] + bytes([root[-1] ^ 0x80]), proof
    if root != EMPTY:
        yield "no texts", "P5", root, framed_in(it.format, [], None)


def broken_texts(it, key):
    """Each text changed, and texts put in or left out."""
    value, root = it.pairs.get(key), it.root
    trail = it.trail(key)
    texts = [node.text() for node in trail]

    def put(at, text):
        return framed_in(it.format, texts[:at] + [text] + texts[at + 1 :], value)

    for at, text in enumerate(texts):
        other = bytes([3 - it.format])
        yield "a text of the other format", "P4", root, put(at, other + text[1:])
        yield "a layer of 255", "P4", root, put(at, text[:1] + b"\xff" + text[2:])
        yield "no entries", "P4", root, put(at, text[:2] + b"\0\0" + text[4:])
        yield "an empty text", "P4", root, put(at, b"")
        yield "a text with a byte more", "P4", root, put(at, text + b"\0")
        yield "a text without its last byte", "P4", root, put(at, text[:-1])
        node = trail[at].copy()
        node.children[-1] = bytes(32)
        yield "a child of zeros", "P5", root, put(at, node.text())
        node = trail[at].copy()
        node.values[0] = bytes([len(node.values[0])]) * 40
        yield "another value", "P5", root, put(at, node.text())
    if len(texts) > 1:
        yield "the last text left out", "P8", root, framed_in(it.format, texts[:-1], value)
    if texts:
        twice = framed_in(it.format, texts + texts[-1:], value)
        yield "the last text twice", "P9", root, twice
        yield "an empty text behind", "P9", root, framed_in(it.format, texts + [b""], value)


def broken_links(some, format, key):
    """Nodes that are linked by digests, below another root digest."""

    def key_of(layer, low, high):
        while True:
            one = low + some.randbytes(some.choice([3, 4]) if low else some.choice([1, 2, 3, 4]))
            if low < one and (high is None or one < high) and layer_of(one, format) == layer:
                return one

    def node_of(one):
        return Node(layer_of(one, format), [one], [b"!"], [None, None], format)

    is_long = len(key) > 28
    mark = key_of(1, b"", key) if is_long else key_of(1, key, None)
    inside, outside = ((mark, None), (b"", mark)) if is_long else ((b"", mark), (mark, None))
    top = node_of(mark)
    for what, fault, child in (
        ("a child of its parent's layer", "P6", node_of(key_of(1, *inside))),
        ("a child of its parent's layer, outside its gap", "P6", node_of(key_of(1, *outside))),
        ("a child of a higher layer", "P6", node_of(key_of(2, *inside))),
        ("a child outside its gap", "P7", node_of(key_of(0, *outside))),
        ("a child that has its parent's key", "P6", top.copy()),
    ):
        root, _ = linked([top, child], key)
        above = top.copy()
        above.children[above.gap(key)] = child.digest()
        yield what, fault, root, proof_of(format, [above, child], None)
    above = top.copy()
    above.children[above.gap(key)] = bytes(range(32))
    yield "a child that is not shown", "P8", above.digest(), proof_of(format, [above], None)


def broken_tails(it, key):
    value, root = it.pairs.get(key), it.root
    texts = it.proof(key)[: -1 if value is None else -2 - len(value)]
    for what, end in (
        ("a tail of 02", b"\x02"),
        ("a value of 65 bytes", b"\x01\x41" + bytes(65)),
        ("another value", b"\x01\x20" + bytes(32)),
    ):
        yield what, "P10", root, texts + end
    if value is not None:
        yield "absence claimed", "P10", root, texts + b"\0"
    yield "a tail of 02 with a byte behind it", "P3", root, texts + b"\x02\0"
    yield "no tail", "P2", root, texts
    yield "a tail of 255 bytes, cut", "P2", root, texts + b"\x01\xff" + bytes(254)
