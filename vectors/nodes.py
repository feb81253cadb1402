"""Nodes and proofs as bytes, for making vectors (docs/FORMAT.md)."""
from functools import cache
from hashlib import sha256

EMPTY = sha256(b"").digest()


@cache
def layer_of(key, format=1):
    """How many digits are 0 at the front of the key's SHA-256: of base 16 in format 1, of base 4 in
    format 2."""
    zeros = 256 - int.from_bytes(sha256(key).digest(), "big").bit_length()
    return zeros // (4 if format == 1 else 2)


class Node:
    """A node with the digests of its children, None for an empty gap: one child more than keys."""

    def __init__(self, layer, keys, values, children, format=1):
        self.format, self.layer = format, layer
        self.keys, self.values, self.children = list(keys), list(values), list(children)

    def copy(self):
        return Node(self.layer, self.keys, self.values, self.children, self.format)

    def text(self):
        parts = [bytes([self.format, self.layer]) + len(self.keys).to_bytes(2, "big")]
        parts.append(child_text(self.children[0]))
        for key, value, child in zip(self.keys, self.values, self.children[1:]):
            parts.append(bytes([len(key)]) + key + self.held_text(value) + child_text(child))
        return b"".join(parts)

    def held_text(self, value):
        return bytes([len(value)]) + value if self.format == 1 else sha256(value).digest()

    def digest(self):
        return sha256(self.text()).digest()

    def gap(self, key):
        """The number of the gap in which a key lies: of the node's keys, so many are below it."""
        return sum(one < key for one in self.keys)


def child_text(digest):
    return b"\0" if digest is None else b"\1" + digest


def read_node(text):
    """The node of a good text."""
    at = 4

    def child():
        nonlocal at
        flag, at = text[at], at + 1
        if not flag:
            return None
        at += 32
        return text[at - 32 : at]

    keys, values, children = [], [], [child()]
    for _ in range(int.from_bytes(text[2:4], "big")):
        for part in (keys, values):
            size = text[at]
            part.append(text[at + 1 : at + 1 + size])
            at += 1 + size
        children.append(child())
    return Node(text[1], keys, values, children, text[0])


def framed(texts, count=None, format=1):
    proof = bytes([format, len(texts) if count is None else count])
    for text in texts:
        proof += len(text).to_bytes(4, "big") + text
    return proof


def texts_in(proof):
    """The texts of a good proof."""
    texts, at = [], 2
    for _ in range(proof[1]):
        size = int.from_bytes(proof[at : at + 4], "big")
        texts.append(proof[at + 4 : at + 4 + size])
        at += 4 + size
    return texts


def tail(value):
    """What follows the texts of a proof of format 2: the answer that is claimed."""
    return b"\0" if value is None else b"\1" + bytes([len(value)]) + value


def linked(nodes, key):
    """The root digest and the proof of nodes, each made the child of the one before in the key's
    gap there."""
    nodes = [node.copy() for node in nodes]
    for upper, lower in zip(nodes[-2::-1], nodes[:0:-1]):
        upper.children[upper.gap(key)] = lower.digest()
    return nodes[0].digest(), framed([node.text() for node in nodes], format=nodes[0].format)


def build(pairs, format=1):
    """The nodes of a sorted list of pairs, by their digests, and the root digest."""
    nodes, layers = {}, [layer_of(key, format) for key, _ in pairs]

    def tree(start, end):
        if start == end:
            return None
        layer = max(layers[start:end])
        tops = [i for i in range(start, end) if layers[i] == layer]
        bounds = [start - 1, *tops, end]
        children = [tree(low + 1, high) for low, high in zip(bounds, bounds[1:])]
        keys, values = [pairs[i][0] for i in tops], [pairs[i][1] for i in tops]
        node = Node(layer, keys, values, children, format)
        digest = node.digest()
        nodes[digest] = node
        return digest

    root = tree(0, len(pairs))
    return nodes, EMPTY if root is None else root


def proof_for(nodes, root, key):
    """The proof of the map of these nodes for a key."""
    texts, digest = [], None if root == EMPTY else root
    while digest is not None:
        node = nodes[digest]
        texts.append(node.text())
        digest = None if key in node.keys else node.children[node.gap(key)]
    return framed(texts)
