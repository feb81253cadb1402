"""The tree of a map: its nodes by layers, with keys, values and digests."""
from hashlib import sha256

from .canvas import Canvas
from .maps import last_two

CELL, HEIGHT, FIRST, APART = 162, 84, 40, 190
# Where the nodes begin, to the right of what is said of their layers.
NODES = 168
# The key whose proof is shown.
PROVED = b"hanoi"
LOOKS = [("thick", f"the nodes whose texts are the proof of {PROVED.decode()}")]
NOTES = [
    "A box is an entry; boxes that touch are one node. Above a node: how its digest begins.",
    "An arrow leads to the child in a gap: before an entry, or after the last.",
]


def in_order(version, digest):
    """The digests of the nodes below a digest and of itself, as an in-order walk leaves them."""
    node = version.nodes[digest]
    found = []
    for child in node.children:
        if child is not None:
            found += in_order(version, child)
    return [*found, digest]


def middle(version, lefts, digest):
    return lefts[digest] + len(version.nodes[digest].keys) * CELL / 2


def places(version):
    """The left upper corner of each node: the lowest in a row, each other above its children."""
    lefts, at = {}, NODES
    order = in_order(version, version.root)
    for digest in order:
        node = version.nodes[digest]
        below = [middle(version, lefts, it) for it in node.children if it]
        if below:
            lefts[digest] = (below[0] + below[-1]) / 2 - len(node.keys) * CELL / 2
        else:
            lefts[digest], at = at, at + len(node.keys) * CELL + 24
    highest = version.nodes[version.root].layer
    return {it: (lefts[it], FIRST + (highest - version.nodes[it].layer) * APART) for it in order}


def on_the_way(version, digest):
    """The digests of the nodes from this one down to that of the proved key."""
    node = version.nodes[digest]
    if PROVED in node.keys:
        return [digest]
    child = node.children[sum(key < PROVED for key in node.keys)]
    return [digest, *on_the_way(version, child)]


def draw_node(canvas, node, digest, left, top, is_root, style):
    for index, (key, value) in enumerate(zip(node.keys, node.values)):
        middle = left + index * CELL + CELL / 2
        canvas.box(left + index * CELL, top, CELL, HEIGHT, style)
        canvas.text(middle, top + 25, key.decode(), 19, "middle", bold=True, within=CELL - 8)
        canvas.text(middle, top + 48, "value " + value.decode(), 16, "middle", within=CELL - 8)
        start = f"SHA-256 {sha256(key).hexdigest()[:5]}.."
        canvas.text(middle, top + 71, start, 16, "middle", code=True, within=CELL - 4)
    middle = left + len(node.keys) * CELL / 2
    label = ("root digest " if is_root else "digest ") + digest.hex()[:8] + ".."
    canvas.text(middle, top - 8, label, 16, "middle", code=True, bold=is_root)


def draw_edges(canvas, version, where, way):
    for digest, (left, top) in where.items():
        node = version.nodes[digest]
        for gap, child in enumerate(node.children):
            if child is None:
                continue
            to_left, to_top = where[child]
            end = (to_left + len(version.nodes[child].keys) * CELL / 2, to_top - 28)
            style = "thick" if child in way else "thin"
            canvas.line([(left + gap * CELL, top + HEIGHT), end], style, arrow=True)


def picture():
    version, _, _ = last_two()
    where = places(version)
    highest = version.nodes[version.root].layer
    title = f"The tree of a map of {len(version.pairs)} keys in format 1"
    canvas = Canvas("tree", title, FIRST + highest * APART + 220)
    way = on_the_way(version, version.root)
    for layer in range(highest + 1):
        top = FIRST + (highest - layer) * APART
        canvas.text(24, top + 36, f"layer {layer}", 19, bold=True)
        zeros = "no digit 0" if not layer else f"{layer} digit{'s' * (layer > 1)} 0"
        canvas.lines(24, top + 60, ["SHA-256 begins", f"with {zeros}"], 16, 22)
    draw_edges(canvas, version, where, way)
    for digest, (left, top) in where.items():
        style = "thick" if digest in way else "thin"
        is_root = digest == version.root
        draw_node(canvas, version.nodes[digest], digest, left, top, is_root, style)
    canvas.lines(24, canvas.legend(24, FIRST + highest * APART + HEIGHT + 48, LOOKS) + 4, NOTES)
    return canvas
