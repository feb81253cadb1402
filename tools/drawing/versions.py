"""Two versions of a map in rows: those that a put made, shared ones, those of the old one alone.

The link to a child begins below the row that has it. An entry has the link of the gap before it,
the head that of the gap after all entries: so the head stands last."""
from .canvas import WIDTH, Canvas
from .maps import last_two

ROW, HEIGHT, TOP, APART, EDGE, BETWEEN = 80, 40, 104, 140, 20, 310

# How far from the middle of a shared node a link of one version ends.
ASIDE = {"dashed": -7, "thick": 7}
NOTES = [
    "A box is a row (memory cell). A node has one for each entry (a key with its value), and a last"
    " one for itself, its head.",
    "An arrow is a link to a child node. An entry links to the keys just before its own, the head"
    " to the keys after all entries.",
]


class Placed:
    """A node on the canvas: the version that it is read from, and where its rows begin."""

    def __init__(self, version, digest, style, left, top):
        self.node, self.rows = version.nodes[digest], version.rows(digest)
        self.style, self.left, self.top = style, left, top

    def middle(self):
        return self.left + self.rows * ROW / 2

    def gap(self, number):
        """Where the link of a gap begins: below the middle of the next entry, for the last gap of
        the head."""
        return self.left + (number + 0.5) * ROW

    def draw(self, canvas):
        texts = [*(key.decode() for key in self.node.keys), "head"]
        for index, text in enumerate(texts):
            left = self.left + index * ROW
            canvas.box(left, self.top, ROW, HEIGHT, self.style)
            place = (left + ROW / 2, self.top + 26)
            is_key = index < len(self.node.keys)
            canvas.text(*place, text, 16, "middle", bold=is_key, within=ROW - 6)


def styles(old, new):
    """The line style of each node of both versions: thick if new, dashed if only old, else thin."""
    found = {it: "thin" if it in new.nodes else "dashed" for it in old.nodes}
    return {**found, **{it: "thick" for it in new.nodes if it not in old.nodes}}


def placed_nodes(old, new):
    """All nodes: the lowest side by side by their keys, each other above its children."""
    style, order = styles(old, new), ("dashed", "thin", "thick")
    nodes = {**old.nodes, **new.nodes}
    found, highest = {}, old.nodes[old.root].layer
    for layer in range(highest + 1):
        here = [it for it in style if nodes[it].layer == layer]
        here.sort(key=lambda it: (nodes[it].keys[0], order.index(style[it])))
        widths = [(len(nodes[it].keys) + 1) * ROW for it in here]
        if layer == 0:
            lefts = side_by_side(widths)
        else:
            middles = [above_children(nodes[it], found) for it in here]
            lefts = spread(middles, widths, layer == highest)
        for digest, left in zip(here, lefts):
            version = new if digest in new.nodes else old
            top = TOP + (highest - layer) * APART
            found[digest] = Placed(version, digest, style[digest], left, top)
    return found


def side_by_side(widths):
    space = (WIDTH - 2 * EDGE - sum(widths)) / (len(widths) - 1)
    return [EDGE + sum(widths[:it]) + it * space for it in range(len(widths))]


def above_children(node, placed):
    """The middle between the first child of a node and the last."""
    below = [placed[it].middle() for it in node.children if it is not None]
    return (below[0] + below[-1]) / 2


def spread(middles, widths, is_top):
    """Where an old node and the new one for it begin: far enough from each other. At the top only
    the new one moves, so that the old one's link to the right passes no node."""
    lack = max(0, BETWEEN - (middles[1] - middles[0]))
    moves = (0, lack) if is_top else (-lack / 2, lack / 2)
    return [it + by - width / 2 for it, by, width in zip(middles, moves, widths)]


def draw_links(canvas, placed):
    for one in placed.values():
        for gap, child in enumerate(one.node.children):
            if child is not None:
                below = placed[child]
                start = (one.gap(gap), one.top + HEIGHT)
                aside = ASIDE.get(one.style, 0) if below.style != one.style else 0
                end = (below.middle() + aside, below.top - 3)
                canvas.line([start, end], one.style, arrow=True)


def draw_legend(canvas, counts, old, top):
    says = {
        "dashed": f"rows of version {old.number} alone: readable while its pin lasts; the first"
        " write after the unpin frees them",
        "thin": "rows that both versions have",
        "thick": "rows that the put wrote, which were free: one path, with the new entry",
    }
    canvas.lines(20, top - 6, NOTES)
    canvas.legend(20, top + 26 * len(NOTES) + 18, [
        (it, f"{counts[it]} {text}") for it, text in says.items()
    ])


def picture():
    old, new, key = last_two()
    placed = placed_nodes(old, new)
    counts = dict.fromkeys(("dashed", "thin", "thick"), 0)
    for one in placed.values():
        counts[one.style] += one.rows
    legend = TOP + old.nodes[old.root].layer * APART + HEIGHT + 58
    title = f"A put of {key} copies one path of the tree; both versions share all other rows"
    canvas = Canvas("versions", title, legend + 162)
    draw_links(canvas, placed)
    for one in placed.values():
        one.draw(canvas)
    for version, text in ((old, "pinned and read"), (new, f"made by one put of {key}")):
        top = placed[version.root]
        name = f"version {version.number}"
        canvas.text(top.middle(), top.top - 64, name, 19, "middle", bold=True)
        canvas.text(top.middle(), top.top - 40, text, 17, "middle")
        root = f"root digest {version.root.hex()[:8]}.."
        canvas.text(top.middle(), top.top - 14, root, 16, "middle", code=True)
    draw_legend(canvas, counts, old, legend)
    return canvas
