"""A sharded map: its keys in shards, the directory over them, and a proof in its two parts.

The pairs are those of docs/pictures/map.txt, the splits those of docs/pictures/splits.txt."""
import os

from .canvas import WIDTH, Canvas, width_of
from .maps import TOP, puts
from sharding import split  # found since maps has put its folder on the path

ASKED = b"lima"
EDGE, GAP, HIGH = 24, 24, 60
DIRECTORY, KEYS, PROOF, LEGEND = 82, 290, 470, 610
CAPTION = [
    "In format 1, in hexadecimal; a bound stands as text in brackets. Of a digest the beginning is"
    " shown.",
]


def splits():
    """The splits of the picture's map."""
    path = os.path.join(TOP, "docs", "pictures", "splits.txt")
    with open(path, encoding="ascii") as lines:
        return [bytes.fromhex(line) for line in lines]


def name(key):
    """A key as text, in hexadecimal digits if it is no letters."""
    return key.decode() if key.isalpha() else "0x" + key.hex()


def bound(key):
    """A bound in hexadecimal digits, with its text if it is letters."""
    return f"{key.hex()} ({key.decode()})" if key.isalpha() else key.hex()


def shown(map, key):
    """The keys that the proof of a key shows: all those of the nodes that it has."""
    return {one for node in map.trail(key) for one in node.keys}


def short(digest):
    return digest.hex()[:8] + ".."


def columns(count):
    """The left end and the width of each shard's column."""
    width = (WIDTH - 2 * EDGE - (count - 1) * GAP) / count
    return [(EDGE + place * (width + GAP), width) for place in range(count)]


def draw_directory(canvas, it, where):
    root = f"root digest {short(it.root)}"
    canvas.text(WIDTH / 2, 26, root, 17, "middle", code=True, bold=True)
    canvas.line([(WIDTH / 2, 36), (WIDTH / 2, DIRECTORY - 14)], arrow=True)
    says = "the directory, a map with a key for each shard"
    canvas.text(EDGE, DIRECTORY - 22, says, 17, bold=True)
    right = where[-1][0] + where[-1][1]
    canvas.box(EDGE - 10, DIRECTORY - 12, right - EDGE + 20, HIGH + 64, "faint", round=6)
    listed = shown(it.directory, it.shard_of(ASKED).low)
    for shard, (left, width) in zip(it.shards, where):
        canvas.box(left, DIRECTORY, width, HIGH + 40, "thick" if shard.low in listed else "thin")
        high = f"upper bound {bound(shard.high)}" if shard.high else "no upper bound"
        value = f"value: root digest {short(shard.map.root)},"
        middle, within = left + width / 2, width - 20
        key = f"key: lower bound {bound(shard.low)}"
        canvas.text(left + 12, DIRECTORY + 28, key, 16, code=True, bold=True, within=within)
        canvas.text(left + 12, DIRECTORY + 56, value, 16, code=True, within=within)
        canvas.text(left + 80, DIRECTORY + 82, high, 16, code=True, within=within - 68)
        start = (middle, DIRECTORY + HIGH + 40)
        style = "thick" if shard.has(ASKED) else "thin"
        canvas.line([start, (middle, KEYS - 34)], style, arrow=True)


def draw_shards(canvas, it, where):
    for shard, (left, width) in zip(it.shards, where):
        middle = left + width / 2
        label = f"shard with root digest {short(shard.map.root)}"
        canvas.text(middle, KEYS - 12, label, 16, "middle", code=True, within=width)
        canvas.box(left, KEYS, width, HIGH + 34)
        proved = shown(shard.map, ASKED) if shard.has(ASKED) else set()
        others = sorted(set(shard.map.pairs) - proved)
        rows = [sorted(proved)] if proved else []
        rows += [others[place : place + 4] for place in range(0, len(others), 4)]
        first = KEYS + (HIGH + 34 - 36 * len(rows)) / 2 + 24
        for row, keys in enumerate(rows):
            text, y = ", ".join(map(name, keys)), first + 36 * row
            if proved and row == 0:
                wide = width_of(text, 17) + 32
                canvas.box(middle - wide / 2, y - 21, wide, 30, "thick")
            canvas.text(middle, y, text, 17, "middle", within=width - 16)


def draw_proof(canvas, it):
    """The frame of the proof, field by field, and where each part is verified."""
    shard = it.shard_of(ASKED)
    parts = it.directory.proof(shard.low), shard.map.proof(ASKED)
    low = shard.low
    fields = [
        ("format", f"{it.format + 2:02x}", 100),
        ("bound's length", f"{len(low):02x}", 176),
        ("bound", bound(low), 100),
        ("length", f"{len(parts[0]):08x}", 126),
        ("directory's proof", f"{len(parts[0])} bytes, for key {bound(low)}", 340),
        ("shard's proof", f"{len(parts[1])} bytes, for key {name(ASKED)}", 310),
    ]
    canvas.text(EDGE, PROOF - 20, f"the proof for the key {name(ASKED)}, its fields", 17, bold=True)
    left, ends = EDGE, []
    for label, text, width in fields:
        canvas.box(left, PROOF, width, HIGH, "thick" if "proof" in label else "thin")
        canvas.text(left + width / 2, PROOF + 25, label, 16, "middle", bold=True, within=width - 8)
        canvas.text(left + width / 2, PROOF + 48, text, 16, "middle", code=True, within=width - 8)
        ends.append((left + width / 2, width))
        left += width
    says = f"format byte {fields[0][1]}: sharded, format {it.format}"
    canvas.text(EDGE, PROOF + HIGH + 28, says, 16, within=500)
    for (middle, width), root in zip(ends[-2:], (it.root, shard.map.root)):
        says = f"verified for {short(root)}"
        canvas.text(middle, PROOF + HIGH + 28, says, 16, "middle", code=True, within=width - 8)


def picture():
    it = split(1, dict(puts()), splits())
    where = columns(len(it.shards))
    count = len(dict(puts()))
    title = f"A map of {count} keys in {len(it.shards)} shards, and the proof of {name(ASKED)}"
    canvas = Canvas("sharded", title, LEGEND + 56)
    draw_directory(canvas, it, where)
    draw_shards(canvas, it, where)
    draw_proof(canvas, it)
    says = f"what the proof for {name(ASKED)} has in it, and its two parts"
    canvas.legend(EDGE, LEGEND, [("thick", says)])
    canvas.lines(EDGE, LEGEND + 42, CAPTION)
    return canvas
