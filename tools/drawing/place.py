"""Where a store and a verifier stand: a log, a store in each replica, a signer of root digests, and
a client."""
from .canvas import Canvas

LOG, REPLICA, SIGNER, CLIENT = (20, 160), (310, 370), (716, 164), (916, 268)
TOPS, HIGH = (30, 138, 246), 84
LOWER = TOPS[-1] + HIGH
TITLE = "One log makes equal stores; a client that trusts a root digest can check their answers"
LOOKS = [
    ("thick", "Jombritafo: an ordered map whose versions can be pinned, and what checks its proofs"),
    ("thin", "yours: log and consensus, network, signatures, the programs around store and verifier"),
]
NOTES = [
    "R: the root digest (Merkle root) of a version. Its kind: one map or a sharded map, which R does"
    " not tell.",
]


def draw_log(canvas):
    left, wide = LOG
    canvas.box(left, TOPS[0], wide, LOWER - TOPS[0], round=8)
    canvas.text(left + 16, TOPS[0] + 30, "log", 18, bold=True)
    for place, entry in enumerate(("entry 1", "entry 2", "entry 3", "..")):
        y = TOPS[0] + 52 + 60 * place
        canvas.box(left + 16, y, wide - 32, 44)
        canvas.text(left + wide / 2, y + 28, entry, 17, "middle")


def draw_replicas(canvas):
    left, wide = REPLICA
    for number, top in enumerate(TOPS, 1):
        canvas.box(left, top, wide, HIGH, round=8)
        canvas.text(left + 16, top + 48, f"replica {number}", 18, bold=True, within=140)
        canvas.box(left + 160, top + 10, wide - 176, HIGH - 20, "thick", round=6)
        canvas.text(left + 176, top + 36, "store", 18, bold=True)
        canvas.text(left + 176, top + 62, "root digest R", 17, within=wide - 200)
        middle = top + HIGH / 2
        canvas.line([(sum(LOG), middle), (left, middle)], arrow=True)
    x = left + 160 + (wide - 176) / 2
    for above, below in zip(TOPS, TOPS[1:]):
        canvas.line([(x, above + HIGH - 10), (x, below + 10)], "dotted")
        canvas.text(x - 12, below - 7, "equal? if not, at which keys?", 16, "end", within=x - left)
    x = (sum(LOG) + left) / 2
    for line, text in enumerate(("one batch", "(or block)", "per entry")):
        canvas.text(x, TOPS[0] + HIGH / 2 + 30 + 24 * line, text, 16, "middle", within=150)


def draw_answers(canvas):
    """What goes from replicas to the client, by the signer or straight, and back."""
    left, right = sum(REPLICA), CLIENT[0]
    middle = (left + right) / 2
    at, wide = SIGNER
    y = TOPS[0] + 74
    canvas.box(at, y - 20, wide, 40, round=8)
    canvas.text(at + wide / 2, y + 6, "signer", 18, "middle", bold=True)
    canvas.line([(left, y), (at, y)], arrow=True)
    canvas.line([(at + wide, y), (right, y)], arrow=True)
    signs = "signs R, the map's name,", "kind, format and", "version number"
    for line, text in enumerate(signs):
        canvas.text(middle, y - 76 + 23 * line, text, 16, "middle", within=right - left - 8)
    y = TOPS[2] + 30
    canvas.line([(left, y), (right, y)], arrow=True)
    for line, text in enumerate(("the value, or 'absent',", "with its proof")):
        canvas.text(middle, y - 34 + 24 * line, text, 16, "middle", within=right - left - 8)
    y = TOPS[2] + 64
    canvas.line([(right, y), (left, y)], arrow=True)
    canvas.text(middle, y + 22, "asks for a key", 16, "middle", within=right - left - 8)


def draw_client(canvas):
    left, wide = CLIENT
    canvas.box(left, TOPS[0], wide, LOWER - TOPS[0], round=8)
    canvas.text(left + 16, TOPS[0] + 30, "client", 18, bold=True)
    for line, text in enumerate(("checks the signature, and", "refuses a lower version")):
        canvas.text(left + 16, TOPS[0] + 54 + 23 * line, text, 16, within=wide - 24)
    top = TOPS[1] - 12
    canvas.box(left + 16, top, wide - 32, LOWER - top - 16, "thick", round=6)
    canvas.text(left + 32, top + 28, "verifier", 18, bold=True)
    for line, text in enumerate((
        "the call for R's kind", "takes R, the format,", "the key and the proof;",
        "returns the value,", "'absent', or which", "test the proof fails",
    )):
        canvas.text(left + 32, top + 54 + 23 * line, text, 16, within=wide - 60)


def picture():
    canvas = Canvas("place", TITLE, LOWER + 128)
    draw_log(canvas)
    draw_replicas(canvas)
    draw_answers(canvas)
    draw_client(canvas)
    canvas.lines(20, canvas.legend(20, LOWER + 42, LOOKS) + 4, NOTES)
    return canvas
