"""Cases whose texts are computed: by other programs for nodes and proofs (vectors/nodes.py, the
verifier in Python), at random, from what an earlier run has answered, or by a plain model of a
store (modelled.py, longer.py) or of a sharded map (sharded.py)."""
import glob
import hashlib
import itertools
import os
import random
import sys

import longer
import model
import modelled
import sharded
import transcript
from model import Version
from transcript import Case

HERE = os.path.dirname(os.path.abspath(__file__))
sys.path += [os.path.join(HERE, "..", "..", it) for it in ("vectors", "verifiers/python")]
import mst_verifier
import nodes

JOINTS = " ="


def case(title, line, given, out, is_read=True, status=0):
    """A case with the words in a line, and the other texts as strings."""
    place = f"computed.py: {title}: {line}"
    return Case(place, line.encode().split(b" "), given.encode(), is_read, status, out.encode())


# ---- options


def spelt(options):
    """The words of these options in each order and spelling."""
    for joints in itertools.product(JOINTS, repeat=len(options)):
        words = [f" --{name}{joint}{number}" for joint, (name, number) in zip(joints, options)]
        yield from map("".join, itertools.permutations(words))


# Numbers of rows, each with how many keys of one node have room in so many rows, and numbers of
# passes; that which a script has without the option is the last one.
ROWS = [("5", 2), ("7", 3), ("9", 4), ("+11", 5), ("0013", 6), (None, 9)]
PASSES = [("3", 3), ("6", 6), ("8", 8), ("+10", 10), ("012", 12), (None, 4)]


def options_of_a_script():
    """Each number of rows beside each number of passes: what a script is answered tells both."""
    script = "".join(f"1 put {key} -\n" for key in range(61, 70))
    script += "".join(f"{number} get 7a\n" for number in range(1, 14))
    for (rows, keys), (passes, count) in itertools.product(ROWS, PASSES):
        answers = "none\n" * keys + "noroom\n" * (9 - keys)
        answers += "none\n" * count + "fault L2\n" * (13 - count)
        options = [(name, it) for name, it in (("rows", rows), ("passes", passes)) if it]
        for words in spelt(options):
            yield case("room and passes", "mst run" + words, script, answers)


LOADS = [(2, 3, 5), (2, 5, 3), (3, 2, 5), (3, 5, 2), (5, 2, 3), (5, 3, 2), (1, 8, 40), (24, 1, 99)]


def options_of_a_load():
    """The report on a load tells how many writers it had, and how many calls each of them made."""
    for number, (readers, writers, calls) in enumerate(LOADS):
        last = {(writer, call % 32): call for writer in range(1, writers + 1)
                for call in range(1, calls + 1)}
        pairs = sorted((bytes(key), call.to_bytes(4, "big")) for key, call in last.items())
        root = nodes.build(pairs)[1].hex()
        report = f"events {writers * calls}\nfalls 0\nroot {root}\nbuilt {root}\n"
        options = [("readers", readers), ("writers", writers), ("calls", calls)]
        for words in itertools.islice(spelt(options), 48 if number == 0 else 1):
            yield case("loads", "mst load" + words, "x", report, is_read=False)


# ---- whole scripts


def all_passes_pin():
    """Each pass puts its number and pins what it put; then the last one writes on."""
    script, answers, before = "", "", "none"
    for number in range(1, 33):
        script += f"{number} put 61 {number:02x}\n{number} pin\n"
        answers += f"{before}\npinned {number}\n"
        before = f"some {number:02x}"
    script += "32 unpin\n32 put 61 21\n1 get 61\n31 get 61\n32 get 61"
    answers += "unpinned\nsome 20\nsome 01\nsome 1f\nsome 21\n"
    yield case("all passes pin versions", "mst run --passes 32", script, answers)


def a_large_node():
    """A map of one node, whose text and whose proofs have more than 65,535 bytes."""
    keys = [number.to_bytes(2, "big") for number in range(1 << 16)]
    keys = [key for key in keys if nodes.layer_of(key) == 0][:1000]
    values = [key[1:] * 64 for key in keys]
    text = nodes.Node(0, keys, values, [None] * 1001).text()
    assert len(text) > 65_535
    root, proof = hashlib.sha256(text).hexdigest(), nodes.framed([text]).hex()
    pairs = [f"{key.hex()} {value.hex()}\n" for key, value in zip(keys, values)]
    script = "".join(f"1 put {pair}" for pair in pairs)
    script += "1 node\n1 prove ffff\n1 range - - 65535\n1 rows\n"
    answers = "none\n" * 1000 + f"{text.hex()}\n{proof}\npairs 1000\n"
    answers += "".join(f"pair {pair}" for pair in pairs) + "rows 1001\n"
    title = "a node of a thousand keys"
    yield case(title, "mst run --rows 2100 --passes 1", script, answers)
    yield case(title, f"mst verify {root} ffff", proof, "absent\n")
    yield case(title, f"mst verify {root} 0000", proof, f"present {'00' * 64}\n")


# Keys, each with its layer in format 1.
LAYERS = {b"1": 0, b"a": 0, b"abc": 0, b"0": 0, b"hello": 0, b"merkle search tree keys 32 bytes": 0,
          b"39": 1, b"49": 1, b"286": 2, b"671": 2, b"886": 3, b"1039": 3, b"88484": 4,
          b"172608": 4, b"596138": 5, b"665782": 7}


def layers_of_keys():
    """The node of one key says its layer."""
    for key, layer in LAYERS.items():
        assert nodes.layer_of(key) == layer
        for format in (1, 2):
            node = nodes.Node(nodes.layer_of(key, format), [key], [b""], [None] * 2, format)
            script = f"1 put {key.hex()} -\n1 node\n"
            answers = f"none\n{node.text().hex()}\n"
            yield case("layers of keys", f"mst run --format {format}", script, answers)


# Keys that rise: a key is below each that it begins, and bytes have no sign.
RISING = [b"\0", b"\0\0", b"a", b"ab", b"b", b"\x7f\xff", b"\x80"]


def rising_keys():
    """Behind each key the next one follows, in whatever order they were put."""
    for order in (RISING, RISING[::-1]):
        script = "".join(f"1 put {key.hex()} -\n" for key in order)
        answers = "none\n" * len(order)
        for key, above in zip([b"", *RISING], [*RISING, None]):
            script += f"1 next {model.spelt(key)}\n"
            answers += f"pair {above.hex()} -\n" if above else "none\n"
        yield case("keys that rise", "mst run", script, answers)


def the_largest_node():
    """A map of one node that takes all rows of the largest store: one for each pair, and a head."""
    keys = [number.to_bytes(3, "big") for number in range(69_815)]
    pairs = [(key, key[2:] * 64) for key in keys if nodes.layer_of(key) == 0]
    assert len(pairs) == 65_534
    version = Version(pairs, 1)
    for key, value in (pairs[len(pairs) // 2], (b"\xff", None)):
        yield proved("the largest node", version, key, value)


# ---- proofs


def proved(title, version, key, value):
    """The proof of a map shows this value of the key, or none."""
    said = "absent" if value is None else f"present {model.spelt(value)}"
    line = f"mst verify --format {version.format} {version.root.hex()} {key.hex()}"
    return case(title, line, version.proof(key).hex(), said + "\n")


def proofs_of_maps():
    """Maps of the first numbers in three bytes, each number with its two low bytes, asked for
    numbers, two of which they lack, and for their four bytes."""
    for format, (count, step) in itertools.product((1, 2), ((0, 1), (1, 1), (17, 1), (1_000, 251))):
        numbers = [number.to_bytes(3, "big") for number in range(count)]
        version = Version([(key, key[1:]) for key in numbers], format)
        for number in range(0, count + 2, step):
            key = number.to_bytes(3, "big")
            yield proved("proofs of maps", version, key, key[1:] if number < count else None)
            yield proved("proofs of maps", version, b"\0" + key, None)


def each_byte_counts():
    """A proof of two nodes that is cut before each byte, that has a bit of each byte changed, and
    that is longer by a byte: the verifier in Python says what is wrong."""
    pairs = [(b"1", b"x"), (b"39", b"y"), (b"a", b"z")]
    made, root = nodes.build(pairs)
    proof = nodes.proof_for(made, root, b"1")
    spoilt = [proof[:place] for place in range(len(proof))] + [proof + b"\0"]
    for place, byte in enumerate(proof):
        spoilt.append(proof[:place] + bytes([byte ^ 1]) + proof[place + 1 :])
    for other in spoilt:
        said = mst_verifier.line_for(1, root, b"1", other)
        assert said.startswith("P")
        line = f"mst verify {root.hex()} 31"
        yield case("each byte of a proof counts", line, other.hex(), said + "\n", status=1)


# ---- sharded maps

SHARDED = "1 put 61 31\n1 put 63 -\n1 put 62 32\n2 root\n3 prove {}\n"

# Keys right at a split, beside one, not there, and in a shard with no key.
PROVED = {"61": "present 31", "62": "present 32", "6200": "absent", "63": "present -",
          "01": "absent", "ff": "absent"}


def proofs_of_shards(run):
    """What a script over a sharded map answers as a proof shows this of the key."""
    for number, (key, said) in itertools.product((1, 2), PROVED.items()):
        words = f"mst run --splits 62,64 --format {number}".split()
        answers = run(words, SHARDED.format(key).encode()).decode().split("\n")
        line = f"mst verify --sharded --format {number} {answers[3]} {key}"
        yield case("proofs of a sharded map", line, answers[4], said + "\n")


def splits(shards):
    """The words of a map of so many shards, each with some of 24 keys of a byte."""
    keys = ",".join(f"{shard * 24 // shards + 16:02x}" for shard in range(1, shards))
    return f"mst run --passes 3 --splits {keys}"


def random_key(draw):
    return f"{draw.randrange(16, 40):02x}" + draw.choice(["", "", "", "00"])


def random_edit(draw):
    key = random_key(draw)
    return draw.choice([f"del {key}"] + [f"put {key} {draw.randrange(256):02x}"] * 3)


def random_read(draw):
    """A read of all shards."""
    one, other = random_key(draw), random_key(draw)
    return draw.choice(["next -", f"range - - {draw.randrange(40)}", f"range {one} {other} 9",
                        f"range {one} - 7", "format", f"next {one}"])


def random_command(draw):
    """A command that is no read of all shards."""
    edits = " ".join(random_edit(draw) for _ in range(3))
    return draw.choice([f"get {random_key(draw)}", "pin", "unpin", "unpin", "batch",
                        f"migrate {draw.randrange(1, 3)}", f"batch {edits}", f"batch {edits}",
                        *(random_edit(draw) for _ in range(4))])


def shards_next_to_a_store(run):
    """Whatever the splits, each line is answered as one store answers it."""
    for seed in range(1, 9):
        draw = random.Random(seed)
        lines = (draw.choice([random_read, random_command])(draw) for _ in range(400))
        script = "".join(f"{draw.randrange(1, 4)} {line}\n" for line in lines)
        answers = run("mst run --passes 3".split(), script.encode()).decode()
        for shards in (2, 7, 24):
            yield case(f"shards next to a store, by {seed}", splits(shards), script, answers)


# Splits of the keys of transcripts: one, and several, some of which are keys or begin keys.
SPLITS = ["62", "0001,31,3339,61,616263,62,6261,63,80,ff"]
# What a sharded map does not have, or has of its own.
OWN = {b"root", b"node", b"prove", b"rows"}


def asked_of_all(given):
    """The lines of a script that a sharded map answers as one store does."""
    lines = given.split(b"\n")
    return b"\n".join(line for line in lines if not OWN & set(line.split(b" ")[1:2]))


def is_over_a_store(case):
    """Whether a case is a script over a store."""
    return (case.words[:2] == [b"mst", b"run"] and case.given and case.is_read
            and not case.status and not any(b"splits" in word for word in case.words))


def transcripts_over_shards(run):
    """The scripts of the transcripts, but for those that one store has no room for, and those of
    all its passes, of which one is the writer's."""
    paths = sorted(glob.glob(os.path.join(HERE, "*.txt")))
    for it in filter(is_over_a_store, (it for path in paths for it in transcript.read(path))):
        given = asked_of_all(it.given)
        answers = run(it.words, given)
        if b"noroom\n" in answers or {b"32", b"--passes=32"} & set(it.words):
            continue
        for keys in SPLITS:
            words = [b"mst", b"run", b"--splits", keys.encode(), *it.words[2:]]
            yield Case(f"over shards: {it.place}", words, given, True, 0, answers)


def shards_next_to_a_list():
    """Puts, removes and gets, next to the plain list of what is held."""
    for seed in range(1, 9):
        draw, held, script, answers = random.Random(seed), {}, "", ""
        for _ in range(500):
            key, value = f"{draw.randrange(16, 40):02x}", f"{draw.randrange(256):02x}"
            asked = draw.choice(["del", "get", "get", "put", "put"])
            fields = f"{key} {value}" if asked == "put" else key
            script += f"{draw.randrange(1, 4)} {asked} {fields}\n"
            answers += f"some {held[key]}\n" if key in held else "none\n"
            if asked == "put":
                held[key] = value
            elif asked == "del":
                held.pop(key, None)
        for shards in (2, 7, 24):
            yield case(f"shards next to a list, by {seed}", splits(shards), script, answers)


def cases(run):
    """All of these cases. `run` gives what the program writes for words and an input."""
    yield from options_of_a_script()
    yield from options_of_a_load()
    yield from all_passes_pin()
    yield from a_large_node()
    yield from the_largest_node()
    yield from layers_of_keys()
    yield from rising_keys()
    yield from proofs_of_maps()
    yield from each_byte_counts()
    yield from proofs_of_shards(run)
    yield from shards_next_to_a_store(run)
    yield from shards_next_to_a_list()
    yield from transcripts_over_shards(run)
    yield from modelled.cases()
    yield from longer.cases()
    yield from sharded.cases()
