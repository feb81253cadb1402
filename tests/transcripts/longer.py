"""Longer cases of scripts whose answers are those of a plain model (model.py): stores of each size
and number of passes, pins that last, passes that write in turns, and the reads of whole maps."""
import itertools

from model import Script, Version, spelt
from modelled import next_random
from transcript import Case


def plain_case(title, line, lines, answers):
    """A case of these lines, which end in newlines."""
    words = line.encode().split(b" ")
    given, out = "".join(lines).encode(), "".join(answers).encode()
    return Case(f"longer.py: {title}: {line}", words, given, True, 0, out)


# ---- stores of each size and number of passes

SIZES = [4, 5, 63, 64, 65, 1_000, 4_095, 4_096, 16_383, 32_768, 65_534, 65_535]


def stores_of_many_sizes():
    """The last pass answers, and there is none behind it."""
    for rows, passes in itertools.product(SIZES, range(1, 33)):
        line = f"mst run --rows {rows} --passes {passes} --format 2"
        lines = [f"{passes} get 61\n", f"{passes + 1} get 61\n"]
        yield plain_case("stores of many sizes", line, lines, ["none\n", "fault L2\n"])


def each_number_of_passes():
    """Each pass in turn puts its number at one key, and reads it; then each reads the last one."""
    for passes in range(1, 33):
        script = Script(4, passes)
        for number in range(1, passes + 1):
            script.put(number, b"a", bytes([number]))
            script.get(number, b"a")
        for number in range(1, passes + 1):
            script.get(number, b"a")
            script.rows(number)
        yield script.case("each number of passes")


def orders_of_puts():
    """The rows of a large map do not depend on the order in which three passes put its keys."""
    keys = [number.to_bytes(4, "big") for number in range(2_000)]
    # one row for each key, and one for each of its nodes
    rows = sum(Version([(key, key) for key in keys], 1).rows().values())
    assert 2_000 < rows < 2_500
    for order in (keys, keys[::-1]):
        puts = [f"put {key.hex()} {key.hex()}\n" for key in order]
        lines = [f"{1 + place % 3} {put}" for place, put in enumerate(puts)]
        answers = ["none\n"] * 2_000 + [f"rows {rows}\n"]
        line = "mst run --rows 65535 --passes 3 --format 1"
        yield plain_case("orders of puts", line, lines + ["1 rows\n"], answers)


# ---- pins that last, and passes that write in turns


def still_stands(script):
    """The pinned version is read by each call."""
    script.root(1)
    script.format(1)
    script.get(1, b"1")


def a_long_pin():
    """Two rows are pinned, and two and two serve the versions in turn."""
    for change in (lambda script, step: script.put(2, b"1", bytes([step % 256])),
                   lambda script, step: script.migrate(2, 1 + step % 2)):
        script = Script(6, passes=2)
        script.put(2, b"1", b"a")
        script.pin(1)
        for step in range(1, 1_001):
            change(script, step)
            still_stands(script)
        assert script.refused == 0
        script.rows(2)
        script.unpin(1)
        script.rows(1)
        assert script.answers[-1] == "rows 2"
        script.count(1)
        assert script.version == 1_001
        yield script.case("a long pin keeps its version and no more")


def writes_in_turns():
    """A hundred puts of each of two passes, and after every fourth of each a migration. In format 2
    the key b has layer 1 and stands above a."""
    for format, rows in ((1, 4), (2, 3)):
        script = Script(8, 2, format)
        for number in range(100):
            script.put(1, b"a", bytes([number]))
            script.put(2, b"b", bytes([number]))
            if number % 4 == 3:
                script.migrate(2, 3 - script.current.format)
        assert script.refused == 0 and script.version == 225
        script.count(1)
        script.format(1)
        script.rows(2)
        assert script.current.format != format and script.answers[-1] == f"rows {rows}"
        yield script.case("passes that write in turns are never refused")


# ---- whole maps


def random_pair(place, random):
    """A number that rises by 1 to 31 from key to key, in three bytes, and up to four random bytes
    behind it; and up to four as the value."""
    tail = random.to_bytes(4, "big")
    key = (place * 16 + random % 16).to_bytes(3, "big") + tail[: (random >> 8) % 5]
    return key, tail[: (random >> 16) % 5]


def generated(count, seed):
    pairs, state = [], seed
    for place in range(count):
        state = next_random(state)
        pairs.append(random_pair(place, state >> 32))
    return pairs


def planted(pairs, rows, seed_format):
    """A script over a store to which the pairs were put by batches, and whose whole tree a
    migration then wrote into rows."""
    script = Script(rows, 1, 3 - seed_format)
    edits = [f"put {spelt(key)} {spelt(value)}" for key, value in pairs]
    for start in range(0, len(edits), 25):
        script.line(1, " ".join(["batch", *edits[start : start + 25]]), "done")
    script.current = Version(pairs, 3 - seed_format)
    script.migrate(1, seed_format)
    assert script.refused == 0
    return script


def places_of(script, step):
    """No bound, and every so-many-th of the keys and of the keys just above each."""
    keys = [it for key in script.current.keys for it in (key, key + b"\0")]
    return [b"", *keys[::step]]


def reads(script, keys_apart, places_apart):
    """Each so many of the keys and the keys just above them; and the ranges between all of these
    places."""
    script.root(1)
    script.next(1)
    for key in script.current.keys[::keys_apart]:
        for sought in (key, key + b"\0"):
            script.get(1, sought)
            script.prove(1, sought)
            script.next(1, sought)
    places = places_of(script, places_apart)
    for low, high, limit in itertools.product(places, places, (0, 1, 3, 65_535)):
        script.range(1, low, high, limit)


def whole_maps():
    for count, keys_apart, places_apart in ((0, 1, 1), (1, 1, 1), (2, 1, 1), (17, 1, 1),
                                            (1_000, 1, 157), (20_000, 997, 7_919)):
        script = planted(generated(count, 1 + count), 65_535, 1)
        reads(script, keys_apart, places_apart)
        yield script.case(f"reads of {count} pairs")


def cases():
    yield from stores_of_many_sizes()
    yield from each_number_of_passes()
    yield from orders_of_puts()
    yield from a_long_pin()
    yield from writes_in_turns()
    yield from whole_maps()
