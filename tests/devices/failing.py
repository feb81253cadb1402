"""Devices that fail after each number of calls, and devices that move few bytes at a time. Each
line that was read whole is answered, each byte that is written is the next one of the answers, and
a device that fails ends the program with a status of its own."""
import dataclasses
import hashlib
import itertools

DONE, DEVICE = 0, 3
DEVICE_FAILED = b"device\n"
# The most bytes of a read and of a write.
SIZES = [(1, 1), (1, 9), (9, 1), (3, 2), (7, 7), (64, 64)]


@dataclasses.dataclass
class Work:
    """A command with its input and its answers, line by line. If the command answers only when it
    has read all, it has one line, which has no newline."""

    words: str
    lines: list

    def __post_init__(self):
        self.given = b"".join(line for line, _ in self.lines)
        self.out = b"".join(answer for _, answer in self.lines)

    def answered(self, size):
        """The answers to the lines that end within so many bytes."""
        out, end = b"", 0
        for line, answer in self.lines:
            end += len(line)
            if line.endswith(b"\n") and end <= size:
                out += answer
        return out


# Five lines, of which one is a fault.
FIVE = Work("run --rows 5 --passes 4", [
    (b"1 put 61 31\n", b"none\n"), (b"2 put 616263 78\n", b"none\n"),
    (b"3 range - - 10\n", b"pairs 2\npair 61 31\npair 616263 78\n"),
    (b"1 frob\n", b"fault L3\n"), (b"4 get 61", b"some 31\n")])

SCRIPT = Work("run", [
    (b"1 put 61 31\n", b"none\n"), (b"2 get 61\n", b"some 31\n"), (b"1 frob\n", b"fault L3\n"),
    (b"3 put 61 -\n", b"some 31\n"), (b"4 get 61", b"some -\n")])

PINS = Work("run --rows 5 --passes 4", [
    (b"1 put 61 31\n", b"none\n"), (b"1 pin\n", b"pinned 1\n"), (b"2 put 61 32\n", b"some 31\n"),
    (b"1 get 61\n", b"some 31\n"), (b"1 put 62 33\n", b"fault L6\n"), (b"2 rows\n", b"held\n"),
    (b"1 unpin\n", b"unpinned\n"), (b"1 get 61\n", b"some 32\n"), (b"2 rows\n", b"rows 2\n")])

SHARDS = Work("run --splits 1c --passes 3", [
    (b"1 put 11 31\n", b"none\n"), (b"2 put 1f 32\n", b"none\n"), (b"1 pin\n", b"pinned 2\n"),
    (b"2 del 11\n", b"some 31\n"), (b"1 range - - 9\n", b"pairs 2\npair 11 31\npair 1f 32\n"),
    (b"1 unpin\n", b"unpinned\n"), (b"3 get 1f", b"some 32\n")])

REPLAY = Work("replay", [
    (b"passes 2\n", b"records 4\n"), (b"pin 1\n", b"record 0\n"), (b"transfer\n", b"refused\n")])

# The root digest of the empty map is the SHA-256 of no bytes.
NONE = hashlib.sha256(b"").hexdigest()
PROOF = Work(f"verify {NONE} 61", [(b"0100", b"absent\n")])

# A load of one call, which reads nothing. The text of the one node: format 1, layer 0, one key, no
# child, the key 0101 and the value 00000001 with their lengths, no child.
ONE = hashlib.sha256(bytes.fromhex("01000001" "00" "020101" "0400000001" "00")).hexdigest()
REPORT = f"events 1\nfalls 0\nroot {ONE}\nbuilt {ONE}\n".encode()
LOAD = Work("load --readers 1 --writers 1 --calls 1", [(b"", REPORT)])

READERS = [FIVE, SCRIPT, PINS, SHARDS, REPLAY, PROOF]


def fault_of(program, work, limits, wanted):
    """What is otherwise than wanted, or an empty text."""
    came = program.run(work.words.split(), work.given, limits)
    return "" if came == wanted else f"by {limits}: {came}, and not {wanted}"


def ends(status, out):
    return status, out, DEVICE_FAILED if status == DEVICE else b""


def in_pieces(program):
    for work, (read_most, write_most) in itertools.product([*READERS, LOAD], SIZES):
        limits = {"READ_MOST": read_most, "WRITE_MOST": write_most}
        yield "few bytes at a time", fault_of(program, work, limits, ends(DONE, work.out))


def reads_that_fail(program):
    """The end of the input is told by one read more, of no bytes."""
    for work, (most, _) in itertools.product(READERS, SIZES):
        needed = -(-len(work.given) // most) + 1
        for reads in range(needed + 1):
            wanted = (ends(DONE, work.out) if reads == needed
                      else ends(DEVICE, work.answered(reads * most)))
            limits = {"READ_MOST": most, "READS": reads}
            yield "reads that fail", fault_of(program, work, limits, wanted)
    yield "a load reads nothing", fault_of(program, LOAD, {"READS": 0}, ends(DONE, LOAD.out))


def writes_that_fail(program):
    """Each byte is a write, and fails by an error, or by a write of no bytes."""
    for work, by in itertools.product([*READERS, LOAD], [{}, {"BY_ZERO": 1}]):
        for writes in range(len(work.out) + 1):
            status = DONE if writes == len(work.out) else DEVICE
            limits = {"READ_MOST": 9, "WRITE_MOST": 1, "WRITES": writes, **by}
            wanted = ends(status, work.out[:writes])
            yield "writes that fail", fault_of(program, work, limits, wanted)


def standard_error_fails(program):
    """The status still says that a device failed."""
    for limits, status in (({"READS": 0}, DEVICE), ({}, DONE)):
        out = SCRIPT.out if status == DONE else b""
        limits["ERROR_WRITES"] = 0
        yield "standard error fails", fault_of(program, SCRIPT, limits, (status, out, b""))


def judged(program):
    """A title and a fault, or none, of each run."""
    yield from in_pieces(program)
    yield from reads_that_fail(program)
    yield from writes_that_fail(program)
    yield from standard_error_fails(program)
