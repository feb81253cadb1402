"""Cases of the program: what a run of it is given, and what it has to do.

A transcript is a text file of cases, in parts:

    == Rows of a pinned version are not used again
    $ mst run --rows 5 --passes 2
    < 1 put 61 31
    > none
    < 1 pin
    > pinned 1

    < 2 put 61 32
    > some 31

    ? 1 get 6
    ? 1 get 6g
    > fault L5

Each paragraph is a case. The lines right below a title are the beginning of each case of its part;
if nothing else is there, they are its one case. The first character says what a line is:

    $   the words of the command line, one behind each space; "" is a word of no bytes
    <   a line of standard input, which the program has to read to the end
    -   the same, of which the program has to read nothing
    ?   a line that ends standard input, in two cases: with a newline and without one
    >   a line of standard output
    !   a line of standard error; `! *` if any text may stand there, but not none
    =   the exit status, if it is not 0

Several lines with `$` or with `?` are as many cases. How those with `<` and with `>` stand among
each other does not matter. A line that ends in one backslash has no newline. The escapes are those
of Python: \\r, \\0, \\xff; a space at the end of a line or in a word is \\x20.

Braces: {a|b} stands for a and for b, and {08..12} for each of these numbers, so the line is there
once for each; {64*F0} is F0 64 times; below the line `let NAME text`, {NAME} is {text}. A line that
begins with # is a comment."""
import dataclasses
import os
import re

SIGNS = "$<-?>!="


@dataclasses.dataclass
class Case:
    """What the program is given, and what it has to do. If `is_read` is None, it does not matter
    how much is read, and if `err` is None, which error text is written."""

    place: str
    words: list
    given: bytes = b""
    is_read: bool = None
    status: int = 0
    out: bytes = b""
    err: bytes = b""


def choices(inner, names):
    """The texts for which braces round this stand."""
    inner = names.get(inner, inner)
    if repeated := re.fullmatch(r"(\d+)\*(.*)", inner):
        return [repeated[2] * int(repeated[1])]
    if ends := re.fullmatch(r"(\d+)\.\.(\d+)", inner):
        width = len(ends[1])
        return [f"{number:0{width}}" for number in range(int(ends[1]), int(ends[2]) + 1)]
    return inner.split("|")


def spread(text, names):
    """The texts for which a text with braces stands."""
    braces = re.search(r"\{([^{}]*)\}", text)
    if not braces:
        return [text]
    front, rest = text[: braces.start()], spread(text[braces.end() :], names)
    return [front + choice + end for choice in choices(braces[1], names) for end in rest]


def raw(text):
    """The bytes of a text with escapes."""
    return text.encode().decode("unicode_escape").encode("latin-1")


def raw_line(text):
    """The bytes of a line, with its newline if it has one."""
    has_none = (len(text) - len(text.rstrip("\\"))) % 2 == 1
    return raw(text[:-1]) if has_none else raw(text) + b"\n"


def inputs_of(lines):
    """Each standard input that the lines of a paragraph give."""
    first = b"".join(map(raw_line, lines["<"] + lines["-"]))
    if not lines["?"]:
        return [first]
    return [first + raw(text) + end for text in lines["?"] for end in (b"", b"\n") if text or end]


def cases_of(place, paragraph, names):
    """The cases for which a paragraph stands."""
    lines = {sign: [] for sign in SIGNS}
    for sign, text in paragraph:
        lines[sign] += spread(text, names)
    status = int((lines["="] or ["0"])[0])
    out = b"".join(map(raw_line, lines[">"]))
    err = None if lines["!"] == ["*"] else b"".join(map(raw_line, lines["!"]))
    is_read = False if lines["-"] else True
    if not lines["$"]:
        raise ValueError(f"{place}: no words")
    for text in lines["$"]:
        words = [raw(word.replace('""', "")) for word in text.split(" ")]
        for given in inputs_of(lines):
            yield Case(f"{place}: {text}", words, given, is_read, status, out, err)


def parts_of(path):
    """The parts of a transcript: of each its title, and its paragraphs, each with the number of its
    first line and with the sign and the text of each line; and what the names stand for."""
    names, parts, is_open = {}, [], False
    for number, line in enumerate(open(path).read().split("\n"), 1):
        sign, text = line[:1], line[2:]
        if line.startswith("== "):
            parts.append((text[1:], [(number, [])]))
            is_open = True
        elif line.startswith("let "):
            name, _, meant = line[4:].partition(" ")
            names[name] = "|".join(spread(meant, names))
        elif not line:
            is_open = False
        elif sign != "#":
            if sign not in SIGNS or line[1:2] not in ("", " ") or not parts:
                raise ValueError(f"{path}:{number}: no line of a transcript")
            if not is_open:
                parts[-1][1].append((number, []))
                is_open = True
            parts[-1][1][-1][1].append((sign, text))
    return parts, names


def read(path):
    """The cases of a transcript."""
    parts, names = parts_of(path)
    for title, ((number, beginning), *others) in parts:
        for number, own in others or [(number, [])]:
            place = f"{os.path.basename(path)}:{number}: {title}"
            yield from cases_of(place, beginning + own, names)
