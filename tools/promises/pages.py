"""What the page PROMISES says of which call, and of which clause, and what the tool writes there:
the lines that name the clauses of each section's calls, and the laws of each crate."""
import functools
import os
import re
from dataclasses import dataclass, field
from typing import List, Tuple

from promises.contracts import ROOT, USED, Call, calls_named, calls_of, crates, is_law, laws_of
from wrong_bodies.sources import read

PAGE = "docs/PROMISES.md"
HEADING = re.compile(r"(#{1,6}) +(.*?) *$")
SPAN = re.compile(r"`([^`]+)`")
# A row of a table that begins with code.
ROW = re.compile(r"(`[^|]+)\|")
# What begins a line that the tool writes.
MADE = "*Clauses*"
# The heading of the table whose last column the tool writes.
CRATES = "By crate"
# The name of a call; and a call with some of its clauses.
NAME = re.compile(r"(?:\w+::)*[a-z]\w*")
CITED = re.compile(r"((?:\w+::)*[a-z]\w*): ([a-z_]\w*(?:, [a-z_]\w*)*)")
# Of more calls of a file that have the same clauses is said that they are all others.
MANY = 8


@dataclass(eq=False)
class Section:
    """A part of the page below a heading, with the types whose calls it is about."""

    line: int
    depth: int
    title: str
    owners: List[str]
    lines: List[Tuple[int, str]] = field(default_factory=list)


@dataclass
class Item:
    """What the page says of calls: the line, the heading above it, the word, and the names of
    clauses, none if all are meant."""

    line: int
    heading: str
    word: str
    clauses: List[str]
    calls: List[Call]

    def place(self):
        return f"{PAGE}:{self.line}"


def path_of_page():
    return os.path.join(ROOT, PAGE)


@functools.lru_cache(maxsize=None)
def sections():
    """The parts of the page, in their order."""
    found, above, in_code = [Section(0, 0, "", [])], [], False
    for number, line in enumerate(read(path_of_page()).split("\n"), 1):
        in_code = in_code != line.startswith("```")
        heading = None if in_code else HEADING.match(line)
        if heading:
            depth = len(heading[1])
            types = [it for it in SPAN.findall(heading[2]) if re.fullmatch(r"[A-Z]\w*", it)]
            above = types if depth < 3 else above
            found.append(Section(number, depth, heading[2], types or above))
        elif not in_code:
            found[-1].lines.append((number, line))
    return found


def rows(part):
    """The rows of the tables of a section that begin with code: the line, and the cells."""
    for number, line in part.lines:
        if ROW.match(line):
            yield number, [it.strip() for it in line.split("|")]


def heads(part):
    """The words that stand for calls in a section: in its heading, and in the first column of its
    tables."""
    if part.title == CRATES:
        return
    for number, text in [(part.line, part.title), *((at, cells[0]) for at, cells in rows(part))]:
        yield from ((number, it) for it in SPAN.findall(text) if NAME.fullmatch(it))


def meant(word, owners=()):
    """The calls that a word means: of these types, if they have it; of the crates that users call,
    if these do; public ones, if there are any."""
    own = [it for owner in owners for it in calls_named(f"{owner}::{word}")]
    found = (own if "::" not in word else []) or calls_named(word)
    found = [it for it in found if it.is_open] or found
    return [it for it in found if it.crate in USED] or found


@functools.lru_cache(maxsize=None)
def told_in(part):
    """The items of a section whose calls its heading or its tables name."""
    return [Item(at, part.title, word, [], meant(word, part.owners)) for at, word in heads(part)]


def names_of(call):
    """The names of its clauses."""
    return list(dict.fromkeys(it.name for it in call.clauses if it.name))


# ---- what the tool writes


def listed(titles, names, is_rest):
    """Calls with the names of the clauses that each of them has."""
    if len(titles) == 1:
        return f"`{': '.join([titles[0], *filter(None, [names])])}`"
    of = "all others" if is_rest else ", ".join(f"`{it}`" for it in titles)
    return f"{of}: `{names}`" if names else of


def clauses_of_file(path, calls):
    """The clauses of the calls of one file, those of calls that have the same ones once."""
    alike = {}
    for it in calls:
        alike.setdefault(", ".join(names_of(it)), []).append(it.title())
    told = sorted(alike.items(), key=lambda it: len(it[1]) > MANY)
    parts = [listed(of, names, len(of) > MANY and len(told) > 1) for names, of in told]
    return f"[{os.path.basename(path)}](../{path}) {'; '.join(parts)}"


def clauses_line(part):
    """The line that names the clauses of a section's calls; None if it has none."""
    calls = {(it.path, it.line): it for item in told_in(part) for it in item.calls}
    by_file = {}
    for (path, _), call in calls.items():
        by_file.setdefault(path, []).append(call)
    told = ". ".join(clauses_of_file(*it) for it in by_file.items())
    return f"{MADE}: {told}." if told else None


def laws_cell(cell):
    """The laws of the crates that a cell names."""
    named = [it for it in SPAN.findall(cell) if it in crates()]
    return ", ".join(f"`{it.name}`" for crate in named for it in laws_of(crate))


def wanted_lines():
    """Of each line that the tool writes, its number with what it has to be; 0 and the section where
    the line is missing."""
    for part in sections():
        if part.title == CRATES:
            for number, cells in rows(part):
                yield number, "| ".join([*cells[:-1], laws_cell(cells[0])]).rstrip(), part
            continue
        line, there = clauses_line(part), [at for at, it in part.lines if it.startswith(MADE)]
        if line or there:
            yield (there or [0])[0], line or "", part


def write():
    """Writes these lines into the page."""
    lines = read(path_of_page()).split("\n")
    for number, text, part in reversed(list(wanted_lines())):
        if number:
            lines[number - 1] = text
            continue
        end = max((at for at, it in part.lines if it.strip()), default=part.line)
        lines[end:end] = ["", text]
    with open(path_of_page(), "w", encoding="utf-8") as page:
        page.write("\n".join(lines))


# ---- what the page says


@functools.lru_cache(maxsize=None)
def items():
    """What the page says of calls, in its order: where it promises them, where it names some of
    their clauses, and in which row of the table of crates."""
    found = []
    for part in sections():
        found += told_in(part)
        found += cited_in(part)
        if part.title == CRATES:
            found += in_crates(part)
    return found


def cited_in(part):
    """The clauses that people named in a section, as `CALL: CLAUSE, CLAUSE`."""
    for number, line in part.lines:
        for span in SPAN.findall("" if line.startswith(MADE) else line):
            cited = CITED.fullmatch(span)
            if cited:
                names = cited[2].split(", ")
                calls = [it for it in meant(cited[1]) if {*names} <= {*names_of(it)}]
                yield Item(number, part.title, cited[1], names, calls)


def in_crates(part):
    """What the table of crates says of calls and of laws."""
    for number, cells in rows(part):
        of = [it for it in SPAN.findall(cells[0]) if it in crates()]
        for word in SPAN.findall(" ".join(cells[1:])):
            if NAME.fullmatch(word):
                calls = [it for crate in of for it in calls_of(crate) if is_named(it, word)]
                yield Item(number, part.title, word, [], calls)


def is_named(call, word):
    """Whether a word is the name of a call, perhaps with its type, and crates above can call it."""
    return call.is_open and word in (call.title(), call.name)


def items_of(call, clause=""):
    """What the page says of a call, or of one of its clauses."""
    return [
        it for it in items()
        if call in it.calls and (not clause or not it.clauses or clause in it.clauses)
    ]


def spans():
    """The words that stand as code in what people wrote, with their lines and sections."""
    for part in sections():
        for number, line in [(part.line, part.title), *part.lines]:
            if not line.startswith((MADE, "    ")):
                yield from ((part, number, span) for span in SPAN.findall(line))


def speaks_of(words):
    """Where the page has one of these words as code: the place, and the heading above it."""
    found = {}
    for part, number, span in spans():
        if span.partition(": ")[0] in words:
            found.setdefault(f"{PAGE}:{number}", part.title)
    return found


def places_of(call, clause=""):
    """Where the page speaks of a call, or of one of its clauses."""
    found = {it.place(): it.heading for it in items_of(call, clause)}
    if not clause:
        is_own = call.owner or call.name.startswith("mst_")
        found.update(speaks_of([call.title()]) if is_own else {})
    return dict(sorted(found.items(), key=lambda it: int(it[0].rpartition(":")[2])))


def tested(call, clause):
    """What the page says of tests in the line that promises a call, or a clause."""
    found, lines = [], read(path_of_page()).split("\n")
    for it in items_of(call, clause):
        told = re.split(r"(?<=[.;]) ", lines[it.line - 1])
        found += [one for one in told if re.search(r"\b[Tt]ested\b|_tests` ", one)]
    return list(dict.fromkeys(found))
