"""The calls of the crates with their contracts, as the sources have them."""
import functools
import glob
import os
import re
from dataclasses import dataclass, field
from typing import List

from specs import home_of, imports, named
from wrong_bodies.sources import HEAD, owner_of, read

ROOT = os.path.normpath(os.path.join(os.path.dirname(os.path.abspath(__file__)), "..", ".."))
# The crates whose calls users make.
USED = ["mst_store", "mst_shards", "mst_blocks", "mst_parts", "mst_snapshots", "mst_proof",
        "mst_sharded_proof", "mst_exports", "mst_verifier"]
# Crates that promise nothing: they call the others.
CALLERS = re.compile(r"mst_cookbook|mst_\w+_tests")
CLAUSE = re.compile(r"\s*(requires|ensures)\b(?: (\w+))? \{")
ITEM = re.compile(r"(?:pub(?:\(\w+\))? )?(?:unsafe )?(impl|trait)\b")
OPEN_TYPE = re.compile(r"(?m)^pub (?:struct|enum|trait) (\w+)")
# The trait of an impl.
IMPLS = re.compile(r"(\w+)(?:<.*>)? for (?!<)")


@dataclass
class Clause:
    """A clause: where it stands, whether it is asked or ensured, its name, its text, and the
    comment above it."""

    line: int
    kind: str
    name: str
    text: str
    said: str


@dataclass
class Call:
    """A function with its contract. It is open if crates above can call it by its own name."""

    crate: str
    path: str
    line: int
    owner: str
    name: str
    is_open: bool
    head: str = ""
    said: str = ""
    body: str = ""
    clauses: List[Clause] = field(default_factory=list)

    def title(self):
        return f"{self.owner}::{self.name}" if self.owner else self.name

    def named(self, *names):
        """Its clauses of these names, all if there is none."""
        return [it for it in self.clauses if not names or it.name in names]

    def definitions(self, clause):
        """The definitions that a clause names, each as the file that has it, and its name there."""
        scope = imports_of(self.path)
        homes = (home_of(*it) for it in dict.fromkeys(named(clause.text, scope)))
        return list(dict.fromkeys((it[0].name, it[1]) for it in homes if it))


@functools.lru_cache(maxsize=None)
def text_of(path):
    return read(os.path.join(ROOT, path))


@functools.lru_cache(maxsize=None)
def imports_of(path):
    return imports(text_of(path).split("\n"))


def above(lines, first, mark):
    """The comment above a line, with this mark at the beginning of its lines."""
    at = first
    while at and re.match(rf"\s*(?:#\[|{mark})", lines[at - 1]):
        at -= 1
    told = (it.strip() for it in lines[at:first])
    return [it[len(mark) :].removeprefix(" ") for it in told if it.startswith(mark)]


def clause_at(lines, at):
    """The clause that begins at a line, and the line behind it."""
    found, depth, end = CLAUSE.match(lines[at]), 0, at
    while True:
        depth += lines[end].count("{") - lines[end].count("}")
        end += 1
        if depth == 0 or end == len(lines):
            break
    first = lines[at][found.end() - 1 :]
    text = " ".join(" ".join([first, *lines[at + 1 : end]]).split()).removesuffix(";")
    said = " ".join(above(lines, at, "//"))
    return Clause(at + 1, found[1], found[2] or "", text[1:-1].strip(), said), end


def read_head(call, lines, first, indent):
    """Notes what stands between the head of a function and its body. Returns the line that opens
    the body, or None if it has none."""
    at, head = first, []
    while at < len(lines):
        if CLAUSE.match(lines[at]):
            clause, at = clause_at(lines, at)
            call.clauses.append(clause)
            if lines[at - 1].rstrip().endswith(";"):
                break
            continue
        line = lines[at].rstrip()
        is_outer = line.startswith(indent) and line[len(indent) : len(indent) + 1] not in ("", " ")
        if not call.clauses and not line.lstrip().startswith("//"):
            head.append(line.strip())
        at += 1
        if is_outer and line.endswith((";", "{", "{}")):
            break
    told = " ".join(head).removesuffix("{}").rstrip(" {;")
    call.head = re.sub(r"([(<]) | ,?(?=[)])|,(?= \))", r"\1", told).replace(",)", ")")
    ending = lines[at - 1].rstrip()
    return at - 1 if ending.endswith(("{", "{}")) and not CLAUSE.match(lines[at - 1]) else None


def body_of(lines, opening, indent):
    """The text of a body, laid out as one line."""
    if opening is None or lines[opening].rstrip().endswith("}"):
        return ""
    closing = f"{indent}}}"
    end = next((at for at in range(opening, len(lines)) if lines[at].rstrip() == closing), opening)
    return " ".join(" ".join(lines[opening + 1 : end]).split())


def calls_in(crate, path):
    """The functions of a file."""
    lines, owner, is_trait, trait = text_of(path).split("\n"), "", False, None
    for first, line in enumerate(lines):
        item = ITEM.match(line)
        if item:
            end = next((at for at in range(first, len(lines)) if "{" in lines[at]), first)
            text = " ".join(lines[first : end + 1])
            is_trait = item[1] == "trait" and line.startswith("pub ")
            trait = IMPLS.search(text.split("where")[0]) if item[1] == "impl" else None
            owner = owner_of(text).removesuffix(trait[1] if trait else "")
        head = HEAD.match(line)
        if head is None:
            continue
        own = owner if head[1] else ""
        is_open = bool(re.match(r" *pub (?!\()", line)) or bool(own and is_trait)
        call = Call(crate, path, first + 1, own, head[2], is_open and not (own and trait))
        opening = read_head(call, lines, first, head[1])
        call.said = first_sentence(above(lines, first, "///"))
        call.body = body_of(lines, opening, head[1])
        yield call


def first_sentence(lines):
    """The first sentence of a comment."""
    text = " ".join(" ".join(lines).split("  ")[0].split())
    found = re.match(r".*?[.](?=\s|$)", text)
    return found[0] if found else text


@functools.lru_cache(maxsize=None)
def calls_of(crate):
    """The functions of a crate. No crate above can call one of a type that is not public."""
    found = [it for path in sources_of(crate) for it in calls_in(crate, path)]
    types = {one for path in sources_of(crate) for one in OPEN_TYPE.findall(text_of(path))}
    for it in found:
        it.is_open = it.is_open and (not it.owner or it.owner in types)
    return found


def is_law(call):
    """Whether a function is a law, whose contract is all that it has."""
    return not call.body and call.head.endswith("()")


def laws_of(crate):
    """The laws of a crate that others can name."""
    return [it for it in calls_of(crate) if it.is_open and is_law(it)]


def sources_of(crate):
    files = glob.glob(f"{ROOT}/crates/{crate}/src/**/*.rt", recursive=True)
    return sorted(os.path.relpath(it, ROOT) for it in files)


@functools.lru_cache(maxsize=None)
def crates():
    """The crates that promise something, those that users call first."""
    folders = sorted(os.path.dirname(it) for it in glob.glob(f"{ROOT}/crates/*/src"))
    every = [os.path.basename(it) for it in folders]
    return USED + [it for it in every if it not in USED and not CALLERS.fullmatch(it)]


def every_call():
    return [it for crate in crates() for it in calls_of(crate)]


def calls_named(word, among=None):
    """The functions that a word names: `NAME`, `TYPE::NAME`, `CRATE::NAME` or
    `CRATE::TYPE::NAME`."""
    *before, name = word.split("::")
    crate = before.pop(0) if before and before[0] in crates() else None
    owner = before[0] if before else None
    return [
        it for it in (every_call() if among is None else among)
        if it.name == name and crate in (None, it.crate) and owner in (None, it.owner)
    ]
