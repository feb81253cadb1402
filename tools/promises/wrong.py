"""Which wrong bodies a clause refuses, by their first lines."""
import functools
import glob
import os
import re

from promises.contracts import ROOT, calls_of, crates
from wrong_bodies.sources import read

FIRST = "# refused by: "
# A call of a function, perhaps of a module or a type.
MADE = re.compile(r"(?<![.\w])(?:(\w+)::)?([a-z]\w*)(?:::<[^()]*>)?\(")
IMPORTED = re.compile(r"(?m)^use (crate|mst_\w+)(?:::\{?([^;]*))?;")


def pieces(said):
    """The clauses and the function of each part of a first line: `ok and err of Pass::put`, or
    `none of pair_of, and so of collide_in`."""
    clauses = []
    for part in said.split(", and so "):
        before, _, function = f" {part}".rpartition(" of ")
        clauses = re.split(r", | and ", before.strip()) if before.strip() else clauses
        found = re.match(r"(?:(\w+)::)?(\w+)", function)
        if found:
            yield clauses, found[1] or "", found[2]


@functools.lru_cache(maxsize=None)
def of_crate(crate):
    """The wrong bodies of a crate: each with its path, the files that it changes, and what refuses
    it."""
    found = []
    for folder in ("must-fail", "wrong-bodies"):
        for path in sorted(glob.glob(f"{ROOT}/crates/{crate}/{folder}/*.edit")):
            text = read(path)
            files = re.findall(r"(?m)^file: (\S+)", text)
            said = text.split("\n")[0].removeprefix(FIRST)
            found.append((os.path.relpath(path, ROOT), files, list(pieces(said))))
    return found


def is_of(call, owner, name, files):
    """Whether a first line that names a function means this call."""
    if name != call.name or (owner and not call.owner.startswith(owner)):
        return False
    alike = [it for it in calls_of(call.crate) if it.name == name]
    return bool(owner) or len(alike) == 1 or any(call.path.endswith(f"/{it}") for it in files)


def refused_by(call, clause):
    """The paths of the wrong bodies that a clause of a call refuses."""
    return [
        path for path, files, told in of_crate(call.crate)
        if any(clause in names and is_of(call, owner, name, files) for names, owner, name in told)
    ]


def made_calls(call):
    """The functions that the body of a call names as calls: of its file, of its crate or of a crate
    that the file imports. Methods of values have no such names."""
    used = IMPORTED.findall(read(os.path.join(ROOT, call.path)))
    among = [call.crate, *sorted({of for of, _ in used if of in crates()} - {call.crate})]
    every = [one for crate in among for one in calls_of(crate)]
    for module, name in dict.fromkeys(MADE.findall(call.body)):
        alike = [it for it in every if it.name == name and it is not call]
        if module:
            file = f"/{module}.rt"
            yield from (it for it in alike if it.owner == module or it.path.endswith(file))
            continue
        free = [it for it in alike if not it.owner]
        own = [it for it in free if it.path == call.path]
        yield from own or [it for it in free if it.crate == call.crate] or free


def behind(call, clause):
    """The wrong bodies that a clause of the same name refuses of what a call calls, and of what
    that calls, each with this function."""
    left, seen = [call], {call.path + call.name, *refused_by(call, clause)}
    while left:
        for it in made_calls(left.pop()):
            if it.named(clause) and it.path + it.name not in seen:
                seen.add(it.path + it.name)
                left.append(it)
                found = [one for one in refused_by(it, clause) if one not in seen]
                seen.update(found)
                yield from ((it, one) for one in found)
