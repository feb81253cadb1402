"""A wrong body: the lines that it changes, the functions whose goals judge it, and what else its
change may touch."""
import difflib
import glob
import os
import re

from kit import rt
from wrong_bodies.sources import blocks, functions_of, read

SAYS = re.compile(r"# refused by: .+? of (.+)")
NAMED = re.compile(r"(?:(\w+)::)?(\w+)")
ITEM = re.compile(r"(?:pub(?:\([a-z]+\))? )?(?:const|static|type|struct|enum|trait) (\w+)")


def paths_of(crate):
    """The wrong bodies of a crate: those that the gate tries, and after them the others."""
    return rt.edits_of(crate)[0] + sorted(glob.glob(f"{crate.folder}/wrong-bodies/*.edit"))


def hunks_between(old, new):
    """The lines that differ: (first, end, lines in their place), in the old text's numbers."""
    old, new = old.split("\n"), new.split("\n")
    codes = difflib.SequenceMatcher(None, old, new, autojunk=False).get_opcodes()
    return [(a, b, new[c:d]) for tag, a, b, c, d in codes if tag != "equal"]


class Edit:
    """A wrong body as it is tried with others.

    judges: the functions whose goals refuse it. bodies: those whose bodies it changes. changes:
    the names of what it changes besides: definitions, clauses, constants. It is tried by itself if
    it says no judge."""

    def __init__(self, path, sources):
        self.path, self.name = path, os.path.basename(path)
        self.texts, self.why = rt.read_edit(path, sources.folder)
        self.hunks, self.judges, self.bodies, self.changes = {}, [], [], set()
        self.nameless = False
        if self.why:
            return
        for file, text in self.texts.items():
            old = read(f"{sources.folder}/{file}")
            self.hunks[file] = hunks_between(old, text)
            for first, end, _ in self.hunks[file]:
                self.place(file, old, first, end)
        said = SAYS.match(read(path))
        wider = self.changes or not self.bodies
        named = functions_named(said[1], sources.functions) if said and wider else []
        self.judges = self.bodies + [it for it in named if it not in self.bodies]

    def place(self, file, old, first, end):
        """Notes what the lines from `first` up to `end` belong to."""
        if not file.endswith(".rt"):
            self.changes |= {part for it in owners(old, first, end) for part in it.split("◌")}
            return
        last = max(first, end - 1)
        around = [it for it in functions_of(file, old) if it.first <= first and last <= it.end]
        if not around:
            named = [it for it in map(ITEM.match, old.split("\n")[first:end]) if it]
            self.changes |= {it[1] for it in named}
            self.nameless = self.nameless or not named
            return
        function = around[-1]
        if function not in self.bodies and not any(same(function, it) for it in self.bodies):
            self.bodies.append(function)
        if first <= function.opening and function.opening > function.first:
            self.changes.add(function.name)

    def is_alone(self):
        """Whether nothing says which functions judge it, or what else it touches."""
        return self.nameless or not self.judges


def same(one, other):
    return (one.path, one.first) == (other.path, other.first)


def owners(old, first, end):
    """The definitions of a text in antt over which these lines lie."""
    lines = old.split("\n")
    found = blocks("\n".join(lines[: max(end, first + 1)]))
    before = blocks("\n".join(lines[:first]))
    touched = [it for it, text in found.items() if before.get(it) != text]
    return touched or list(found)[-1:]


def functions_named(said, functions):
    """The functions that an edit's first line names as those that refuse it."""
    found = []
    for owner, name in NAMED.findall(said):
        found += [
            it for it in functions
            if it.name == name and (not owner or it.owner.startswith(owner)) and it not in found
        ]
    return found
