"""The definitions of `specs/`, as the files that contracts import them from have them."""
import collections
import functools
import os
import re

TOP = os.path.join(os.path.dirname(os.path.abspath(__file__)), "..", "crates")
USE = re.compile(r"^\s*(?:ghost |pub )?use Rattle\.([\w.]+?)(?:\.\{([^}]*)\}|\s+as\s+(\w+))?;?\s*$")
HEAD = re.compile(r"^(\s*)((?:(?:abbrev|unfoldable|pub|record|data) )*)([^\s:({=]+)( :)?")
NAME = re.compile(r"[A-Za-z_][\w']*(?:\.[A-Za-z_][\w']*)*")
BLOCK = re.compile(r"\s*(module|abbrev mutual|mutual|unfolding)\b")


def imports(lines):
    """Returns where each local name comes from: (module, its name there, or None for the module
    itself)."""
    found = {}
    for line in lines:
        use = USE.match(line)
        if not use:
            continue
        module, names, alias = use.groups()
        if names is None:
            found[alias or module.rsplit(".", 1)[-1]] = (module, None)
            continue
        for part in filter(None, (it.strip() for it in names.split(","))):
            there, _, here = part.partition(" as ")
            found[here or there] = (module, there)
    return found


class Module:
    """A file of `specs/`: its definitions, each with its lines of text, the number of its first
    line, and the comment above that."""

    def __init__(self, name):
        crate, _, rest = name.partition(".specs.")
        self.name, self.path = name, os.path.join(TOP, crate, "specs", *rest.split(".")) + ".antt"
        self.there = os.path.exists(self.path)
        self.names, self.texts = {}, collections.OrderedDict()
        self.places, self.said = {}, {}
        if self.there:
            with open(self.path, encoding="utf-8") as it:
                self.read(it.read().split("\n"))

    def read(self, lines):
        self.names = imports(lines)
        current, inside, above = None, None, []
        for number, line in enumerate(lines, 1):
            bare = line.split("--")[0].rstrip()
            if BLOCK.match(bare):
                current, inside = None, None
            if not bare or USE.match(line) or BLOCK.match(bare):
                is_comment = line.lstrip().startswith("--")
                above = [*above, line.strip()[2:].strip()] if is_comment else []
                continue
            depth = len(bare) - len(bare.lstrip())
            if inside is None or depth <= inside:
                head = HEAD.match(bare)
                if head and (head.group(2) or head.group(4)):
                    current = head.group(3)
                    inside = depth if re.search(r"\b(record|data) ", head.group(2)) else None
                    self.texts[current] = []
                    self.places[current], self.said[current] = number, " ".join(above)
            above = []
            if current:
                self.texts[current].append(bare)


@functools.lru_cache(maxsize=None)
def module(name):
    return Module(name)


def is_spec(name):
    """Whether a module is a file of `specs/` of this repository."""
    return re.match(r"mst(_\w+)?\.specs\.", name) is not None


def named(text, here, own=()):
    """The definitions that a text names, each as its module and its name: a module that is None is
    the text's own. `here` says where names come from, `own` has the names of its own module."""
    operators = [it for it in (*here, *own) if "◌" in it and it.strip("◌") in text]
    for word in NAME.findall(text) + operators:
        parts = word.split(".")
        if parts[0] in own:
            yield None, parts[0]
        elif parts[0] in here:
            where, name = here[parts[0]]
            name = name or (parts[1] if len(parts) > 1 else None)
            if name and is_spec(where):
                yield where, name


def home_of(where, name):
    """The module that has a definition, and its name there: that of a module, or one from which
    this hands the name on by `pub use`; None if there is none."""
    of = module(where)
    if of.there and name in of.texts:
        return of, name
    there, its_name = of.names.get(name, ("", None))
    return home_of(there, its_name) if its_name and is_spec(there) else None
