"""The names of a crate of Rust: what its modules make public, with the public calls of types."""
import os
import re

from .page import Name, Part, first_paragraph
from .scanning import items, line_lines

ITEM = re.compile(r"pub (?:const )?(?:unsafe )?(fn|struct|enum|trait|const|static|type) (\w+)")
USED = re.compile(r"pub use (?:crate::|self::)?(\w+)::\s*(?:\{(.*)\}|(\w+))\s*$", re.DOTALL)
MODULE = re.compile(r"(pub )?mod (\w+)$")
IMPL = re.compile(r"impl(?:<.*?>)? (\w+)(?:<.*>)?$", re.DOTALL)


def plain(line):
    """A line without its links to names of the crate, of which there is no page."""
    line = re.sub(r"\[(`[^`]+`)\]\((?:crate|self|super)::[^)]*\)", r"\1", line)
    return re.sub(r"\[(`[^`]+`)\](?!\()", r"\1", line)


def words_of(item, mark="///"):
    """Words are Markdown already, but for links to names of the crate."""
    lines = line_lines([it for it in item.before if not it.startswith("////")], [mark])
    return first_paragraph(lines, plain)


def declared(head, base=0):
    return head.replace("\n" + " " * base, "\n")


class Module:
    """The public names of a module: its own, and those that it takes from its private modules."""

    def __init__(self, source, name, path, folder):
        self.source, self.name, self.folder = source, name, folder
        with open(path, encoding="utf-8") as file:
            self.text = file.read()
        self.items = [it for it in items(self.text) if not it.head.startswith("mod tests")]
        self.public, by_type = {}, calls(self.text)
        for item in self.items:
            found = ITEM.match(item.head)
            if found:
                self.public[found[2]] = (found[1], item, by_type.get(found[2], []))

    def file_of(self, name):
        for path in (f"{self.folder}/{name}.rs", f"{self.folder}/{name}/mod.rs"):
            if os.path.exists(path):
                return path
        return None

    def module(self, name):
        path = self.file_of(name)
        return Module(self.source, name, path, f"{self.folder}/{name}") if path else None

    def words(self):
        first = next((it for it in self.items if it.before), None)
        return words_of(first, "//!") if first else ""

    def exported(self):
        """Title, kind, item and public calls of each name that others can use."""
        found = []
        for item in self.items:
            name = ITEM.match(item.head)
            if name:
                found.append((name[2], *self.public[name[2]]))
            elif item.head.startswith("pub use"):
                found += self.taken(item)
        return found

    def taken(self, item):
        """What a `pub use` takes from a module."""
        whole = item.head + (" {" + item.body + "}" if item.body is not None else "")
        used = USED.match(whole)
        if not used:
            return []
        module = self.module(used[1])
        names = [it.split(" as ")[0].strip() for it in (used[2] or used[3]).split(",")]
        return [(it, *module.public[it]) for it in names if module and it in module.public]

    def modules(self):
        """This module, and the public ones within."""
        yield self
        for item in self.items:
            found = MODULE.match(item.head)
            if found and found[1] and item.body is None:
                module = self.module(found[2])
                if module:
                    yield from module.modules()


def calls(text):
    """The public calls of the impls in a file's text, by the names of their types: those of a type
    stand in its file."""
    found = {}
    for item in items(text):
        impl = IMPL.match(item.head)
        if not impl or item.body is None:
            continue
        for one in items(item.body):
            name = ITEM.match(one.head)
            if name:
                call = Name(name[2], declared(one.head, 4) + ";", words_of(one))
                found.setdefault(impl[1], []).append(call)
    return found


def variants(body):
    found = []
    for item in items(body, ","):
        name = re.match(r"\w+", item.head)
        if name:
            inner = f" {{{item.body}}}" if item.body is not None else ""
            found.append(Name(name[0], item.head + inner, words_of(item)))
    return found


def of_trait(body):
    found = []
    for item in items(body):
        name = re.match(r"(?:const |unsafe )*(?:fn|type|const) (\w+)", item.head)
        if name:
            found.append(Name(name[1], declared(item.head, 4) + ";", words_of(item)))
    return found


def fields(body):
    found = []
    for item in items(body, ","):
        name = re.match(r"pub (\w+)\s*:", item.head)
        if name:
            found.append(Name(name[1], item.head, words_of(item)))
    return found


WITHIN = {"enum": variants, "trait": of_trait, "struct": fields}


def name_of(title, kind, item, of_type):
    within = WITHIN[kind](item.body or "") if kind in WITHIN else []
    within += of_type
    ends = "" if item.head.endswith(")") and kind == "struct" else ";"
    return Name(title, declared(item.head) + (ends or ";"), words_of(item), within)


def parts(folder, crate):
    source = os.path.join(folder, "src")
    made = []
    for module in Module(source, crate, f"{source}/lib.rs", source).modules():
        title = crate if module.name == crate else f"{crate}::{module.name}"
        names = [name_of(*it) for it in module.exported()]
        made.append(Part(f"`{title}`", module.words(), names))
    return made
