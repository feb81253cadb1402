"""What a verdict depends on besides the text that is tried: what that text leads to, in its crate
and in those below.

A *part* is a function's clauses, a type with its models, a definition, or what a lemma states. A
text leads to the parts that it names, as the imports of its file tell whose they are, and each of
these leads on; so does a name that a crate hands on. An impl of a trait stands under its type, and
under its trait if that is of this repository. Names of methods have no import: one leads to each
method of that name."""
import collections
import functools
import glob
import hashlib
import os
import re

from kit import ROOT
from wrong_bodies.sources import WORD, blocks, is_inherent, named_in, read

ITEM = re.compile(
    r"(?:pub(?:\(\w+\))? )?(?:unsafe )?(?:extern \"C\" )?(fn|struct|enum|trait|impl|const|static|type)\b"
)
NAMED = re.compile(r"\b(?:fn|struct|enum|trait|const|static|type) (\w+)")
METHOD = re.compile(r"    (?:pub(?:\(\w+\))? )?(?:unsafe )?fn (\w+)")
FIELD = re.compile(r"(?m)^\s+(?:pub )?(\w+) :")
IMPORT = re.compile(r"(?m)^\s*(?:pub |ghost )*use Rattle\.(\w+)\.([\w.]+?)(?:\.\{(.*)\})?(?: as (\w+))?;?$")
CODE_IMPORT = re.compile(r"(?ms)^\s*(?:pub )?use (crate|super|mst_\w+)::([^;]*);")
HANDED_ON = re.compile(r"(?ms)^pub use (mst_\w+)::([^;]*);")
OUTSIDE = ("use ", "pub use ", "mod ", "pub mod ", "ghost use ", "#![")

# what follows the parameters of an impl: its trait, if it has one, and its type
OWNER = re.compile(
    r"(?:unsafe )?impl(?:<(?:[^<>]|<[^<>]*>)*>)? (?:([\w:]+).* for )?&?(?:'\w+ )?(\w+)"
)

# own: the name of the type that a part is, or of whose method it is
Part = collections.namedtuple("Part", "crate names kind own words made scope")


def hash_of(text):
    return hashlib.sha256(text.encode()).hexdigest()[:16]


def plain(text):
    """The words and signs of a text without comments, however it is laid out."""
    lines = (it for it in text.split("\n") if not it.lstrip().startswith(("//", "--")))
    return " ".join(re.findall(r"\w+|[^\w\s]", "\n".join(lines)))


# ---- what names stand for in a file


class Scope:
    """What the names in a file stand for: in a text in antt those of its module first."""

    def __init__(self, crate, module, text):
        self.crate, self.module, self.targets = crate, module, collections.defaultdict(set)
        for of, path, listed, alias in IMPORT.findall(text):
            self.add(of, path, listed, alias)
        for of, listed in CODE_IMPORT.findall(text):
            of = of if of.startswith("mst_") else crate
            for name, alias in re.findall(r"(\w+)(?: as (\w+))?", listed):
                self.targets[alias or name].add(("code", of, name))

    def add(self, of, path, listed, alias):
        steps = path.split(".")
        if steps[:2] in (["specs", "declared"], ["specs", "contracts"]):
            last = steps.index("TheVariants") - 1 if "TheVariants" in steps else len(steps) - 1
            names = [alias or steps[-1]] if not listed else names_of(listed).values()
            for it in names:
                self.targets[it].add(("code", of, steps[last]))
        elif listed:
            for name, own in names_of(listed).items():
                for part in pieces(own):
                    self.targets[part] |= {("definition", of, path, it) for it in pieces(name)}
        else:
            self.targets[alias or steps[-1]].add(("module", of, path))


def pieces(name):
    """A name, or the words of one with places for what it is applied to."""
    return [it for it in name.split("◌") if WORD.fullmatch(it)]


def names_of(listed):
    """The names of an import's list, each with what it is called here."""
    found = {}
    for it in listed.split(", "):
        name, _, alias = it.partition(" as ")
        found[name] = alias or name
    return found


# ---- the parts of one file


@functools.lru_cache(maxsize=None)
def traits():
    """The traits of this repository."""
    found = glob.glob(f"{ROOT}/crates/*/src/**/*.rt", recursive=True)
    return {it for path in found for it in re.findall(r"(?m)^(?:pub )?trait (\w+)", read(path))}


def items_of(text):
    """The items of code, each with all its lines."""
    found, lines = [], []
    for line in [*text.split("\n"), "fn"]:
        if ITEM.match(line):
            found.append("\n".join(lines))
            lines = []
        if not line.startswith(OUTSIDE):
            lines.append(line)
    return [it for it in found if ITEM.match(it)]


def methods_of(item):
    """The methods of an impl of no trait, each with the impl's head."""
    lines = item.split("\n")
    starts = [at for at, line in enumerate(lines) if METHOD.match(line)]
    head = lines[: starts[0]] if starts else lines
    for first, end in zip(starts, [*starts[1:], len(lines)]):
        yield METHOD.match(lines[first])[1], "\n".join([*head, *lines[first:end]])


def parts_of_code(text):
    """The parts of code without bodies: the names of each, its kind, and its text."""
    for item in items_of(text):
        kind = ITEM.match(item)[1]
        if kind == "fn":
            yield {NAMED.search(item)[1]}, "function", item
        elif kind != "impl":
            yield {NAMED.search(item)[1]}, "type", item
        elif is_inherent(item.split("{")[0] + "{"):
            for name, method in methods_of(item):
                yield {name}, "method", method
        else:
            # who names a trait of the kit, or of a bound, leads to no type that has it
            trait, own = OWNER.match(item).groups()
            yield {own, trait.split("::")[-1]} & ({own} | traits()), "type", item


def parts_of_definitions(text):
    """The parts of a text in antt: the names of each, its kind, and its text."""
    for name, block in blocks(text).items():
        names = {it for it in name.split("◌") if WORD.fullmatch(it)}
        if not names or name in ("mutual", "module"):
            names = named_in(block)
        yield names | set(FIELD.findall(block)), "definition", block


# ---- the parts of a crate


@functools.lru_cache(maxsize=None)
def parts_of(crate, is_own):
    """The parts of a crate, as it or a crate above can cite them, and what its code and each module
    of its definitions hand on from others."""
    from wrong_bodies.record import shown_code, shown_definitions

    found, handed = [], {}
    for path, text in shown_code(crate, is_own):
        scope = Scope(crate.name, None, read(path))
        for of, listed in HANDED_ON.findall(read(path)):
            for name, alias in re.findall(r"(\w+)(?: as (\w+))?", listed):
                handed.setdefault(("code", alias or name), []).append(("code", of, name))
        for names, kind, part in parts_of_code(text):
            found.append(part_of(crate, names, kind, part, scope))
    for path, text in shown_definitions(crate, is_own):
        module = os.path.relpath(path, crate.folder).removesuffix(".antt").replace(os.sep, ".")
        scope = Scope(crate.name, module, read(path))
        handed[module] = Scope(crate.name, module, "\n".join(re.findall(r"(?m)^pub use .*$", text)))
        for names, kind, part in parts_of_definitions(text):
            found.append(part_of(crate, names, kind, part, scope))
    return found, handed


def part_of(crate, names, kind, text, scope):
    made = hash_of(f"{crate.name} {kind} {plain(text)}")
    head = OWNER.match(text)
    own = head[2] if head else min(names)
    return Part(crate.name, names, kind, own, named_in(plain(text)), made, scope)


class Cited:
    """The parts of a crate and of those below, and which of them a text leads to."""

    def __init__(self, crate):
        self.types, self.called, self.defined = ({} for _ in range(3))
        self.methods, self.handed, self.next = ({} for _ in range(3))
        for it in [crate, *crate.below()]:
            parts, handed = parts_of(it, it.name == crate.name)
            self.handed.update({(it.name, module): scope for module, scope in handed.items()})
            for part in parts:
                self.place(part)

    def place(self, part):
        for name in part.names:
            if part.kind == "definition":
                key = (part.crate, part.scope.module, name)
                self.defined.setdefault(key, []).append(part)
            elif part.kind == "type":
                self.types.setdefault((part.crate, name), []).append(part)
            elif part.kind == "function":
                self.called.setdefault((part.crate, name), []).append(part)
            else:
                self.methods.setdefault(name, []).append(part)

    def definitions(self, crate, module, name):
        """The definitions of a name in a module, or what the module hands on by it."""
        found = list(self.defined.get((crate, module, name), ()))
        scope = self.handed.get((crate, module))
        for target in scope.targets.get(name, ()) if scope else ():
            found += self.named(target, {name}, False)
        return found

    def named(self, target, words, is_body):
        """The parts of what an import names."""
        kind, crate, *rest = target
        if kind == "definition":
            return self.definitions(crate, *rest)
        if kind == "module":
            return [it for word in words for it in self.definitions(crate, rest[0], word)]
        found = list(self.types.get((crate, rest[0]), ()))
        found += self.called.get((crate, rest[0]), ()) if is_body else []
        for other in self.handed.get((crate, ("code", rest[0])), ()):
            found += self.named(other, words, is_body)
        return found

    def led_to(self, words, scope, is_body):
        """The parts that words in a scope name; those of a body name functions too."""
        found = []
        for word in words:
            for target in scope.targets.get(word, ()):
                found += self.named(target, words, is_body)
            if scope.module:
                found += self.definitions(scope.crate, scope.module, word)
            else:
                found += self.types.get((scope.crate, word), ())
            if is_body:
                found += self.called.get((scope.crate, word), ())
        return found

    def behind(self, part):
        """The parts that a part leads to. It is worked out once: most parts stand behind many
        wrong bodies."""
        if id(part) not in self.next:
            self.next[id(part)] = self.led_to(part.words, part.scope, False)
        return self.next[id(part)]

    def reached(self, texts):
        """The hashes of all parts that texts lead to. With each text comes its scope, and whether
        it has bodies."""
        found, types, left, called = {}, set(), [], set()
        for text, scope, is_body in texts:
            words = named_in(plain(text))
            left += self.led_to(words, scope, is_body)
            called |= words if is_body else set()
        methods = [it for word in called for it in self.methods.get(word, ())]
        while left:
            while left:
                part = left.pop()
                if id(part) not in found:
                    found[id(part)] = part
                    if part.kind == "type":
                        types.add((part.crate, part.own))
                    left += self.behind(part)
            left = [it for it in methods if (it.crate, it.own) in types and id(it) not in found]
        return sorted({it.made for it in found.values()})
