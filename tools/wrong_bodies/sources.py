"""The functions and definitions of a crate's files, as far as the layout of `rt fmt` shows them."""
import collections
import glob
import os
import re

HEAD = re.compile(r"( *)(?:pub(?:\([a-z]+\))? )?(?:unsafe )?(?:const )?(?:extern \"C\" )?fn (\w+)")
CYCLE = re.compile(r"#\[cycle\((\w+)\)\]")
WORD = re.compile(r"[^\W\d]\w*")
CALL = re.compile(r"(\w+)(?:::<[^()]*>)?\(")
DEFINITION = re.compile(r"(?:(?:pub|abbrev|opaque|unfoldable|data|record) )*([^\s:(){},]+)")


class Function:
    """A function's place in a file: the lines of its head, which has its clauses, and of its
    body."""

    def __init__(self, path, owner, name, cycle, lines):
        self.path, self.owner, self.name, self.cycle = path, owner, name, cycle
        self.first, self.opening, self.end = lines

    def key(self):
        """What stands for the function among those that cannot share a check: functions that call
        one another have one proof."""
        return (self.path, self.cycle) if self.cycle else (self.path, self.owner, self.name)


def owner_of(text):
    """Returns the name under which proofs/ has the last impl or trait of a text."""
    heads = re.findall(r"(?m)^(?:pub )?(impl|trait)\b([^{]*)\{", text)
    if not heads:
        return ""
    kind, head = heads[-1]
    head = re.sub(r"(?s)\bwhere\b.*", "", head)
    while re.search(r"<[^<>]*>", head):
        head = re.sub(r"<[^<>]*>", "", head)
    found = re.match(r"(?:.*?(\w+)\s+for\s+)?&?\s*(?:mut )?([\w:]+)", head.strip())
    if kind == "trait":
        return found[2].split(":")[0]
    return found[2].split("::")[-1] + (found[1] or "")


def is_inherent(text):
    """Whether the last impl or trait of a text is an impl of no trait."""
    heads = re.findall(r"(?m)^(?:pub )?(impl|trait)\b([^{]*)\{", text)
    kind, head = heads[-1] if heads else ("", "")
    return kind == "impl" and not re.search(r"\bfor (?!<)", re.sub(r"(?s)\bwhere\b.*", "", head))


def opening_of(lines, first, indent):
    """The line that opens the body of the function whose head begins at `first`, or None if it
    has no body."""
    for at in range(first, len(lines)):
        line = lines[at].rstrip()
        if line.startswith(indent) and line[len(indent) : len(indent) + 1] not in ("", " "):
            if line.endswith(("{", "{}")):
                return at
            if line.endswith(";"):
                return None
    return None


def above(lines, first):
    """The attributes and docstrings right above a line."""
    at = first
    while at and lines[at - 1].lstrip().startswith(("#[", "///")):
        at -= 1
    return "\n".join(lines[at:first])


def functions_of(path, text):
    """The functions of a file, in their order."""
    lines, found = text.split("\n"), []
    for first, line in enumerate(lines):
        head = HEAD.match(line)
        opening = opening_of(lines, first, head[1]) if head else None
        if opening is None:
            continue
        closing = f"{head[1]}}}"
        ends = (at for at in range(opening, len(lines)) if lines[at].rstrip() == closing)
        is_short = lines[opening].rstrip().endswith("}")
        end = opening if is_short else next(ends, len(lines) - 1)
        cycle = CYCLE.search(above(lines, first))
        owner = owner_of("\n".join(lines[:first])) if head[1] else ""
        function = (path, owner, head[2], cycle and cycle[1], (first, opening, end))
        found.append(Function(*function))
    return found


def read(path):
    with open(path, encoding="utf-8") as file:
        return file.read()


def blocks(text):
    """The definitions of a text in antt, each with the lines from its first one on."""
    found, name = collections.defaultdict(list), ""
    for line in text.split("\n"):
        if line and not line[0].isspace() and not line.startswith(("--", "use ", "pub use ", "}")):
            head = DEFINITION.match(line)
            name = head[1] if head else name
        found[name].append(line)
    return {it: "\n".join(lines) for it, lines in found.items() if it}


def outside(text, functions):
    """The text of a file without its functions."""
    lines = text.split("\n")
    for it in functions:
        lines[it.first : it.end + 1] = [""] * (it.end + 1 - it.first)
    return "\n".join(lines)


def named_in(text):
    return set(WORD.findall(text))


class Sources:
    """The text of a crate: its functions, and which names lead from which to which."""

    def __init__(self, folder):
        self.folder = folder
        self.texts = {os.path.relpath(it, folder): read(it) for it in self.files("src", "rt")}
        self.functions = [
            it for path, text in self.texts.items() for it in functions_of(path, text)
        ]
        self.leads = collections.defaultdict(set)
        for part in ("specs", "proofs"):
            for file in self.files(part, "antt"):
                self.add_definitions(read(file))
        for path, text in self.texts.items():
            self.add_types(text, [it for it in self.functions if it.path == path])

    def files(self, part, ending):
        return sorted(glob.glob(f"{self.folder}/{part}/**/*.{ending}", recursive=True))

    def add_definitions(self, text):
        for name, block in blocks(text).items():
            for part in filter(None, name.split("◌")):
                self.leads[part] |= named_in(block)

    def add_types(self, text, functions):
        """What a type's models and invariants name, under the type's name."""
        rest = outside(text, functions)
        for name in re.findall(r"(?m)^(?:pub(?:\([a-z]+\))? )?(?:struct|enum|trait) (\w+)", rest):
            parts = re.findall(rf"(?ms)^impl\b[^{{\n]*\b{name}\b.*?^}}", rest)
            self.leads[name] |= named_in("\n".join(parts))

    def text_of(self, function):
        lines = self.texts[function.path].split("\n")
        return "\n".join(lines[function.first : function.end + 1])

    def proofs_of(self, function):
        """The texts of the files that answer a function's goals."""
        module = re.sub(r"^src/|(/mod)?\.rt$", "", function.path)
        module = "" if module in ("lib", "main") else f"{module}/"
        owner = f"{function.owner}/" if function.owner else ""
        # one that calls itself is a cycle of its own name
        last = [f"+{function.cycle}"] if function.cycle else [function.name, f"+{function.name}"]
        found = []
        for folder in (f"{module}{owner}", owner, f"**/{owner}"):
            for it in last:
                at = f"{self.folder}/proofs/{folder}{it}/*.antt"
                found = found or glob.glob(at, recursive=True)
        return "\n".join(map(read, found))

    def called_by(self, function):
        """The names of what a function calls."""
        return set(CALL.findall(self.text_of(function))) - {function.name}

    def reached_from(self, function):
        """All names that a function's text, clauses and proof lead to."""
        left = named_in(self.text_of(function)) | named_in(self.proofs_of(function))
        found = set()
        while left:
            found |= left
            left = {it for name in left for it in self.leads.get(name, ())} - found
        return found
