"""The names of C headers."""
import os
import re

from .page import Name, Part, first_paragraph
from .scanning import block_lines, items

GROUP = re.compile(r"/\* ---- (.*?) ---- \*/", re.DOTALL)
MACRO = re.compile(r"#define (\w+)(\([^)]*\))?(?:[ \t]+(.*))?", re.DOTALL)
DECLARED = re.compile(r"\b(mst_\w+)\s*\(")
TYPE = re.compile(r"typedef struct \w+")
# What a header has for C++ and, in its place, for C.
BRANCHES = re.compile(
    r"#ifdef __cplusplus\n(?:(?!#endif|#else).*\n)*#else\n((?:(?!#endif).*\n)*)#endif\n"
)


def macro_of(item):
    """The title, the line and the words of a macro; None of what is no macro with a value."""
    found = MACRO.match(item.head)
    if not found or not found[3]:
        return None
    comment = re.search(r"/\*.*?\*/", found[3], re.DOTALL)
    value = re.sub(r"\s*\\\n\s*", " ", re.sub(r"/\*.*?\*/", "", found[3], flags=re.DOTALL)).strip()
    words = block_lines(comment[0]) if comment else []
    return found[1], f"#define {found[1]}{found[2] or ''} {value}", [it.strip() for it in words]


class Header:
    """The names of a header, as they are met."""

    def __init__(self, file):
        self.parts, self.file, self.seen, self.run = [], file, set(), None

    def part(self):
        return self.parts[-1]

    def begin(self, title, words):
        self.parts.append(Part(title, words))

    def add(self, title, code, words):
        if title in self.seen:
            return
        self.seen.add(title)
        self.part().names.append(Name(title, code, first_paragraph(words)))

    def say(self, words):
        """Words of no name: the first before the first name are the part's."""
        if not self.part().names and not self.part().words:
            self.part().words = first_paragraph(words)

    def add_macro(self, item, words):
        """Macros that follow each other under one comment are one name."""
        found = macro_of(item)
        if not found or found[0] in self.seen:
            return
        title, code, behind = found
        if words and behind:
            self.say(words)
        if words or behind or self.run is None or item.is_apart:
            self.add(title, code, behind or words)
            self.run = self.part().names[-1]
        else:
            self.seen.add(title)
            self.run.title += ", " + title
            self.run.code += "\n" + code

    def take(self, item):
        comments, words = [it for it in item.before if it.startswith("/*")], []
        for comment in comments:
            group = GROUP.fullmatch(comment)
            if group:
                self.begin(f"`{self.file}`: {' '.join(group[1].split())}", "")
            else:
                words = block_lines(comment)
        if item.head.startswith("#if"):
            return
        if not item.head:
            self.run = None
            if words:
                self.say(words)
        elif item.head.startswith("#"):
            self.add_macro(item, words)
        else:
            self.run = None
            self.add_declared(item, words)

    def add_declared(self, item, words):
        if TYPE.match(item.head):
            name = re.search(r"typedef struct (\w+)", item.head)[1]
            # one whose fields are the library's alone has no body
            fields = "" if item.body is None else f" {{{item.body}}} {name}"
            self.add(name, f"{item.head}{fields};", words)
            return
        found = DECLARED.search(item.head)
        if found:
            self.add(found[1], item.head + ";", words)
        elif item.head.startswith('extern "C"'):
            for one in items(item.body):
                self.take(one)


def parts(path):
    with open(path, encoding="utf-8") as file:
        text = file.read()
    header = Header(os.path.basename(path))
    header.begin(f"`{header.file}`", "")
    for item in items(BRANCHES.sub(r"\1", text)):
        header.take(item)
    return [it for it in header.parts if it.names or it.words]
