"""Names with their words, and the page that they make in Markdown."""
import re
from dataclasses import dataclass, field
from typing import List

# What may be code: a word with what stands between the parts of a path or a name.
WORD = re.compile(r"(?<![\w&])\*?[A-Za-z](?:[\w./:-]*\w)?(?:\(\))?")
SPANS = re.compile(r"(`[^`]*`)")
# As far as a full stop with a space behind it, outside of code.
SENTENCE = re.compile(r"(?:`[^`]*`|[^`.]|\.(?! ))+\.(?= |$)")


@dataclass
class Name:
    """A name, or several with the same words: what they are called, how they are declared, the
    first paragraph of what the source says of them, and the names within."""

    title: str
    code: str
    words: str
    within: List["Name"] = field(default_factory=list)


@dataclass
class Part:
    """A part of a page: its title, the first paragraph before the names, and the names."""

    title: str
    words: str
    names: List[Name] = field(default_factory=list)


def is_code(word):
    """Whether a word is a name of the code: with an underscore or a `::`, a call, or what a pointer
    points to."""
    return "_" in word or "::" in word or word.endswith("()") or word.startswith("*")


def as_text(line):
    """A line of plain text as Markdown has it."""
    out = []
    for at, span in enumerate(SPANS.split(line)):
        if at % 2 == 1:
            out.append(span)
            continue
        last = 0
        for found in filter(lambda it: is_code(it[0]), WORD.finditer(span)):
            out += [escaped(span[last : found.start()]), f"`{found[0]}`"]
            last = found.end()
        out.append(escaped(span[last:]))
    return "".join(out)


def escaped(text):
    return re.sub(r"<(?=[\w/!])", "&lt;", text.replace("*", "\\*").replace("[", "\\["))


def kind_of(line, before):
    """Whether a line is blank, an item of a list (also its further lines), code, or text."""
    if not line.strip():
        return "blank"
    if line.lstrip().startswith("- ") and not line.startswith("    "):
        return "item"
    if before == "item":
        return "item"
    return "code" if line.startswith(("    ", "\t", "```")) else "text"


def first_paragraph(lines, markdown=as_text):
    """The first paragraph of what a source says, in one line."""
    found, before = [], "blank"
    for line in lines:
        before = kind_of(line, before)
        if before == "text":
            found.append(markdown(line.strip()))
        elif found:
            break
    return " ".join(found)


def first_sentence(text):
    found = SENTENCE.match(text)
    return found[0] if found else text


def declared(name):
    """A declaration in one line, without the body of a type; of several names the names."""
    if ", " in name.title:
        return ", ".join(f"`{it}`" for it in name.title.split(", "))
    head = " ".join(name.code.split("{")[0].split()).removesuffix(";").removesuffix(" =")
    return f"`{head or name.title}`"


def shown(name, indent=""):
    """The lines of a name: an item of a list, and below it the names within."""
    said = first_sentence(name.words)
    lines = [f"{indent}- {declared(name)}" + (f": {said}" if said else "")]
    for one in name.within:
        lines += shown(one, indent + "  ")
    return lines


def page(parts):
    """The parts of a language, one after the other."""
    lines = []
    for part in parts:
        said = first_sentence(part.words)
        lines += [f"### {part.title}", "", *([said, ""] if said else [])]
        for name in part.names:
            lines += shown(name)
        lines.append("")
    return lines


def counted(names):
    """How many names there are, with those within."""
    return sum(len(it.title.split(", ")) + counted(it.within) for it in names)
