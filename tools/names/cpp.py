"""The names of headers in C++: what stands in namespaces but `detail`, and is public."""
import os
import re

from .page import Name, Part, first_paragraph
from .scanning import items, line_lines, unwrapped

# A head that names no new thing: copies, moves, ends, friends.
UNNAMED = re.compile(
    r"friend\b|.*=\s*delete$|.*\boperator=|~|.*=\s*default$|typename\b|static_assert"
)
# That of a type which is declared ahead, if nothing is behind it.
AHEAD = re.compile(r"(?:class|struct) \w+$")
KINDS = re.compile(
    r"(?:template\s*<.*?>\s*)?(class|struct|enum class|enum)\s+(?:\[\[.*?\]\]\s*)?(\w+)", re.DOTALL
)
CALLED = re.compile(r"(~?\w+|operator\s*[\w=!<>+*-]+)\s*\(")
VALUE = re.compile(r"(\w+)\s*(?:=.*|\[.*)?$", re.DOTALL)


def words_of(item):
    lines = line_lines(item.before, ["//"])
    return first_paragraph(lines or ([item.behind] if item.behind else []))


def without_start(head):
    """The head of a function without what its body begins with: the list of its members' values."""
    depth = 0
    for at, one in enumerate(head):
        depth += (one in "([{<") - (one in ")]}>" and head[at - 1] != "-")
        if one == ":" and depth == 0 and "::" not in head[max(0, at - 1) : at + 2]:
            return head[:at].rstrip()
    return head


def plain(head):
    """A head as a caller needs it, its further lines set as they are."""
    head = re.sub(r"^(?:inline|constexpr|static)\s+", "", unwrapped(head).strip())
    return without_start(head)


def indented_back(code, base):
    return code.replace("\n" + " " * base, "\n")


def named(item):
    """The title of what is declared."""
    if item.head.startswith("using "):
        return re.match(r"using (\w+)", item.head)[1]
    called = CALLED.search(re.sub(r"^template\s*<.*?>\s*", "", item.head, flags=re.DOTALL))
    if called:
        return called[1]
    return VALUE.search(item.head.strip())[1]


def enum_of(item, kind, title):
    """An enum, whose values are names within."""
    code = f"{unwrapped(item.head)} {{{unwrapped(item.body)}}};"
    return Name(title, re.sub(r"\s*\n\s*", " ", code), words_of(item))


def members(title, body, is_public):
    """The public members of a class or a struct of this title, without copies and moves."""
    found = []
    for item in items(body):
        if re.fullmatch(r"(?:public|private|protected):", item.head):
            is_public = item.head == "public:"
        elif is_public and is_named(item):
            if not re.match(rf"{title}\((?:const )?{title} ?&", item.head):
                found.append(one_of(item, "    "))
    return found


def one_of(item, indent=""):
    """The name that an item declares."""
    kind = KINDS.match(item.head)
    if kind and item.body is not None:
        title = kind[2]
        if kind[1].startswith("enum"):
            return enum_of(item, kind[1], title)
        within = members(title, item.body, kind[1] == "struct")
        return Name(title, plain_type(item.head), words_of(item), within)
    code = indented_back(plain(item.head), len(indent))
    return Name(named(item), code + ";", words_of(item))


def plain_type(head):
    return re.sub(r"\s+", " ", unwrapped(head)).strip() + ";"


def is_named(item):
    """Whether the item names a new thing."""
    is_ahead = item.body is None and AHEAD.match(item.head)
    return bool(item.head) and not UNNAMED.match(item.head) and not is_ahead


def names_in(text, outer=None):
    """The names of a namespace's text. Those of a namespace within another begin with its name."""
    found = []
    for item in items(text):
        space = re.fullmatch(r"(?:inline )?namespace (\w+)", item.head)
        if space:
            found += inner_names(space[1], item.body, outer) if space[1] != "detail" else []
        elif not item.head.startswith("#") and is_named(item):
            found.append(one_of(item))
    return together(found)


def inner_names(space, text, outer):
    """The names of a namespace that stands in another one, or in none."""
    names = names_in(text, space)
    for one in names if outer else []:
        one.title = f"{space}::{one.title}"
    return names


def together(names):
    """Overloads under one title."""
    kept = []
    for one in names:
        if kept and kept[-1].title == one.title and not one.within and not one.words:
            kept[-1].code += "\n" + one.code
        else:
            kept.append(one)
    return kept


def parts(path):
    with open(path, encoding="utf-8") as file:
        text = file.read()
    first = next(items(text))
    words = first_paragraph(line_lines(first.before, ["//"]))
    body = re.sub(r"(?m)^#[^\n]*(?:\\\n[^\n]*)*\n", "", text)
    return [Part(f"`{os.path.basename(path)}`", words, names_in(body))]
