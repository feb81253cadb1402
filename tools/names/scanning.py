"""Items of a source in C, C++ or Rust: what is declared at one level, with the comment before
it."""
import re
from dataclasses import dataclass
from typing import List, Optional

# What no bracket and no end is looked for in: comments, texts, characters.
SKIPPED = re.compile(
    r"//[^\n]*|/\*.*?\*/|\"(?:\\.|[^\"\\])*\"|'(?:\\.[^']*|[^'\\\n])'", re.DOTALL
)
COMMENT = re.compile(r"[ \t]*(?://([^\n]*)|/\*(.*?)\*/)", re.DOTALL)
OPEN, CLOSE = "([{", ")]}"


@dataclass
class Item:
    """What stands before the item (comments, as they are), its head, its body without the braces,
    if it has one, a comment behind it on its line, and whether a line is left out before it."""

    before: List[str]
    head: str
    body: Optional[str]
    behind: str = ""
    is_apart: bool = False


def end_of(text, at):
    """The place behind the bracket that closes the one at this place."""
    depth = 0
    while at < len(text):
        skipped = SKIPPED.match(text, at)
        if skipped:
            at = skipped.end()
            continue
        depth += (text[at] in OPEN) - (text[at] in CLOSE)
        at += 1
        if depth == 0:
            break
    return at


def head_end(text, at, labels):
    """The place of the `;` or `{` that ends a head, or behind the `:` of a label."""
    while at < len(text):
        skipped = SKIPPED.match(text, at)
        if skipped:
            at = skipped.end()
        elif text[at] in "([":
            at = end_of(text, at)
        elif text[at] in ";{},":
            if text[at] != "," or "," in labels:
                return at
            at += 1
        else:
            at += 1
    return at


def next_item(text, at, before, labels):
    """The item at a place, or None for an attribute, and the place behind it."""
    attribute = re.compile(r"#!?\[").match(text, at)
    if attribute:
        return None, end_of(text, attribute.end() - 1)
    line = re.compile(r"#(?:\\\n|/\*.*?\*/|[^\n])*", re.DOTALL).match(text, at)
    label = re.compile(r"(?:public|private|protected):").match(text, at)
    if line or label:
        found = line or label
        return Item(before, found[0], None), found.end()
    return item_at(text, at, before, labels)


def items(text, labels=""):
    """The items of a text, one after the other. With ',' in the labels a comma ends an item too."""
    at, before, is_apart = 0, [], False
    while True:
        space = re.compile(r"\s*").match(text, at)
        at = space.end()
        if space[0].count("\n") > 1:
            is_apart = True
            if before:
                yield Item(before, "", None)
            before = []
        if at >= len(text):
            break
        comment = COMMENT.match(text, at)
        if comment:
            before.append(comment[0].strip())
            at = comment.end()
            continue
        item, at = next_item(text, at, before, labels)
        if item:
            item.is_apart = is_apart
            yield item
            before, is_apart = [], False
    if before:
        yield Item(before, "", None)


def item_at(text, at, before, labels):
    """The item that begins at a place, and the place behind it."""
    end = head_end(text, at, labels)
    head, body = text[at:end].strip(), None
    if end < len(text) and text[end] == "{":
        after = end_of(text, end)
        body, end = text[end + 1 : after - 1], after
        rest = re.compile(r"\s*[;,]").match(text, end)
        if rest:
            end = rest.end()
    else:
        end += 1
    behind = re.compile(r"[ \t]*//([^\n]*)|[ \t]*/\*(.*?)\*/", re.DOTALL).match(text, end)
    said = ""
    if behind:
        said, end = (behind[1] or behind[2] or "").strip(), behind.end()
    return Item(before, head, body, said), end


def block_lines(comment):
    """The lines of a comment in /* */ without what frames it."""
    inner = re.sub(r"^/\*+|\*/$", "", comment.strip())
    lines = [re.sub(r"^\s*\* ?", "", line) if at else line.strip()
             for at, line in enumerate(inner.split("\n"))]
    return trimmed(lines)


def line_lines(comments, marks):
    """The lines of comments that begin with one of these marks; others are left out."""
    lines = []
    for it in comments:
        mark = next((one for one in marks if it.startswith(one)), None)
        if mark is not None:
            line = it[len(mark) :]
            lines.append(line[1:] if line.startswith(" ") else line)
    return trimmed(lines)


def trimmed(lines):
    lines = [line.rstrip() for line in lines]
    while lines and not lines[0]:
        lines.pop(0)
    while lines and not lines[-1]:
        lines.pop()
    return lines


def unwrapped(code):
    """A declaration without comments within, as it stands otherwise."""
    return re.sub(r"\n\s*\n", "\n", re.sub(r"[ \t]*//[^\n]*|/\*.*?\*/", "", code, flags=re.DOTALL))
