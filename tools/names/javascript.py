"""The exported names of a module of JavaScript, with their JSDoc."""
import os
import re

from .page import Name, Part, as_text, first_paragraph

DOCUMENTED = re.compile(r"/\*\*(.*?)\*/\n(?:export ([^\n]*))?", re.DOTALL)
EXPORTED = re.compile(r"(?:async )?(?:function|class|const|let) (\w+)")
TYPE = re.compile(r"@typedef (\{.*?\}) (\w+)(?: (.*))?$", re.DOTALL)
FIELD = r"/\*\*\s*((?:(?!\*/).)*?)\s*\*/\s*this\.(\w+)"


def lines_of(comment):
    lines = [re.sub(r"^\s*\*? ?", "", line) for line in comment.strip().split("\n")]
    return [line.rstrip() for line in lines]


def divided(lines):
    """The lines before the first tag, and the tags, a text each."""
    words, tags = [], []
    for line in lines:
        if line.startswith("@"):
            tags.append(line)
        elif tags:
            tags[-1] += " " + line.strip()
        else:
            words.append(line)
    return words, [it.strip() for it in tags]


def members(text, name):
    """What an instance of a class has, with its words."""
    body = re.search(rf"class {name} .*?\n}}", text, re.DOTALL)
    found = re.findall(FIELD, body[0], re.DOTALL) if body else []
    return [Name(it, it, as_text(words.replace("@readonly ", ""))) for words, it in found]


def parts(path):
    with open(path, encoding="utf-8") as file:
        text = file.read()
    whole, names = [], []
    for comment, head in DOCUMENTED.findall(text):
        words, tags = divided(lines_of(comment))
        if any(it.startswith("@module") for it in tags):
            whole = words
            continue
        kind = next(filter(None, map(TYPE.match, tags)), None)
        if head:
            name = EXPORTED.match(head)[1]
            names.append(Name(name, "export " + head.removesuffix("{").rstrip(),
                              first_paragraph(words), members(text, name)))
        elif kind and kind[1] != "{object}":
            names.append(
                Name(kind[2], f"type {kind[2]} = {kind[1][1:-1]}", as_text(kind[3] or "")))
    title = os.path.basename(path)
    return [Part(f"`{title}`", first_paragraph(whole), names)]
