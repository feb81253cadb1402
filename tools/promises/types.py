"""The types of the crates: what contracts see of them, and what always holds of them."""
import re

from promises.contracts import above, crates, first_sentence, imports_of, sources_of, text_of
from specs import home_of, named

MODEL = re.compile(r"ghost (view|invariant|also_owns|took) = \{")


def declared(name, of=""):
    """Where crates, or one of them, declare a type or a trait of this name: the crate, the file,
    the line, and what the source says of it."""
    head = re.compile(rf"(?:pub(?:\(\w+\))? )?(?:struct|enum|trait) {name}\b")
    for crate in crates():
        for path in sources_of(crate) if of in ("", crate) else ():
            lines = text_of(path).split("\n")
            for at, line in enumerate(lines):
                if head.match(line):
                    yield crate, path, at + 1, first_sentence(above(lines, at, "///"))


def braced(text, start):
    """The text between a brace at this place and the one that closes it."""
    depth = 0
    for at in range(start, len(text)):
        depth += (text[at] == "{") - (text[at] == "}")
        if depth == 0:
            return " ".join(text[start + 1 : at].split())
    return ""


def stated(path, name):
    """What a file states of a type beside its calls: the line, what it is (a view, an invariant),
    its text and the definitions that it names."""
    text = text_of(path)
    for impl in re.finditer(rf"(?m)^(?:unsafe )?impl\b[^{{]* for {name}\b[^{{]*\{{", text):
        block = text[impl.start() : text.find("\n}", impl.end())]
        for found in MODEL.finditer(block):
            told = braced(block, found.end() - 1)
            homes = (home_of(*it) for it in dict.fromkeys(named(told, imports_of(path))))
            line = text[: impl.start() + found.start()].count("\n") + 1
            yield line, found[1], told, [(it[0].name, it[1]) for it in homes if it]
