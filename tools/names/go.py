"""The exported names of a package of Go, as gofmt sets them: a declaration begins a line, and ends
with that line or with one that begins with its closing bracket."""
import glob
import re

from .page import Name, Part, first_paragraph

METHOD = re.compile(r"func \(\w* ?\*?(\w+)(?:\[.*?\])?\) ([A-Z]\w*)\(")
DECLARED = re.compile(r"(?:func|type|var|const) ([A-Z]\w*)")
GROUPED = re.compile(r"(var|const|type) \($")
IN_GROUP = re.compile(r"\t([A-Z]\w*)\b")


def declarations(text):
    """The comment before each declaration, and its lines."""
    words, lines = [], iter(text.split("\n"))
    for line in lines:
        if line.startswith("//"):
            words.append(line[2:].removeprefix(" "))
            continue
        if re.match(r"(?:func|type|var|const|package)\b", line):
            taken = [line]
            while taken[-1][-1:] in "{(" and not taken[-1][:1] in ")}":
                taken.append(next(lines))
                while taken[-1][:1] not in (")", "}"):
                    taken.append(next(lines))
            yield words, taken
        words = []


def head_of(lines):
    """A function without its body; a type as it stands, but for what is not exported."""
    if lines[0].startswith("func"):
        end = next(at for at, line in enumerate(lines) if line.endswith("{") or line.endswith("}"))
        return re.sub(r"\s*\{[^{]*$", "", "\n".join(lines[: end + 1]))
    seen = [it for it in lines if not hidden(it)]
    return "\n".join(seen) if len(seen) != 2 else seen[0].removesuffix(" {")


def hidden(line):
    return bool(re.match(r"\t(?:[a-z_]\w*(?:, [a-z]\w*)*\s|//)", line))


def grouped(kind, lines, words):
    """The names of a group, each with its own comment; those with none share that of the group."""
    names, said = [], []
    for line in lines[1:-1]:
        if line.startswith("\t//"):
            said.append(line[3:].removeprefix(" "))
            continue
        found = IN_GROUP.match(line)
        if found and (said or not names or names[-1][2]):
            names.append([found[1], f"{kind} {squeezed(line)}", said])
        elif found:
            names[-1][0] += ", " + found[1]
            names[-1][1] += f"\n{kind} {squeezed(line)}"
        said = []
    return [Name(title, code, first_paragraph(own or words)) for title, code, own in names]


def squeezed(line):
    return re.sub(r" {2,}", " ", line.strip())


def parts(folder, package):
    words, names, methods = [], [], []
    for path in sorted(glob.glob(f"{folder}/*.go")):
        if path.endswith("_test.go"):
            continue
        with open(path, encoding="utf-8") as file:
            text = file.read()
        for said, lines in declarations(text):
            group, method = GROUPED.match(lines[0]), METHOD.match(lines[0])
            found = DECLARED.match(lines[0])
            if lines[0].startswith("package"):
                words = words or said
            elif group:
                names += grouped(group[1], lines, said)
            elif method:
                methods.append((method[1], Name(method[2], head_of(lines), first_paragraph(said))))
            elif found:
                names.append(Name(found[1], head_of(lines), first_paragraph(said)))
    types = {it.title: it for it in names}
    for of, method in methods:
        if of in types:
            types[of].within.append(method)
    return [Part(f"`{package}`", first_paragraph(words), names)]
