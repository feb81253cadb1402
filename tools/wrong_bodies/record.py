"""The record of which wrong bodies were tried, and on which text.

tests/wrong_bodies.tsv has a line for each: its crate, its name, with which kit it was refused, and
a hash of what its verdict depends on. That is its own text; the functions whose goals judge it,
with their answers; and of its crate and of each crate below what these lead to
(`wrong_bodies/cited.py`): clauses of functions without their bodies, types with their models,
definitions, and what lemmas state. If nothing says what judges it, it is the whole text of its
crate, and what that leads to. Comments, and how lines are broken, count for nothing."""
import contextlib
import fcntl
import functools
import glob
import hashlib
import multiprocessing
import os
import re
import subprocess

from kit import ROOT
from wrong_bodies.cited import Cited, Scope
from wrong_bodies.edits import Edit, paths_of
from wrong_bodies.sources import Sources, functions_of, is_inherent, read

RECORD = "tests/wrong_bodies.tsv"
HEAD = "crate\twrong body\tkit\thash"
OF_ALL = []  # the crates whose hashes are worked out side by side
OPENED = {"abbrev", "unfoldable", "data", "record", "use", "mod", "syntax"}


def files(folder, part, ending):
    return sorted(glob.glob(f"{folder}/{part}/**/*.{ending}", recursive=True))


def bare(text, mark):
    """The words and signs of a text without the lines that are comments, however it is laid out."""
    lines = (it for it in text.split("\n") if not it.lstrip().startswith(mark))
    return " ".join(re.findall(r"\w+|[^\w\s]", "\n".join(lines)))


def without_bodies(text):
    """Code without the bodies of its functions."""
    lines = text.split("\n")
    for it in functions_of("", text):
        lines[it.opening + 1 : it.end] = [""] * max(it.end - it.opening - 1, 0)
    return "\n".join(lines)


def is_hidden(before, line):
    """Whether no crate above can name a function: one of a module, or a method of an `impl` of no
    trait, that is not public."""
    if line.lstrip().startswith("pub "):
        return False
    return not line.startswith(" ") or is_inherent(before)


def is_seen(field, words):
    """Whether crates above see a field of a type with a model of these words."""
    *before, name = field.split(":")[0].split() or [""]
    return "pub" in before or name in words


def without_unseen(text):
    """Code without the fields of types with a model that neither are public nor stand in the model:
    of such a value crates above know the model's value alone."""

    def seen(struct):
        models = re.findall(rf"(?ms)^impl\b[^{{]* Model for {struct[2]}\b.*?^\}}", text)
        words = {*re.findall(r"\w+", "\n".join(models))}
        fields = re.split(r"(?m)^(?=    (?:pub |ghost )*\w+:)", struct[3])
        kept = [it for it in fields if not models or is_seen(it, words)]
        return struct[1] + "".join(kept) + "}"

    return re.sub(r"(?ms)^((?:pub )?struct (\w+)\b[^;{]*\{\n)(.*?)^\}", seen, text)


def without_hidden(text):
    """Code without what crates above cannot name: functions that are not public, fields that they
    do not see, and imports. Nor can they tell a field of the crate from one of its module."""
    text = without_unseen(re.sub(r"(?m)^ *//.*\n", "", text.replace("pub(crate) ", "")))
    lines = text.split("\n")
    for it in functions_of("", text):
        first = it.first
        if is_hidden("\n".join(lines[:first]), lines[first]):
            while first and lines[first - 1].lstrip().startswith(("#[", "//")):
                first -= 1
            lines[first : it.end + 1] = [""] * (it.end + 1 - first)
    return re.sub(r"(?ms)^use .*?;$", "", "\n".join(lines))


def without_idle(text):
    """Code without those names of its imports for clauses that no line of it uses."""
    lines, used = [], "\n".join(it for it in text.split("\n") if "ghost use " not in it)
    for line in text.split("\n"):
        listed = re.match(r"( *ghost use .*\{)(.*)\};$", line)
        names = listed[2].split(", ") if listed else [line.removesuffix(";").split(" as ")[-1]]
        names = [it for it in names if all(part in used for part in it.split(" as ")[-1].split("◌"))]
        if listed and names:
            lines.append(f"{listed[1]}{', '.join(names)}}};")
        elif names or "ghost use " not in line:
            lines.append(line)
    return "\n".join(lines)


def stated(text, is_own):
    """What lemmas state, only those that other crates see unless it is their own: a text in antt
    without the equations of what cannot be unfolded."""
    kept, opened, is_kept = [], set(), True
    for line in text.split("\n"):
        if line and not line[0].isspace() and line[0] not in "})|":
            name = line.split()[-1] if line.startswith("mod ") else line.split()[0]
            words = line.split(" : ")[0].split()
            if OPENED & {*words}:
                opened.add(words[-1])
                is_kept = True
            else:
                is_seen = is_own or words[0] in ("pub", "module", "mutual")
                is_kept = is_seen and " : " in line.split(" = ")[0] or name in opened
        if is_kept:
            kept.append(line)
    return "\n".join(kept)


def lemma_files(folder):
    """The files of lemmas: those of proofs/ in whose folder no function's answers stand."""
    answers = ("Answers.antt", "Invariants.antt", "Proof.antt")
    return [it for it in files(folder, "proofs", "antt") if not it.endswith(answers)]


def own_modules(folder):
    """The modules of proofs/ that no crate above can import: those that Lib.antt has without
    `pub`."""
    path = f"{folder}/proofs/Lib.antt"
    return re.findall(r"(?m)^mod (\w+)$", read(path)) if os.path.exists(path) else []


def shown_code(crate, is_own):
    """What its own proofs, or those of crates above, can cite of the code of a crate, by file."""
    for file in files(crate.folder, "src", "rt"):
        text = read(file) if is_own else without_hidden(read(file))
        yield file, without_idle(without_bodies(text))


def shown_definitions(crate, is_own):
    """The definitions of a crate, and what its lemmas state, for crates above but for those of its
    own modules, by file."""
    for file in files(crate.folder, "specs", "antt"):
        yield file, read(file)
    hidden = [] if is_own else own_modules(crate.folder)
    for file in lemma_files(crate.folder):
        place = os.path.relpath(file, f"{crate.folder}/proofs")
        if place.split(os.sep)[0].removesuffix(".antt") not in hidden:
            yield file, stated(read(file), is_own)


def hash_of(parts):
    return hashlib.sha256("\0".join(parts).encode()).hexdigest()[:16]


def judges_of(edit, sources):
    """The functions that judge a wrong body, with those that share a proof with them."""
    keys = {it.key() for it in edit.judges}
    return [it for it in sources.functions if it.key() in keys]


def texts_of_judges(crate, edit, sources):
    """The texts of the functions that judge a wrong body, and of their answers, each with what its
    names stand for, and whether it has bodies. What the edit writes has the names of their files."""
    said = read(edit.path)
    for it in judges_of(edit, sources):
        scope = Scope(crate.name, None, sources.texts[it.path])
        yield f"{it.owner} {bare(sources.text_of(it), '//')}", scope, True
        yield said, scope, True
        answers = sources.proofs_of(it)
        yield bare(answers, "--"), Scope(crate.name, "", answers), False


def texts_of_crate(crate):
    """The same of all of a crate."""
    for file in files(crate.folder, "src", "rt"):
        yield bare(read(file), "//"), Scope(crate.name, None, read(file)), True
    for part in ("specs", "proofs"):
        for file in files(crate.folder, part, "antt"):
            yield bare(read(file), "--"), Scope(crate.name, "", read(file)), False


def hashes(crate):
    """The hash of what the verdict on each wrong body of a crate depends on, by its name."""
    sources, cited, found = Sources(crate.folder), Cited(crate), {}
    whole = list(texts_of_crate(crate))
    all_reached = None
    for path in paths_of(crate):
        edit = Edit(path, sources)
        if edit.why or edit.is_alone():
            all_reached = all_reached or cited.reached(whole)
            texts, reached = whole, all_reached
        else:
            texts = list(texts_of_judges(crate, edit, sources))
            reached = cited.reached(texts)
        parts = [read(path), crate.name, *(text for text, _, _ in texts), *reached]
        found[edit.name] = hash_of(parts)
    return found


@functools.lru_cache(maxsize=None)
def kit():
    """The version of the kit, without what follows its name."""
    ran = subprocess.run(["rt", "version"], capture_output=True, text=True, check=True)
    return ran.stdout.split()[0]


def lines():
    """The lines of the record: of each wrong body, by its crate and its name, the kit and the
    hash."""
    path = f"{ROOT}/{RECORD}"
    if not os.path.exists(path):
        return {}
    rows = [it.split("\t") for it in read(path).rstrip("\n").split("\n")[1:]]
    return {(row[0], row[1]): row[2:] for row in rows}


def write(rows):
    text = "\n".join([HEAD, *("\t".join([*it, *rows[it]]) for it in sorted(rows))]) + "\n"
    with open(f"{ROOT}/{RECORD}.new", "w", encoding="utf-8") as file:
        file.write(text)
    os.replace(f"{ROOT}/{RECORD}.new", f"{ROOT}/{RECORD}")


@contextlib.contextmanager
def locked():
    """Keeps other processes from writing the record meanwhile."""
    with open(f"{ROOT}/.git/wrong-bodies.lock", "w", encoding="utf-8") as file:
        fcntl.flock(file, fcntl.LOCK_EX)
        yield


def untried(crate):
    """The hash of each wrong body of a crate that the record has not, or on another text."""
    rows = lines()
    return {
        name: made for name, made in hashes(crate).items()
        if rows.get((crate.name, name), [""])[-1] != made
    }


def note(crate, name, made):
    """Notes that a wrong body was refused, by the hash of what its verdict depends on."""
    with locked():
        write({**lines(), (crate.name, name): [kit(), made]})


def tidy(crate):
    """Takes those lines of a crate out of the record that are of another text than stands here,
    where it may just have changed."""
    now = hashes(crate)
    with locked():
        kept = {
            it: row for it, row in lines().items()
            if it[0] != crate.name or now.get(it[1]) == row[-1]
        }
        write(kept)


def hashes_at(at):
    return hashes(OF_ALL[at])


def hashes_of_all(crates):
    """The hashes of each of these crates, worked out side by side by processes that share what was
    read before."""
    OF_ALL[:] = crates
    with multiprocessing.get_context("fork").Pool() as pool:
        return pool.map(hashes_at, range(len(crates)), chunksize=1)


def faults(crates):
    """What is wrong with the record of these crates, which have wrong bodies; which of them it
    lacks, by crate; and the number of those that were tried on the text that stands here."""
    rows, found, left, tried = lines(), [], [], 0
    for crate, now in zip(crates, hashes_of_all(crates)):
        old = {name: row for (of, name), row in rows.items() if of == crate.name}
        lacking = sorted(now.keys() - old.keys())
        other = sorted(it for it in now.keys() & old.keys() if old[it][-1] != now[it])
        gone = sorted(old.keys() - now.keys())
        tried += len(now) - len(lacking) - len(other)
        for what, names, of in (
            ("not tried", lacking, left),
            ("tried on another text", other, found),
            ("there are no more", gone, found),
        ):
            if names:
                some = ", ".join(names[:3]) + (", .." if len(names) > 3 else "")
                of.append(f"{crate.name}: {len(names)} {what}: {some}")
    strangers = sorted({of for of, _ in rows} - {it.name for it in crates})
    return found + [f"{it}: the record names no such crate" for it in strangers], left, tried
