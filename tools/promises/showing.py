"""What is told of a word: of the calls, the clauses and the definitions that it names."""
import functools
import glob
import os
import re

from promises import pages, types, wrong
from promises.contracts import ROOT, calls_named, calls_of, crates, every_call, text_of
from specs import TOP, module
from wrong_bodies.sources import read


def spec_path(of):
    """The path of a file of `specs/` from the top."""
    return os.path.relpath(module(of).path, ROOT)


def definition(of, name):
    """A definition: its name, its place and the comment above it."""
    place = f"{spec_path(of)}:{module(of).places[name]}"
    return {"definition": name, "place": place, "said": module(of).said[name]}


@functools.lru_cache(maxsize=None)
def headers():
    paths = sorted(glob.glob(f"{ROOT}/include/*.h"))
    return [(os.path.relpath(it, ROOT), read(it)) for it in paths]


def declared(name):
    """Where headers declare a function, and how."""
    for path, text in headers():
        found = re.search(rf"(?m)^[a-z][^;\n(]*\b{name}\([^;]*;", text)
        if found:
            line = text[: found.start()].count("\n") + 1
            yield {"place": f"{path}:{line}", "text": " ".join(found[0].split())}


def told_of_clause(call, clause):
    """A clause with its definitions, the wrong bodies that it refuses, and what pages say of it."""
    own = wrong.refused_by(call, clause.name)
    behind = [(it.title(), it.crate, path) for it, path in wrong.behind(call, clause.name)]
    return {
        "clause": f"{call.title()}: {clause.name}",
        "place": f"{call.path}:{clause.line}",
        "kind": clause.kind,
        "name": clause.name,
        "text": clause.text,
        "said": clause.said,
        "definitions": [definition(*it) for it in call.definitions(clause)],
        "wrong_bodies": own,
        "behind": [dict(zip(("call", "crate", "wrong_body"), it)) for it in behind],
        "tested": [] if own or behind else pages.tested(call, clause.name),
        "pages": pages.places_of(call, clause.name) if clause.name else {},
    }


def told_of_call(call, names=()):
    """A call with these clauses, with all if none is named."""
    return {
        "call": call.title(),
        "crate": call.crate,
        "place": f"{call.path}:{call.line}",
        "head": call.head,
        "said": call.said,
        "declared": list(declared(call.name)) if call.crate in DECLARED else [],
        "clauses": [told_of_clause(call, it) for it in call.named(*names)],
        "pages": pages.places_of(call),
    }


# The crates whose calls the headers declare.
DECLARED = {"mst_exports", "mst_verifier"}


@functools.lru_cache(maxsize=None)
def spec_modules():
    """The names of all files of `specs/`."""
    found = (
        os.path.relpath(it, TOP).removesuffix(".antt").replace(os.sep, ".")
        for crate in crates() for it in glob.glob(f"{TOP}/{crate}/specs/**/*.antt", recursive=True)
    )
    return sorted(found)


def told_of_definition(of, name):
    """A definition with its text, the clauses that name it, and where pages speak of it."""
    cited = [
        {"clause": f"{call.title()}: {it.name}", "place": f"{call.path}:{it.line}"}
        for call in every_call() for it in call.clauses if (of, name) in call.definitions(it)
    ]
    text = "\n".join(module(of).texts[name])
    # pages mean the call where there is one of that name
    told = {} if calls_named(name) else pages.speaks_of([name])
    return {**definition(of, name), "text": text, "clauses": cited, "pages": told}


def told_of_type(crate, path, line, said):
    """A type with what is stated of it beside its calls."""
    name = re.search(r"(?:struct|enum|trait) (\w+)", text_of(path).split("\n")[line - 1])[1]
    stated = [
        {"kind": kind, "place": f"{path}:{at}", "text": text,
         "definitions": [definition(*it) for it in dict.fromkeys(homes)]}
        for at, kind, text, homes in types.stated(path, name)
    ]
    place = f"{path}:{line}"
    return {"type": name, "crate": crate, "place": place, "said": said, "stated": stated}


def told_of(word):
    """What the sources and the pages say of a word: of types, of calls, and of definitions."""
    found = re.fullmatch(r"(.*?[^:]):(?!:) *([\w, ]*)", word)
    name, clauses = (found[1], re.split(r", *", found[2])) if found else (word, [])
    calls = calls_named(name)
    calls = [it for it in calls if it.is_open] or calls
    crate, _, own = name.rpartition("::")
    if not calls:
        calls = [it for it in every_call() if it.owner == own and crate in ("", it.crate)]
        calls = [it for it in calls if it.is_open] or calls
    if name in crates():
        calls = [it for it in calls_of(name) if it.is_open]
    calls = [it for it in calls if {*clauses} <= {one.name for one in it.clauses}]
    defined = [it for it in spec_modules() if not clauses and name in module(it).texts]
    return (
        [told_of_type(*it) for it in ([] if clauses else types.declared(own, crate))],
        [told_of_call(it, clauses) for it in calls],
        [told_of_definition(it, name) for it in defined],
    )


# ---- as text


def lines_of_pages(told):
    return [f"{place}  {heading}" for place, heading in told.items()]


def lines_of_clause(it):
    yield f"  {it['kind']} {it['name']}  {it['place']}"
    yield from (f"      // {one}" for one in [it["said"]] if one)
    yield f"      {it['text']}"
    for one in it["definitions"]:
        yield f"    {one['definition']}  {one['place']}  {one['said']}".rstrip()
    yield from (f"    wrong body: {one}" for one in it["wrong_bodies"])
    for one in it["behind"]:
        yield f"    wrong body of {one['call']} of {one['crate']}, below it: {one['wrong_body']}"
    # what a caller owes has none: it is for the callers' proofs
    if it["kind"] == "ensures" and not it["wrong_bodies"] and not it["behind"]:
        by = f": tested by: {' '.join(it['tested'])}" if it["tested"] else ""
        yield f"    no wrong body{by}"
    yield from (f"    page: {one}" for one in lines_of_pages(it["pages"]))


def lines_of_type(it, is_short):
    yield f"{it['type']}  {it['crate']}  {it['place']}"
    yield f"  {it['said']}"
    for one in [] if is_short else it["stated"]:
        yield f"  {one['kind']}  {one['place']}"
        yield f"      {one['text']}"
        for of in one["definitions"]:
            yield f"    {of['definition']}  {of['place']}  {of['said']}".rstrip()


def lines_of_call(it, is_short):
    yield f"{it['call']}  {it['crate']}  {it['place']}"
    yield f"  {it['said']}"
    if is_short:
        names = (one["name"] or "(no name)" for one in it["clauses"])
        yield f"  clauses: {', '.join(names) or 'none'}"
    else:
        yield f"  {it['head']}"
        yield from (f"  {one['place']}  {one['text']}" for one in it["declared"])
        for one in it["clauses"]:
            yield from lines_of_clause(one)
    yield from (f"  page: {one}" for one in lines_of_pages(it["pages"]))


def lines_of_definition(it, is_short):
    yield f"{it['definition']}  {it['place']}"
    yield from (f"  {one}" for one in [it["said"]] if one)
    if not is_short:
        yield from (f"    {one}" for one in it["text"].split("\n"))
        yield from (f"  clause: {one['clause']}  {one['place']}" for one in it["clauses"])
    yield from (f"  page: {one}" for one in lines_of_pages(it["pages"]))
