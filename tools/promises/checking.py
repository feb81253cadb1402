"""Whether the page PROMISES names the calls and the clauses that there are, and all of them."""
import re

from promises import pages
from promises.contracts import USED, calls_named, calls_of, crates, every_call, sources_of, text_of
from promises.showing import spec_modules
from specs import module

LAW = re.compile(r"[a-z]\w*_laws")


def difference(is_now, wanted):
    """Where two lines begin to differ, in words."""
    at = next((k for k, it in enumerate(zip(is_now, wanted)) if it[0] != it[1]), None)
    at = min(len(is_now), len(wanted)) if at is None else at
    start = max(is_now.rfind(" ", 0, at), 0)
    return f"has '{is_now[start:at + 30].strip()}', not '{wanted[start:at + 30].strip()}'"


def written_holds():
    """Of each line that the tool writes: what is wrong, or None, once for each name in it."""
    lines = pages.read(pages.path_of_page()).split("\n")
    for number, text, part in pages.wanted_lines():
        is_now = lines[number - 1] if number else ""
        if is_now == text:
            yield from (None for _ in re.findall(r"\w+", re.sub(r"\[.*?\)", "", text)))
        elif not number:
            yield f"{pages.PAGE}:{part.line}: no line has the clauses of {part.title}"
        else:
            yield f"{pages.PAGE}:{number}: {difference(is_now, text)}: tools/promise --write"


def crates_hold():
    """Of each crate that promises something: that one row of the table of crates has it."""
    parts = [it for it in pages.sections() if it.title == pages.CRATES]
    named = [it for part in parts for _, cells in pages.rows(part)
             for it in pages.SPAN.findall(cells[0])]
    for it in sorted({*named, *crates()}):
        fault = f"{pages.PAGE}: {pages.CRATES} has {it} {named.count(it)} times"
        yield None if it in crates() and named.count(it) == 1 else fault


def heads_hold():
    """Of each call that a heading or the first column of a table names: what is wrong, or None."""
    for part in pages.sections():
        for item in pages.told_in(part):
            homes = sorted({f"{it.crate}::{it.title()}" for it in item.calls})
            owners = {it.owner for it in item.calls}
            if not any(it.is_open for it in item.calls):
                yield f"{item.place()}: there is no {item.word}"
            elif len(homes) > 1 and not (len(homes) == len(owners) and owners <= {*part.owners}):
                yield f"{item.place()}: {item.word} is {' and '.join(homes)}"
            else:
                yield None


def known_names():
    """All names with a capital that definitions and sources have."""
    found = {it for of in spec_modules() for it in (of.rpartition(".")[2], *module(of).texts)}
    for path in (it for crate in crates() for it in sources_of(crate)):
        found.update(re.findall(r"\b[A-Z]\w*", text_of(path)))
    return found


def names_hold():
    """Of each other name that stands as code: what is wrong, or None."""
    known = known_names()
    for _, number, span in pages.spans():
        place, cited = f"{pages.PAGE}:{number}", pages.CITED.fullmatch(span)
        if cited:
            there = pages.meant(cited[1])
            has = {name for it in there for name in pages.names_of(it)}
            for it in cited[2].split(", "):
                yield None if it in has else f"{place}: {cited[1]} has no {it}"
        elif "::" in span and pages.NAME.fullmatch(span) or LAW.fullmatch(span):
            yield None if calls_named(span) else f"{place}: there is no {span}"
        elif re.fullmatch(r"[A-Z][a-z]\w*", span):
            yield None if span in known else f"{place}: there is no {span}"


def all_is_told():
    """Of each public call of the crates that users call: what is wrong, or None."""
    told = {(it.path, it.line) for item in pages.items() if not item.clauses for it in item.calls}
    for call in (it for crate in USED for it in calls_of(crate) if it.is_open):
        is_there = (call.path, call.line) in told
        where = f"{call.path}:{call.line}: {call.title()}"
        yield None if is_there else f"{where} is in no heading and no table of {pages.PAGE}"


CHECKS = [written_holds, crates_hold, heads_hold, names_hold, all_is_told]


def check():
    """Prints what is wrong. Returns 1 if something is, or if a check found nothing to compare."""
    told = [list(one()) for one in CHECKS]
    wrong = [fault for one in told for fault in one if fault]
    passed = sum(fault is None for one in told for fault in one)
    calls = sum(it.is_open for crate in USED for it in calls_of(crate))
    print(*wrong, f"{len(every_call()):,} functions, {calls} public calls of users", sep="\n")
    print(f"{passed} passed, {len(wrong)} failed")
    return 1 if wrong or not all(told) else 0
