"""The times of docs/pictures/engines.tsv, and the table of docs/SPEED.md that tells them."""
import os
import re
import sys

from .maps import TOP

ENGINES = ["store", "LMDB", "SQLite", "std::map"]
# The calls, and what the page calls them.
CALLS = {
    "get": "get",
    "next": "next",
    "range": "range of 100 pairs",
    "put": "put of a new value",
    "prove": "prove",
}


def figures():
    """For each call and each engine that has it the nanoseconds, by numbers of keys."""
    found = {call: {} for call in CALLS}
    with open(os.path.join(TOP, "docs", "pictures", "engines.tsv"), encoding="ascii") as lines:
        for line in list(lines)[1:]:
            engine, call, keys, nanoseconds = line.rstrip("\n").split("\t")
            found[call].setdefault(engine, {})[int(keys)] = int(nanoseconds)
    return found


def cells_of(line):
    """The cells of a row of a table, which may have pipes at its ends."""
    return [it.strip() for it in line.strip().strip("|").split("|")]


def row(*cells):
    """A row of a table as pages have it: without pipes at its ends."""
    return "| ".join(cells)


def rule(columns):
    """The line below the head of a table."""
    return "|".join(["---"] * columns)


def page_of(name):
    """The text of a page of docs/, each row of its tables as `row` writes it."""
    with open(os.path.join(TOP, "docs", name), encoding="utf-8") as file:
        lines = file.read().split("\n")
    for place, line in enumerate(lines):
        if line.startswith("|"):
            cells = cells_of(line)
            lines[place] = rule(len(cells)) if set(line) <= set("|-: ") else row(*cells)
    return "\n".join(lines)


PAGE = "SPEED.md"


def batches():
    """For each number of keys for which docs/SPEED.md has a table of other calls, and for each
    engine: the nanoseconds of a put in batches, by how many puts a batch has. A put that is alone
    is a batch of one."""
    found, keys, engines = {}, None, []
    for line in page_of(PAGE).split("\n"):
        first, *cells = cells_of(line)
        head = re.fullmatch(r"nanoseconds, ([\d,]+) keys", first)
        size = re.fullmatch(r"put of a batch of ([\d,]+)", first)
        if head:
            keys, engines = whole(head[1]), cells
        elif size and keys:
            for engine, cell in zip(engines, cells):
                if cell != "none":
                    times = found.setdefault(keys, {}).setdefault(engine, {})
                    times[whole(size[1])] = whole(cell)
        elif not line:
            keys = None
    alone = figures()["put"]
    for keys, engines in found.items():
        for engine, times in engines.items():
            times[1] = alone[engine][keys]
    return found


MEASURED = "*Measured*: "
# What is said of figures that were not measured with the library as it is.
EARLIER = ", of an earlier library"


def measured(name, *heads):
    """When the figures below each of these heads on this page of docs/ were measured: the day, the
    commit, and whether the library was an earlier one. The page alone says the rest."""
    lines, page = [], page_of(name)
    for head in heads:
        *above, _ = page.split(f"\n{head}|")
        if not above or "\n" + MEASURED not in above[0]:
            sys.exit(f"docs/{name} does not say when '{head}' was measured")
        for place in range(len(above)):
            text = "".join(above[: place + 1])
            line = text.rpartition("\n" + MEASURED)[2].partition("\n")[0]
            line = re.sub(r"\[([^]]*)\]\([^)]*\)", r"\1", line).rstrip(".").split("; ")
            found = re.match(r"\d+ \w+ \d{4}, commit [0-9a-f]{8}", line[0])
            if not found:
                sys.exit(f"docs/{name} does not say on which day and of which commit '{head}' is")
            earlier = any(it.startswith("earlier library") for it in line)
            lines.append(f"Measured: {found[0]}{EARLIER * earlier}.")
    return list(dict.fromkeys(lines))


def measured_each(name, heads):
    """The same of the tables with these heads, each with what the picture calls it, or in one line
    if all are of one day and one library."""
    lines = measured(name, *heads)
    if len(lines) == 1:
        return lines
    return [
        line.replace("Measured", f"Measured, {what}") for head, what in heads.items()
        for line in measured(name, head)
    ]


def whole(text):
    """A number that is written with commas."""
    return int(text.replace(",", ""))


def table():
    """The table of docs/SPEED.md: a row for each call and number of keys, a column for each engine
    that has figures."""
    found = figures()
    engines = [it for it in ENGINES if any(it in times for times in found.values())]
    lines = [row("Nanoseconds of", "keys", *engines), rule(2 + len(engines))]
    for call, times in found.items():
        for keys in sorted({keys for each in times.values() for keys in each}):
            known = [times.get(it, {}).get(keys) for it in engines]
            cells = ["none" if it is None else f"{it:,}" for it in known]
            lines.append(row(CALLS[call], f"{keys:,}", *cells))
    return "\n".join(lines)


def see_that_the_page_tells_them():
    """Refuses figures of which docs/SPEED.md has another table."""
    if table() + "\n" not in page_of(PAGE):
        sys.exit("'Time' in docs/SPEED.md and docs/pictures/engines.tsv tell other figures: "
                 "tools/draw --table prints the table of the latter")
