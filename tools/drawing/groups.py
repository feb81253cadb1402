"""The groups of crates, by the table of docs/ARCHITECTURE.md."""
import os
import re

from .maps import TOP

PAGE = os.path.join("docs", "ARCHITECTURE.md")
HEAD = "Group| Crates| Depends on"
# What the table calls the crates of no group.
LAST = "at the top"


def told():
    """For each group of the page's table its crates and what is said of what it stands on."""
    with open(os.path.join(TOP, PAGE), encoding="utf-8") as page:
        lines = page.read().split("\n")
    first = next(at for at, line in enumerate(lines) if line.startswith(HEAD)) + 2
    found = {}
    for line in lines[first:]:
        if "|" not in line:
            break
        name, crates, below = (cell.strip() for cell in line.split("|"))
        found[name] = (re.findall(r"`(\w+)`", crates), below)
    return found
