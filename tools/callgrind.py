"""How often a program compresses for SHA-256, as a file of callgrind says."""
import re

NAMED = re.compile(r"^c?fn=\((\d+)\) .*compress")
CALLED = re.compile(r"^cfn=\((\d+)\).*\ncalls=(\d+) ", re.MULTILINE)


def compressions(text):
    """How often a function that compresses is called, as callgrind's file says."""
    numbers = {it.group(1) for it in map(NAMED.match, text.split("\n")) if it}
    return sum(int(count) for number, count in CALLED.findall(text) if number in numbers)
