"""Whether the exports for C call their arguments as the headers do."""
import glob
import os
import re

EXPORT = re.compile(r'pub extern "C" fn (mst_\w+)\(([^)]*)\)')
DECLARED = re.compile(r"\b(mst_\w+)\(([^()]*)\);")
COMMENT = re.compile(r"/\*.*?\*/", re.S)
# What an export takes beside the arguments of C: memory comes from the library's own heap.
BESIDE = {"alloc"}


def texts(pattern):
    for path in sorted(glob.glob(pattern, recursive=True)):
        with open(path, encoding="utf-8") as file:
            yield file.read()


def of_headers(top):
    """By call, the names of its arguments."""
    for text in texts(os.path.join(top, "include/*.h")):
        for name, listed in DECLARED.findall(COMMENT.sub("", text)):
            yield name, set(re.findall(r"(\w+)\s*(?:,|$)", listed.replace("\n", " ")))


def misnamed(top):
    """One line for each argument of an export that the header has under another name."""
    declared = dict(of_headers(top))
    for text in texts(os.path.join(top, "crates/mst_exports/src/**/*.rt")):
        for name, listed in EXPORT.findall(text):
            for argument in re.findall(r"(\w+):", listed):
                if argument not in declared.get(name, set()) | BESIDE:
                    yield f"{name} has no argument {argument} in the headers"
