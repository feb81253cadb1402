"""Libraries that differ from bindings/out/libmst_store.a in one thing, to measure what it gains."""
import glob
import os
import subprocess

BINDINGS = os.path.join(os.path.dirname(os.path.abspath(__file__)), "..", "bindings")
MADE = os.path.join(BINDINGS, "out")
# The proved calls, whose object bindings/Makefile makes.
PROVED = os.path.join(MADE, "proved_store.o")
# What they call for memory, and what heap.c gives them in its place.
HEAP = {"malloc": "heap_take", "realloc": "heap_change", "free": "heap_give_back"}
# After how many microseconds a call has waited long, and a time that no call waits.
LONG, NEVER = "LONG = 45000,", "LONG = 2000000000,"


def run(*words: str) -> None:
    subprocess.run(words, check=True)


def objects_in_c() -> dict:
    """The objects of what the library has in C, by their names."""
    sources = glob.glob(os.path.join(BINDINGS, "*.c"))
    names = [os.path.basename(source).removesuffix(".c") for source in sources]
    return {name: os.path.join(MADE, name + ".o") for name in names}


def archive_of(path: str, objects: list) -> str:
    """Makes an archive as bindings/Makefile does, and returns its path."""
    whole = path.removesuffix(".a") + ".o"
    run("ld", "-r", *objects, "-o", whole)
    run("objcopy", "--wildcard", "--keep-global-symbol=mst_*", whole)
    if os.path.exists(path):
        os.remove(path)
    run("ar", "rcs", path, whole)
    return path


def without_heap(folder: str) -> str:
    """The library whose proved calls take memory from malloc, as it comes."""
    proved = os.path.join(folder, "proved_without_heap.o")
    names = [f"--redefine-sym={ours}={plain}" for plain, ours in HEAP.items()]
    run("objcopy", *names, PROVED, proved)
    objects = objects_in_c()
    del objects["heap"]
    return archive_of(os.path.join(folder, "without_heap.a"), [proved, *objects.values()])


def without_line(folder: str) -> str:
    """The library in which no call that waits stands in line."""
    with open(os.path.join(BINDINGS, "waiting.c"), encoding="ascii") as file:
        source = file.read()
    if source.count(LONG) != 1:
        raise ValueError("bindings/waiting.c does not say when a call has waited long")
    changed = os.path.join(folder, "waiting_without_line.c")
    with open(changed, "w", encoding="ascii") as file:
        file.write(source.replace(LONG, NEVER))
    made = changed.removesuffix(".c") + ".o"
    folders = [f"-I{BINDINGS}", f"-I{BINDINGS}/../include"]
    run("cc", "-std=c11", "-O2", "-fPIC", *folders, "-c", changed, "-o", made)
    objects = {**objects_in_c(), "waiting": made}
    return archive_of(os.path.join(folder, "without_line.a"), [PROVED, *objects.values()])
