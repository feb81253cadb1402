"""Builds what bench/store times: the program of calls, with the engines that this machine has."""
import os
import shutil
import subprocess
import sys

HERE = os.path.dirname(os.path.abspath(__file__))
OUT = os.path.join(HERE, "out")
SPEED = os.path.join(OUT, "speed")
ARCHIVE = os.path.join(HERE, "..", "..", "bindings", "out", "libmst_store.a")
# The engines other than the store: their compiler, the header that they need, their source, and
# what they are linked with.
OTHERS = {
    "lmdb": ("cc", "lmdb.h", "lmdb.c", "-llmdb"),
    "sqlite": ("cc", "sqlite3.h", "sqlite.c", "-lsqlite3"),
    "map": ("c++", "shared_mutex", "ordered_map.cpp", "-lstdc++"),
}
ENGINES = ["store", *OTHERS]
LANGUAGES = {"cc": ["-xc", "-std=c11"], "c++": ["-xc++", "-std=c++17"]}
WARNINGS = ["-D_GNU_SOURCE", "-Wall", "-Wextra", "-Werror", "-O2", "-I../../include"]


def compile_one(compiler: str, source: str) -> str:
    """Compiles a source, and returns the object's place."""
    made = os.path.join(OUT, source + ".o")
    command = [compiler, *LANGUAGES[compiler], *WARNINGS, "-c", source, "-o", made]
    subprocess.run(command, check=True, cwd=HERE)
    return made


def compile_c(
    program: str, flags: list, sources: list, libraries: list, archive: str = ARCHIVE
) -> None:
    """Builds a program of C, and objects, with the store's library, or one that differs from it."""
    os.makedirs(OUT, exist_ok=True)
    command = ["cc", "-std=c11", *WARNINGS, *flags, *sources, archive, *libraries, "-lpthread"]
    subprocess.run([*command, "-o", program], check=True, cwd=HERE)


def is_there(compiler: str, header: str) -> bool:
    """Whether a compiler is there and finds a header."""
    if shutil.which(compiler) is None:
        return False
    given = f"#include <{header}>\n"
    command = [compiler, *LANGUAGES[compiler], "-E", "-"]
    return subprocess.run(command, input=given.encode(), capture_output=True).returncode == 0


def build(wanted: list) -> list:
    """Builds the program of calls, and returns which of these engines it has. Says which are left
    out."""
    os.makedirs(OUT, exist_ok=True)
    engines, flags, sources, libraries = [], [], ["speed.c", "store.c"], []
    for name in wanted:
        if name in OTHERS:
            compiler, header, source, library = OTHERS[name]
            if not is_there(compiler, header):
                print(f"left out: {name}, for {compiler} finds no {header}", file=sys.stderr)
                continue
            flags.append(f"-DWITH_{name.upper()}")
            sources.append(compile_one(compiler, source))
            libraries.append(library)
        engines.append(name)
    compile_c(SPEED, flags, sources, libraries)
    return engines
