"""What the tools of this folder share: the crates as the toolchain's command `rt` sees them, and a
check of one of them."""
import os
import re
import resource
import subprocess
import sys

sys.dont_write_bytecode = True
import rt_command  # noqa: E402
from wrong_bodies.sources import owner_of  # noqa: E402


rt = rt_command.load()
# some versions of the kit let the clones of a machine share what their checks kept
if hasattr(rt, "share_work"):
    rt.share_work(is_alone=False)
ROOT = subprocess.run(
    ["git", "rev-parse", "--show-toplevel"], capture_output=True, text=True, check=True
).stdout.strip()


def remember_stamps():
    """Has each crate work out the sum of its texts once."""
    rt_command.remember_stamps(rt)


def crates_of_root():
    """Returns all crates of the repository, as `rt` reads them."""
    remember_stamps()
    made = rt.rtlib.Crate.__init__

    def make(self, *given, **named):
        made(self, *given, **named)
        rt.read_files(self)

    rt.rtlib.Crate.__init__ = make
    rt.rtlib.guarded()
    try:
        return rt.rtlib.crates_below(ROOT)
    finally:
        rt.rtlib.Crate.__init__ = made


def crate_named(name):
    """Returns the crate, with all crates below it built if they changed."""
    crate = next((it for it in crates_of_root() if it.name == name), None)
    if crate is None:
        sys.exit(f"crates.txt names no crate {name}")
    for below in crate.below():
        if below.build_rlib(["--jobs", "1"], anew=False):
            sys.exit(f"{below.name}, below {name}, is not proved")
    return crate


# What a check takes at most, but for rare moments, in bytes.
MEMORY = 3_000_000_000


def lanes():
    """How many checks can run side by side: one a processor, as far as memory holds them. On four
    processors of a shared machine four checks of `mst_key` took 61 seconds each where one alone
    took 57; on a day when others used that machine 79, and three took 58. So the fourth lane gains
    a third, or nothing."""
    return max(1, min(rt.processors(), int(rt.free() // MEMORY)))


def kept_work(name, what):
    """The folder, inside .git, where a tool keeps what it worked out for a crate."""
    return f"{ROOT}/.git/{what}-{name}"


def check(crate, *flags):
    """Checks the crate where it stands, and returns all that the check says."""
    kept = ["--incremental", f"{crate.folder}/out/incremental"]
    words = [*rt.rtlib.guarded(), rt.rtlib.RATTLE, "check", *crate.words(["--jobs", "1"])]
    words += [*kept, *flags]
    streams = {"stdin": subprocess.DEVNULL, "stdout": subprocess.PIPE, "stderr": subprocess.STDOUT}
    return subprocess.run(words, cwd=crate.folder, errors="replace", **streams).stdout


def last_line(said):
    return said.rstrip("\n").split("\n")[-1]


def seconds():
    """The processor seconds of all checks so far."""
    used = resource.getrusage(resource.RUSAGE_CHILDREN)
    return used.ru_utime + used.ru_stime


def enclosing_function(text, at):
    """Returns the type (with the trait's name after it) and the name of the function that stands
    before a place in a file, or None."""
    head = r"(?m)^( *)(?:pub(?:\([a-z]+\))? )?(?:const )?(?:extern \"C\" )?fn (\w+)"
    found = list(re.finditer(head, text[:at]))
    if not found:
        return None
    return owner_of(text[: found[-1].start()]) if found[-1][1] else "", found[-1][2]
