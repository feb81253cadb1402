#!/usr/bin/env python3
"""run.py PROGRAM: runs `mst` between devices that fail and devices that take their time, and with
memory that is refused, growth after growth, by devices.c.

PROGRAM is crates/mst/out/mst. Of each run it compares the exit status and both outputs with what
plain lists of lines and answers say (failing.py, refusing.py). The last line is
'N passed, M failed', and the status is 0 if M is 0."""
import os
import subprocess
import sys
import tempfile

import failing
import refusing

HERE = os.path.dirname(os.path.abspath(__file__))
# How many seconds a run may take.
LIMIT = 60


class Program:
    """The program, with devices.c built in a folder of its own."""

    def __init__(self, path, folder):
        self.path, self.library = os.path.abspath(path), os.path.join(folder, "devices.so")
        self.told = os.path.join(folder, "told")
        flags = ["-std=gnu11", "-Wall", "-Wextra", "-Werror", "-O2", "-shared", "-fPIC"]
        source = os.path.join(HERE, "devices.c")
        subprocess.run(["cc", *flags, source, "-o", self.library], check=True)

    def run(self, words, given, limits):
        """The status and both outputs of a run."""
        names = {name: str(number) for name, number in limits.items()}
        names |= {"LD_PRELOAD": self.library, "TOLD": self.told}
        with tempfile.TemporaryFile() as source:
            source.write(given)
            source.seek(0)
            ran = subprocess.run(["mst", *words], executable=self.path, stdin=source, env=names,
                                 capture_output=True, timeout=LIMIT)
        return ran.returncode, ran.stdout, ran.stderr

    def growths(self):
        """How many growths the last run asked for, and how many blocks it has not given back."""
        with open(self.told, "rb") as told:
            return [int.from_bytes(told.read(8), "little", signed=True) for _ in range(2)]


def main(path):
    passed = failed = 0
    with tempfile.TemporaryDirectory() as folder:
        program = Program(path, folder)
        for title, fault in (*failing.judged(program), *refusing.judged(program)):
            passed, failed = passed + (not fault), failed + bool(fault)
            if fault:
                print(f"{title}\n    {fault}")
    print(f"{passed} passed, {failed} failed")
    return failed > 0


if __name__ == "__main__":
    if len(sys.argv) != 2:
        print(__doc__)
        sys.exit(2)
    sys.exit(main(sys.argv[1]))
