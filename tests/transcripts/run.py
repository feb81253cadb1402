#!/usr/bin/env python3
"""run.py PROGRAM [FILE ..]: runs `mst` and compares what it does with what transcripts say.

PROGRAM is crates/mst/out/mst. A FILE is a transcript; if none is named, it is each one beside this
file, and then the cases that computed.py makes. Of each run it compares the exit status, both
outputs, and whether the input was read. It says of each case that fails where it stands and what
came instead. The last line is 'N passed, M failed', and the status is 0 if M is 0."""
import glob
import os
import subprocess
import sys
import tempfile

import computed
import transcript

# How many seconds a run may take, and how many bytes of a line are shown.
LIMIT = 60
SHOWN = 200


def run(program, words, given):
    """A run of the program, and how many bytes of its input it has read."""
    with tempfile.TemporaryFile() as source:
        source.write(given)
        source.seek(0)
        ran = subprocess.run(
            words, executable=program, stdin=source, capture_output=True, timeout=LIMIT
        )
        return ran, os.lseek(source.fileno(), 0, os.SEEK_CUR)


def first_difference(got, wanted):
    """The first lines in which two texts differ."""
    got, wanted = got.splitlines(True), wanted.splitlines(True)
    number = 0
    while got[number : number + 1] == wanted[number : number + 1]:
        number += 1
    shown = [repr(b"".join(text[number : number + 1])[:SHOWN]) for text in (got, wanted)]
    return f"line {number + 1} is {shown[0]}, and not {shown[1]}"


def faults_of(case, ran, read):
    """What a run did otherwise than its case says."""
    if ran.returncode != case.status:
        yield f"the status is {ran.returncode}, and not {case.status}"
    if ran.stdout != case.out:
        yield "standard output: " + first_difference(ran.stdout, case.out)
    if case.err is None and not ran.stderr:
        yield "standard error has nothing"
    if case.err is not None and ran.stderr != case.err:
        yield "standard error: " + first_difference(ran.stderr, case.err)
    if case.is_read is not None and read != (len(case.given) if case.is_read else 0):
        yield f"{read} bytes of {len(case.given)} were read"


def all_cases(program, files):
    """The cases of these transcripts, or all there are."""
    here = os.path.dirname(os.path.abspath(__file__))
    for path in files or sorted(glob.glob(os.path.join(here, "*.txt"))):
        yield from transcript.read(path)
    if not files:
        yield from computed.cases(lambda words, given: run(program, words, given)[0].stdout)


def judged(program, case):
    """What the program does otherwise than a case says."""
    try:
        return list(faults_of(case, *run(program, case.words, case.given)))
    except subprocess.TimeoutExpired:
        return [f"it did not end within {LIMIT} seconds"]


def main(program, *files):
    passed = failed = 0
    for case in all_cases(program, files):
        faults = judged(program, case)
        passed, failed = passed + (not faults), failed + bool(faults)
        if faults:
            print(f"{case.place}\n    over {case.given[:SHOWN]!r}")
            print("".join(f"    {fault}\n" for fault in faults), end="")
    print(f"{passed} passed, {failed} failed")
    return failed > 0


if __name__ == "__main__":
    if len(sys.argv) < 2 or sys.argv[1] in ("-h", "--help"):
        print(f"{__doc__}\n\n{transcript.__doc__}")
        sys.exit(0 if len(sys.argv) > 1 else 2)
    sys.exit(main(*sys.argv[1:]))
