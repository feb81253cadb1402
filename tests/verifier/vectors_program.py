#!/usr/bin/env python3
"""vectors_program.py PROGRAM FILE [--sharded]: checks each line of vectors by `mst verify`.

PROGRAM is crates/mst/out/mst. Each proof is judged in the format of its line; a line of format 1
without the option and with it in turn. With --sharded the proofs are of sharded maps.
"""
import subprocess
import sys

program, file, *switches = sys.argv[1:]
passed = {"1": 0, "2": 0}
failed = 0
for number, line in enumerate(open(file), 1):
    format, root, key, proof, answer = line.rstrip("\n").split("\t")[:5]
    given = "" if proof == "-" else proof + "\n"
    option = [] if format == "1" and number % 2 == 0 else ["--format", format]
    words = [program, "verify", *switches, *option, root, key]
    ran = subprocess.run(words, input=given.encode(), stdout=subprocess.PIPE)
    refused = answer.split()[0] not in ("present", "absent")
    if ran.stdout.decode() == answer + "\n" and ran.returncode == refused:
        passed[format] += 1
    else:
        failed += 1
        print(f"line {number}: {ran.stdout!r}, status {ran.returncode}, and not {answer}")
print(f"{passed['1']} vectors of format 1 as wanted, {passed['2']} of format 2, {failed} not")
sys.exit(failed > 0 or 0 in passed.values())
