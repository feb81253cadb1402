"""vectors_python.py [--sharded] FILE: checks each line of vectors by mst_verifier.py, those of
proofs of sharded maps with the option.

A line has a format, a root digest, a key, a proof and the answer.
"""
import os
import sys

here = os.path.dirname(os.path.abspath(__file__))
sys.path.append(os.path.join(here, "..", "..", "verifiers", "python"))
from mst_verifier import line_for, verify, verify_sharded


def bytes_in(word):
    return b"" if word == "-" else bytes.fromhex(word)


*options, file = sys.argv[1:]
by = verify_sharded if options == ["--sharded"] else verify
passed = failed = 0
for number, line in enumerate(open(file), 1):
    format, root, key, proof, answer = line.rstrip("\n").split("\t")[:5]
    told = line_for(int(format), bytes_in(root), bytes_in(key), bytes_in(proof), by)
    if told == answer:
        passed += 1
    else:
        failed += 1
        print(f"line {number}: {told}, and not {answer}")
print(f"{passed} vectors as wanted, {failed} not")
sys.exit(failed > 0 or passed == 0)
