"""What a service could answer in place of the truth, and the test that its proof then fails."""
import hashlib
import os
import sys

here = os.path.dirname(os.path.abspath(__file__))
sys.path += [os.path.join(here, "../..", it) for it in ("vectors", "verifiers/python")]
import client
from mst_verifier import read_frame
from sharding import Map
from splits import parts, two_part


def lies(format, key, value, proof, below, above):
    """Lies about a key with this value and this proof, given the proofs of two other keys, one of a
    shard below and one of a shard above. Yields what is forged, the test that fails, the value and
    the proof."""
    bound, listed, held = parts(proof)
    forged = value[:-1] + b"!"
    made_up = Map(format, {key: forged})
    root = hashlib.sha256(read_frame(format, held)[0][0]).digest()
    changed = held.replace(value, forged)
    # A value stands in a node's text, or in format 2 behind the texts.
    test = "P5" if format == 1 else "P10"

    def framed(listed, held):
        return two_part(format, bound, listed, held)

    yield "the value alone", client.OTHER, forged, proof
    yield "absence", client.OTHER, None, proof
    yield "the value in the proof", f"S9 {test}", forged, framed(listed, changed)
    yield "the shard, listed", f"S4 {test}", forged, framed(
        listed.replace(root, made_up.root), made_up.proof(key))
    yield "the shard, not listed", "S9 P5", forged, framed(listed, made_up.proof(key))
    yield "the proof is another shard's", "S9 P5", value, framed(listed, parts(above)[2])
    yield "both parts are a lower shard's", "S8", value, below
    yield "both parts are an upper shard's", "S7", value, above
    yield "the shard's proof alone", "S1", value, held
