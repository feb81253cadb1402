"""The client of the auditor: it has a root digest of the whole, its format, and nothing else.

It checks each answer by the verifier in Python, which says the test that a refused proof fails.
"""
import os
import sys

here = os.path.dirname(os.path.abspath(__file__))
sys.path += [os.path.join(here, it) for it in ("../replicas", "../../verifiers/python")]
import audit
from mst_verifier import Refused, verify_sharded

OTHER = "another answer"


def fault_in(format, root, key, value, proof):
    """The test that the proof fails, or that it shows another answer than this value, or than None
    for an absent key; None if it shows just that."""
    try:
        shown = verify_sharded(format, root, key, proof)
    except Refused as refused:
        return str(refused)
    return None if shown == value else OTHER


def fault(port, format, root, key):
    """The same of what the service at this port answers for the key."""
    return fault_in(format, root, key, *audit.ask(port, key))
