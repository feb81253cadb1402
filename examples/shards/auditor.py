"""The auditor, in a process of its own: over HTTP it answers a key by a two-part proof, of the last
published checkpoint.

    auditor.py [--format F] PORT FOLDER

It holds nothing of the map. It asks the gatherer for the directory's proof, and the worker that has
the key's shard for the shard's, which is the second part of its own map's proof. Where one of them
keeps another checkpoint meanwhile, or a worker is away, it asks again.
"""
import argparse
import os
import sys
import time

here = os.path.dirname(os.path.abspath(__file__))
sys.path.append(os.path.join(here, "../replicas"))
import audit
import checkpoints
import splits
from change_log import connect
from versions import ask


def main(port, folder, format):
    client = connect(port)
    directory = os.path.join(folder, "gatherer")

    def answer(key):
        shard = splits.shard_of(key)
        bound, worker = splits.LOWER[shard], f"worker {splits.worker_of(shard)}"

        def found():
            checkpoint = checkpoints.last(client)
            listed = ask(directory, checkpoint, bound)
            held = ask(os.path.join(folder, worker), checkpoint, key)
            if listed is None or held is None:
                return None
            of_shard = splits.parts(held[1])[2]
            return held[0], splits.two_part(format, bound, listed[1], of_shard)

        return checkpoints.until(client, found)

    with audit.serving(answer) as service:
        client.set("auditor", service)
        while not checkpoints.has_ended(client):
            time.sleep(0.2)


words = argparse.ArgumentParser()
words.add_argument("--format", type=int, default=1)
words.add_argument("port", type=int)
words.add_argument("folder")
main(**vars(words.parse_args()))
