"""A log of blocks: a number and a root digest for each, for a reader and for an auditor."""
import mst_verifier
from mst_store import Format, open_sharded


def apply(writer, edits):
    """Makes a block, and returns what the log has of it. If it is refused, nothing has changed."""
    number = writer.apply(edits)  # RefusedShard would name the shard that refused its edits
    print(f"block {number} has {len(edits)} edits")
    return number, writer.root()


def read(reader, logged):
    """A reader finds that its block is the one that the log names, and proves an answer of it."""
    with reader.snapshot() as then:
        if (then.number(), then.root()) != logged:
            raise SystemExit("the log is of another map")
        print(f"the reader has block {then.number()}")
        return then.prove(b"apple")


def audit(logged, proof):
    """An auditor has the log's root digest alone, and a proof from a snapshot of that block."""
    number, root = logged
    value = mst_verifier.verify_sharded(int(Format.ONE), root, b"apple", proof)
    print(f"proved of block {number}: the price of apple is {value.decode()}")


def main():
    # Each split is the first key of a shard: below h, from h on, from p on.
    writer, reader = open_sharded(rows=100, readers=1, splits=[b"h", b"p"])
    apply(writer, [(b"apple", b"30"), (b"plum", b"12")])
    logged = apply(writer, [(b"apple", b"35"), (b"plum", None)])
    audit(logged, read(reader, logged))


if __name__ == "__main__":
    main()
