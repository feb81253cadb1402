"""A replica that was away takes over what it lacks of another, by one batch."""
from mst_store import open_store, proof_piece


def filled(numbers):
    """A store with the keys of these numbers."""
    (one,) = open_store(rows=10_000, passes=1)
    one.apply([(b"user %d" % number, b"new") for number in numbers])
    return one


def catch_up(ours, root, ask):
    """Makes our map that of the root digest, and returns the number of edits: our readers see the
    one or the other, and nothing between. Nobody else may write ours meanwhile."""
    edits = [(key, their_value) for key, _, their_value in ours.differing(root, ask)]
    ours.apply(edits)  # None takes a key out
    return len(edits)


def main():
    ours, theirs = filled(range(0, 5000)), filled(range(10, 5030))
    asked = []
    with theirs.pin() as then:  # so the root digest and all pieces are of one version

        def ask(key, number):  # or a message to another machine, and its answer
            asked.append(key)
            return proof_piece(then.prove(key), number)

        root, keys = then.root(), then.len()  # we trust this root digest
        edits = catch_up(ours, root, ask)
    equal = ours.root() == root
    print(edits, "edits, then the roots", "are equal" if equal else "differ")
    print(len(asked), "texts of nodes were asked for, of a map of", keys, "keys")


if __name__ == "__main__":
    main()
