"""Two replicas: whether their maps are equal, and at which keys they differ."""
from mst_store import open_store, proof_piece


def compare(ours, theirs):
    """Compares replicas of one format: first their root digests, which are enough if they agree."""
    with ours.pin() as one, theirs.pin() as other:  # so that neither changes on the way
        root, asked = other.root(), []
        if one.root() == root:
            print("equal: yes")
            return
        print("equal: no")

        def ask(key, number):  # or a message to another machine, and its answer
            asked.append(key)
            return proof_piece(other.prove(key), number)

        for key, our_value, their_value in one.differing(root, ask):
            tell(key, our_value, their_value)
        print(len(asked), "texts of nodes were asked for, of a map of", other.len(), "keys")


def tell(key, our_value, their_value):
    if our_value is None:
        print(key.decode(), "is theirs alone")
    elif their_value is None:
        print(key.decode(), "is ours alone")
    else:
        print(key.decode(), "has two values")


def filled(keys):
    """A store with so many keys."""
    (one,) = open_store(rows=10_000, passes=1)
    one.apply([(b"user %d" % number, b"old") for number in range(keys)])
    return one


def main():
    ours, theirs = filled(5000), filled(5000)
    compare(ours, theirs)
    theirs.put(b"user 42", b"new")
    theirs.remove(b"user 99")
    theirs.put(b"user 5000", b"new")
    compare(ours, theirs)


if __name__ == "__main__":
    main()
