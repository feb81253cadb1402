"""Keys that others choose are hashed by a secret: names of any length, in no order."""
import hashlib
import hmac
import itertools

from mst_store import open_store

# Yours is made once, by secrets.token_bytes(32), and kept. Here figures are the same in each run.
SECRET = bytes(range(32))


def hashed(name):
    """The key of a name, of 32 bytes."""
    return hmac.digest(SECRET, name, "sha256")


def chosen_names(count):
    """Names as an attacker chooses them: the SHA-256 of each begins with no digit 0."""
    names = (b"a name of more than 32 bytes, number %d" % number for number in itertools.count())
    return list(itertools.islice((it for it in names if is_chosen(it)), count))


def is_chosen(name):
    return hashlib.sha256(name).digest()[0] >= 0x40


def filled(pairs):
    """A store with these pairs of a name and a value."""
    (one,) = open_store(rows=10_000, passes=1)
    one.apply([(hashed(name), value) for name, value in pairs])
    return one


def main():
    names = chosen_names(2_000)
    one = filled((name, b"value") for name in names)
    longest = max(len(one.prove(hashed(name))) for name in names)
    print(f"the longest of {len(names)} proofs: {longest} bytes")
    print("the value of a name:", one.get(hashed(names[0])).decode())


if __name__ == "__main__":
    main()
