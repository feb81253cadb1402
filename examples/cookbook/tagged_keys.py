"""Keys that others choose get a tag at their end, made by a secret: their order stays."""
import hashlib
import hmac
import itertools

from mst_store import open_store

# Yours is made once, by secrets.token_bytes(32), and kept. Here figures are the same in each run.
SECRET = bytes(range(32))
TAG = 8  # bytes, so a name has at most 24


def tagged(name):
    """The key of a name. Without the secret nobody knows its SHA-256 beforehand."""
    return name + hmac.digest(SECRET, name, "sha256")[:TAG]


def name_of(key):
    return key[:-TAG]


def chosen_names(count):
    """Names as an attacker chooses them: the SHA-256 of each begins with no digit 0."""
    names = (b"name %011d" % number for number in itertools.count())
    return list(itertools.islice((it for it in names if is_chosen(it)), count))


def is_chosen(name):
    """Whether a key has the lowest layer in both formats: three keys of four have."""
    return hashlib.sha256(name).digest()[0] >= 0x40


def longest_proof(keys):
    """The bytes of the longest proof in a map of these keys."""
    (one,) = open_store(rows=10_000, passes=1)
    one.apply([(key, b"value") for key in keys])
    return max(len(one.prove(key)) for key in keys)


def main():
    names = chosen_names(2_000)
    keys = sorted(map(tagged, names))
    print(f"chosen names as keys: {longest_proof(names)} bytes")
    print(f"with a tag: {longest_proof(keys)} bytes")
    print("in the order of names:", [name_of(key) for key in keys] == sorted(names))


if __name__ == "__main__":
    main()
