"""Random transfers. Their names and paths have characters of every kind, their tag files and payload files are empty,
have a piece, a part of one, or several."""
import hashlib

import reference
from events import with_files
from ledger_files import DECLARATION

ALGORITHMS = ["md5", "sha1", "sha256", "sha512"]
LETTERS = "abcdefghijklmnopqrstuvwxyz0123456789-"
# Among others the first and the last character of each length in UTF-8, and those around the surrogates.
CHARACTERS = [
    *"aZ09 %*.'\"\\;?:", "%0A", "%25", "\n", "\r", "\t", "\x01", "\x1b", "\x7f", "\x80", "\u00e9", "\u0301", "\u07ff",
    "\u0800", "\u20ac", "\ud7ff", "\ue000", "\ufeff", "\uffff", "\U00010000", "\U0001f600", "\U0010ffff"]


def name(rng):
    return "".join(rng.choices(LETTERS, k=rng.choice([1, 2, 3, 9, 63, 64, 64]))).encode()


def path(rng, front):
    segments = ["".join(rng.choices(CHARACTERS, k=rng.randrange(1, 6))) for _ in range(rng.choice([1, 1, 2, 3]))]
    if rng.randrange(40) == 0:
        segments[-1] += "n" * (4096 - len((front + "/".join(segments)).encode()))
    return (front + "/".join(segments)).encode()


def paths(rng, number, front):
    """Some paths, none of which is the folder of another."""
    found = []
    for _ in range(number):
        new = path(rng, front)
        if reference.is_path(new) and not any(new == old or new.startswith(old + b"/") or old.startswith(new + b"/")
            for old in found):
            found.append(new)
    return found


def octets(rng, small=30):
    """Of which one in `small` has about a piece or more."""
    large = [65_535, 65_536, 65_537, 131_072, 131_073, 200_000]
    sizes = [0, 0, 1, 2, 55, 300, 4_000] if rng.randrange(small) else large
    return rng.randbytes(rng.choice(sizes))


def manifest(algorithm, files):
    digest = lambda content: hashlib.new(algorithm, content).hexdigest().encode()
    return b"".join(b"%s  %s\n" % (digest(content), spelled(file)) for file, content in files)


def spelled(file):
    return (b"./" if file[:1] in (b"*", b" ", b"\t") else b"") + reference.spell(file)


class Transfer:
    def __init__(self, rng, few, small=30):
        self.name = name(rng)
        self.files = [(file, octets(rng, small)) for file in paths(rng, rng.randrange(2 if few else 12), "data/")]
        notes = [(file, octets(rng)) for file in paths(rng, rng.randrange(2), "notes/" if rng.randrange(2) else "x")]
        manifests = [(f"manifest-{alg}.txt".encode(), manifest(alg, self.files))
            for alg in rng.sample(ALGORITHMS, rng.choice([1, 1, 2, 4]))]
        self.tags = [(b"bagit.txt", DECLARATION), *manifests, *notes]

    def event(self, word, files):
        return with_files(word, self.name, files)

    def deliveries(self, rng):
        """Most of the payload files, in some order, in one of the ways in which they can come."""
        some = rng.sample(self.files, rng.randrange(len(self.files) + 1))
        way = rng.choice(["deliver", "read", "run", "bring"])
        return [self.event(way, [file]) for file in some] if way in ("deliver", "read") else [self.event(way, some)]
