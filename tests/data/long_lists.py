#!/usr/bin/env python3
"""long_lists.py LIST [--answers]: prints a list of calls in the format of tests/deliveries.py, or the answers that
FORMAT.md requires.

growing: a transfer of 256 payload files, of which the nth is n octets of value n, and one run that delivers all of
them, then all in reverse order, then each with one octet more; and the same in another transfer, to which a courier
brings them.

many: a transfer with more payload files than 65,536, and one with more tag files, of which FORMAT.md knows no such
limit.
"""
import hashlib
import sys

from events import with_files
from running import line
from small_bags import DECLARATION

MANY = 65_540


def tags(algorithm, files):
    digest = lambda octets: hashlib.new(algorithm, octets).hexdigest().encode()
    lines = b"".join(b"%s  %s\n" % (digest(octets), path) for path, octets in files)
    return [(b"bagit.txt", DECLARATION), (b"manifest-%s.txt" % algorithm.encode(), lines)]


def growing():
    files = [(b"data/%03d" % n, bytes([n]) * n) for n in range(256)]
    given = files + files[::-1] + [(path, octets + b"x") for path, octets in files]
    answers = ["taken"] * 256 + ["repeated"] * 256 + ["refused: digest sha256"] * 256 + ["done"]
    yield ("start",), "started"
    for name, word in (b"m", "run"), (b"n", "bring"):
        yield with_files("begin", name, tags("sha256", files)), "new"
        yield with_files(word, name, given), " | ".join(answers)
        yield ("report", name), "valid"


def many():
    payload = [(f"data/{number:05}".encode(), f"{number}".encode()) for number in range(MANY)]
    notes = [(f"notes/{number:05}".encode(), b"") for number in range(MANY)]
    yield ("start",), "started"
    yield with_files("begin", b"t1", tags("md5", payload)), "new"
    yield with_files("run", b"t1", payload), " | ".join(["taken"] * MANY + ["done"])
    yield ("report", b"t1"), "valid"
    yield with_files("begin", b"t2", [*tags("md5", payload), *notes]), "new"
    yield ("names",), "t1 t2"


def main(name, *words):
    for event, answer in {"growing": growing, "many": many}[name]():
        print(answer if words == ("--answers",) else line(event))


if __name__ == "__main__":
    main(*sys.argv[1:])
