#!/usr/bin/env python3
"""feeds.py COUNT SEED DRIVER: worked texts of tag files in pieces; and the tag files of every example and of the first
COUNT random bags of tests/lib/random_bags.py, each cut at every place, or at 64 random ones if it is longer than 256
octets, and in several pieces. The driver reads each text whole and from its pieces, which have to agree, also with
tests/model/reference.py. The same seed makes the same texts. The first that is read otherwise is printed.

The driver reads lines of standard input, each a word with its fields after one blank each:

    lines PIECE ..                  prints the number of lines of the joined pieces
    feed NAME VERSION PIECE ..      prints what a feed answers to each piece, `ok` or a fault, and what is read at the
                                    end, joined by ` | `; the name and the version are in hex, and the version stands
                                    before each piece
    cut NAME VERSION TEXT PLACES .. prints the number of lines of a text and what the whole reader reads from it. Then,
                                    if a feed reads something else from the text that is cut at some PLACES, or other
                                    lines are counted, the places and that. A feed is fed on after a fault, and has to
                                    answer it each time

NAME is the name of a tag file, VERSION 1.0 or 0.97, PIECE and TEXT are in hex, or `-` if they are empty, and PLACES are
numbers joined by commas. What is read is `pairs` and for each its digest and path; `elements` and for each its label
and value; `entries` and for each its line, URL, length or `-`, and path; or the fault as the program prints it. Texts
are in hex, or `-` if they are empty.
"""
import os
import random
import sys

import random_bags
import reference
from reference_texts import Text, field, pairs
from running import ask

E256 = "e3b0c44298fc1c149afbf4c8996fb92427ae41e4649b934ca495991b7852b855"
A256 = "ba7816bf8f01cfea414140de5dae2223b00361a396177a9cb410ff61f20015ad"
SHA256, INFO, FETCH = "manifest-sha256.txt", "bag-info.txt", "fetch.txt"
MANIFEST = f"{A256}  data/a.txt\n{E256}  data/e.txt\n".encode()
OTHER_ENDS = f"{A256} *data/a.txt\r\n\r\n{E256.upper()}\t./data/e%0A.txt\r".encode()
ENTRIES = b"http://example.org/a 3 data/a.txt\nhttp://example.org/e - data/e.txt\n"
LONGEST = 256  # octets of a text that is cut at each place
PLACES = 64


def line(word, *words_and_octets):
    return " ".join([word, *(part if isinstance(part, str) else field(part) for part in words_and_octets)])


def fed(name, *pieces):
    return " ".join(["feed", field(name.encode()), *(f"{field(b'1.0')} {field(piece)}" for piece in pieces)])


def cut_at(places, name, text):
    return line("cut", name, "1.0", text, *places)


def cut_everywhere(name, text):
    return cut_at(map(str, range(len(text) + 1)), name, text)


# A line for the driver, and what it prints. Each value is read off docs/FORMAT.md.
ROWS = [
    (line("lines", b"a\r", b"\nb"), "2"),
    (line("lines", b"\r", b"\r"), "2"),
    (line("lines"), "0"),
    (line("lines", b"\n"), "1"),
    (line("lines", b"a\r", b"", b"\n", b"", b"\r\n"), "2"),
    # a mark that is cut in three, a cut value, a cut line ending, a continuation
    (fed(INFO, b"\xef", b"\xbb", b"\xbfNote: o", b"ne\r", b"\n two"),
     "ok | ok | ok | ok | ok | elements 4e6f7465 6f6e650a74776f"),
    # a continuation of the element before the cut
    (fed(INFO, b"A: 1\nB: 2\n", b" 3\nC: 4"),
     "ok | ok | elements 41 31 42 320a33 43 34"),
    (fed(INFO, b"\xef\xbb", b"Note: x"), f"ok | ok | {INFO}:1: not UTF-8"),
    # a character that is cut in two, and one that is not whole
    (fed(INFO, b"A: \xc3", b"\xa9"), "ok | ok | elements 41 c3a9"),
    (fed(INFO, b"A: \xc3", b"\n\xa9"), f"ok | {INFO}:1: not UTF-8 | {INFO}:1: not UTF-8"),
    # a fault is answered when the octet after its line is there, and then each time
    (fed(SHA256, b"x\n", b"y", b""), " | ".join([f"{SHA256}:1: separator"] * 4)),
    (fed(SHA256, b"x", b""), f"ok | ok | {SHA256}:1: separator"),
    (fed(SHA256, MANIFEST, b"x\r", b"\n" + MANIFEST[:9]), " | ".join(["ok"] + [f"{SHA256}:3: separator"] * 3)),
    # the last line has no ending
    (fed(SHA256, MANIFEST[:-1]), f"ok | {pairs(A256, b'data/a.txt', E256, b'data/e.txt')}"),
    (fed(SHA256), "pairs"),
    (fed(SHA256, MANIFEST, MANIFEST[:76]), f"ok | ok | {SHA256}:3: twice"),
    (cut_everywhere(SHA256, MANIFEST), f"2 {pairs(A256, b'data/a.txt', E256, b'data/e.txt')}"),
    (cut_everywhere(SHA256, OTHER_ENDS), f"3 {pairs(A256, b'data/a.txt', E256, b'data/e' + bytes([10]) + b'.txt')}"),
    (cut_everywhere(FETCH, ENTRIES),
     "2 entries " + " ".join(["1", field(b"http://example.org/a"), "3", field(b"data/a.txt"),
                              "2", field(b"http://example.org/e"), "-", field(b"data/e.txt")])),
]


def is_read(name):
    found = reference.MANIFEST.fullmatch(name)
    return name in (b"bag-info.txt", b"fetch.txt") or bool(found) and found[2] in reference.ALGORITHMS


def examples():
    """The tag files of each example, by both versions."""
    for folder, _, names in sorted(os.walk(b"examples")):
        for name in sorted(filter(is_read, names)):
            with open(os.path.join(folder, name), "rb") as file:
                text = file.read()
            for version in random_bags.VERSIONS:
                yield name, version, text


def random_texts(count, seed):
    for number in range(count):
        bag = random_bags.made(seed, number)
        for name in sorted(filter(is_read, bag.files)):
            yield name, bag.version, bag.files[name]


def cuttings(rng, text):
    """The places at which a text is cut in two, and others at which it is cut in several pieces."""
    places = range(len(text) + 1)
    some = places if len(text) <= LONGEST else sorted(rng.sample(places, PLACES))
    several = [sorted(rng.choice(places) for _ in range(rng.choice([2, 3, 9]))) for _ in range(4)]
    return [str(place) for place in some] + [",".join(map(str, cutting)) for cutting in several + [places]]


def answers(driver, lines):
    ran = ask([driver, "feeds"], lines)
    return ran.stdout.decode().splitlines() + ([] if ran.returncode == 0 else [f"status {ran.returncode}"])


def first_other(driver, asked, wanted):
    """The first line that isn't answered as it has to be, with both answers; or None."""
    given = answers(driver, asked)
    for question, answer, found in zip(asked, wanted, given + [""] * len(wanted)):
        if answer != found:
            return f"asked: {question}\nwanted: {answer}\ngiven: {found}"
    return None if len(given) == len(wanted) else f"more is given: {given[len(wanted)]}"


def main(count, seed, driver):
    rng = random.Random(seed)
    asked, wanted = [row[0] for row in ROWS], [row[1] for row in ROWS]
    texts = [*examples(), *random_texts(count, seed)]
    cuts = 0
    for name, version, text in texts:
        some = cuttings(rng, text)
        asked.append(line("cut", name.decode(), version.decode(), text, *some))
        wanted.append(Text(name, version, text).reading())
        cuts += len(some)
    other = first_other(driver, asked, wanted)
    print(other or f"{len(ROWS)} worked texts, and {len(texts)} others that were cut in {cuts} ways: all read alike")
    return 1 if other else 0


if __name__ == "__main__":
    sys.exit(main(int(sys.argv[1]), int(sys.argv[2]), *sys.argv[3:]))
