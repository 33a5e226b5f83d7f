#!/usr/bin/env python3
"""new_bags.py COUNT SEED PROGRAM DRIVER..: has the driver write chosen bags and COUNT random ones, in one process, and
compares its answers and each file with what tests/model/reference_writer.py makes. Then each bag is put in a folder,
where coreutils check each line of its manifests that they can spell, and the program and tests/model/reference.py judge
it. The same seed makes the same bags. The first answer that differs is reported with its lines.

The driver reads lines from standard input, and prints a line for each. Each is a word followed by its fields, each
after one blank: the octets in lowercase hex, or `-` if there are none. Texts are UTF-8, and paths aren't spelled.

    clear                   `cleared`; there is no file, algorithm, element or hole
    file - PATH OCTETS      `added`; a file of the tree, once for each path
    by ALG                  `added`; an algorithm: `md5`, `sha1`, `sha256` or `sha512`
    element - LABEL VALUE   `added`; an element of `bag-info.txt`, after those that were given, with LF between the
                            lines of its value
    hole - PATH URL         `added`; a hole, after those that were given
    write                   the bag is written: `written OCTETS.FILES`, or `refused: ` and `no algorithm`, `Oxum given`,
                            `bad hole N` (its index, from 0), `clash PATH` (spelled) or `too large`; then `data/` if
                            there is a payload directory, and each file with its path and its octets in hex. These parts
                            are joined by ` | `
"""
import collections
import hashlib
import os
import random
import re
import sys
import tempfile

import reference
from reference_writer import ALGORITHMS, LARGEST_TAG_FILE, MOST_FILES, Order, verdict
from running import is_answered, run
from written_bags import accepted_by_coreutils, asked, difference, fits_coreutils, put, written

# On both sides of the length up to which the digests of files are taken together, and of half of it.
EDGES = [0, 1, 65535, 65536, 65537, 131071, 131072, 131073, 200000]
# The length of the pieces in which longer files are read, written and hashed side by side.
PIECE = 131072
# Around the edges of the blocks that are hashed.
BLOCKS = [0, 1, 55, 56, 63, 64, 65, 119, 120, 127, 128, 129, 1000]
# The answers and the judges, each of which must occur at least once.
KINDS = ["written", "refused: no algorithm", "refused: Oxum given", "refused: bad hole", "refused: clash",
         "refused: too large",
         "refused after the payload: too large"]
JUDGED = ["in a folder", "with a path that no folder takes", "valid", "not complete", "valid with its holes filled",
          "digests by coreutils", "digests by hashlib alone"]
GOOD_URLS = ["http://example.org/a", "x:y", "a+b.c-1:%41", "https://example.org/\u00e9?a=b#c", "urn:*"]
BAD_URLS = ["", "http", ":x", "http:", "1x:y", "x y:z", "http://example.org/a b", "http:\n", "http:\x7f", "h\u00e9:x",
    "a_b:c"]
PIECES = ["a", "b", "a.txt", "A", "*", "*a", " a", "\ta", "a ", "100%", "%41", "%0A", "%25", "a\nb", "\r", "a\r\nb",
          "\\", "a\\nb",
          "\u00e9", "e\u0301", "\ufeff", "...", "-", "~", "#", "\U0001f4c4", ".-x", "\x01", "\u2028", "'\"`$"]
TAGS = ["bagit.txt", "bag-info.txt", "fetch.txt", "manifest-md5.txt", "tagmanifest-sha256.txt", "note", "*", " x",
    "datax"]
LABELS = ["Source-Organization", "Contact-Name", "x", "Payload-Oxum-2", "a b", "\u00e9", "Bagging-Date", "%41", "*"]
OXUM_LABELS = ["Payload-Oxum", "payload-oxum", "PAYLOAD-OXUM", "payload-OXUM"]
LINES = ["", "a", "a value of some words", " ", "  blanks  ", "\u00e9\u2028", "a:b", "100%", "\t"]
FURTHER = ["a", "b: c", "more ", "\u00e9", "Payload-Oxum: 1.1", "*"]


def random_order(rng):
    names = rng.sample(PIECES, rng.choice([1, 3, 6, len(PIECES)]))
    files = {"data/" + "/".join(rng.choices(names, k=rng.choice([1, 1, 1, 2, 3]))): content(rng)
        for _ in range(rng.randrange(9))}
    files.update((name, content(rng)) for name in rng.sample(TAGS, rng.choice([0, 0, 2])))
    payload = [path for path in files if path.startswith("data/")]
    if rng.random() < 0.8:
        payload = [path for path in payload if not any(other.startswith(path + "/") for other in payload)]
    files = {path: files[path] for path in rng.sample(list(files), len(files))
        if path in payload or not path.startswith("data/")}
    holes = [(path, rng.choice(GOOD_URLS))
        for path in rng.sample(payload, rng.randrange(len(payload) + 1) * rng.randrange(2))]
    if rng.random() < 0.1:
        bad = [("data/none", "x:y"), ("bagit.txt", "x:y")] + [(path, url) for path in payload
            for url in BAD_URLS] + holes
        holes.insert(rng.randrange(len(holes) + 1), rng.choice(bad))
    elements = [element(rng) for _ in range(rng.choice([0, 0, 1, 2, 5]))]
    if rng.random() < 0.05:
        elements.insert(rng.randrange(len(elements) + 1), (rng.choice(OXUM_LABELS), "0.0"))
    return Order(files, rng.sample(ALGORITHMS, rng.choice([1] * 10 + [2, 3, 4] * 3 + [0])), elements, holes)


def several_long_files(rng):
    """Files with as many octets as some pieces, or nearly, among short ones, and nothing for which each is written by
    itself."""
    count = rng.choice([2, 3, 4, 5, 7, 8, 9])
    lengths = [PIECE * rng.choice([1, 1, 1, 2, 3, 4]) + rng.choice([-1, 0, 0, 1, 63, 64, 65, 65536])
        for _ in range(count)]
    lengths += [rng.choice(BLOCKS) for _ in range(rng.choice([0, 0, 1, 3, 30]))]
    rng.shuffle(lengths)
    files = {f"data/{place:02}": rng.randbytes(length) for place, length in enumerate(lengths)}
    return Order(files, rng.sample(ALGORITHMS[:3], rng.choice([1, 1, 2, 3])),
        [element(rng) for _ in range(rng.randrange(2))])


def content(rng):
    return rng.randbytes(rng.choice([0, 1, 3, 55, 64, 119, 200] * 5 + [65535, 65536, 65537, 131072]))


def element(rng):
    return rng.choice(LABELS), "\n".join([rng.choice(LINES), *rng.choices(FURTHER, k=rng.choice([0, 0, 1, 3]))])


def chosen_orders():
    """Cases that have to be there, by name."""
    two = {"data/a": b"abc", "data/b": b""}
    yield "no files", Order({})
    yield "no files, each algorithm", Order({}, ALGORITHMS)
    yield "an empty file", Order({"data/a": b""}, ["md5"])
    yield "one octet", Order({"data/a": b"\0"}, ["sha1"])
    yield "long file", Order({"data/a": bytes(range(256)) * 4096 + b"x"}, ALGORITHMS)
    yield "files past 16 and 64 MiB", Order({"data/a": bytes(16777217), "data/b": b"x" * 67108865}, ["md5"])
    short = {f"data/{number:02}": b"%d" % number * number for number in range(100)}
    edges = {f"data/{place:02}.{length}": bytes(range(place, 256)) * 1200 for place in (3, 64) for length in EDGES}
    mixed = {path: octets[:int(path.partition(".")[2] or len(octets))] for path, octets in {**short, **edges}.items()}
    yield "short files among long ones", Order(mixed, ALGORITHMS)
    yield "short files among long ones, side by side", Order(mixed, ALGORITHMS[:3])
    for number in (2, 3, 4, 5, 7, 8, 32, 33):
        files = {f"data/{place:02}": bytes(range(place, 256)) * 3000 for place in range(number)}
        files = {path: octets[:PIECE * (1 + place % 3) + place % 5 - 2]
            for place, (path, octets) in enumerate(files.items())}
        yield f"{number} files around the edges of pieces", Order(files, ALGORITHMS[:3])
    yield "holes among them", Order(mixed, ALGORITHMS, holes=[(path, "x:y") for path in list(mixed)[::3]])
    for number in (31, 32, 33, 64, 65):
        yield f"{number} short files", Order(dict(list(short.items())[:number]))
    for number in range(1, 14):
        lengths = [BLOCKS[(place * 5 + number) % 13] for place in range(number)]
        files = {f"data/{place:02}": bytes(at % 251 for at in range(length)) for place, length in enumerate(lengths)}
        yield f"{number} files around the edges of blocks", Order(files, ALGORITHMS)
    yield "tag files of the tree aren't taken", Order({**two, **{name: b"x" for name in TAGS}})
    yield "line ends and percent", Order(
        {"data/a\nb": b"1", "data/\r": b"2", "data/100%": b"3", "data/%0A": b"4", "data/%": b"5"})
    yield "marks and blanks", Order({"data/*": b"1", "data/ x": b"2", "data/*x /\ty": b"3", "data/x ": b"4"},
        ALGORITHMS)
    yield "backslashes", Order({"data/\\": b"1", "data/a\\nb": b"2"})
    yield "a path of 4096 octets", Order({"data/" + "/".join(["n" * 99] * 40) + "/" + "m" * 91: b"x"}, ["md5"])
    yield "order of octets", Order(
        {f"data/{name}": name.encode() for name in ["a.b", "a/b", "a0", "A", "\u00e9", "\uffff", "\U00010000"]})
    yield "lines of elements", Order(two,
        elements=[("A", "one\ntwo\nthree"), ("B", ""), ("B", "\nsecond"), ("A", " x ")])
    yield "values that are that label", Order(two,
        elements=[("Contact-Name", "Payload-Oxum"), ("A", "\nPayload-Oxum: 3.2")])
    worked = {"data/a.txt": b"abc", "data/e.txt": b"", "note.txt": b"x"}
    yield "a hole, an element and a tag file of the tree", Order(
        worked, ["md5", "sha512"], [("Source-Organization", "Test")], [("data/e.txt", "http://example.org/e")])
    yield "holes, given in another order", Order({**two, "bagit.txt": b"", "data/c": b""},
        holes=[("data/c", "x:y"), ("data/a", "x:y")])
    yield "holes", Order(two, ["md5", "sha512"], holes=[("data/b", "x:y"), ("data/a", "http://example.org/a")])
    yield "every file a hole", Order({"data/a/b": b"abc"}, holes=[("data/a/b", "x:y")])
    yield "a hole whose name is spelled", Order({"data/a\r\n%": b"abc", "data/*": b"1"},
        holes=[("data/*", "x:*"), ("data/a\r\n%", "x:y")])
    yield "no algorithm", Order(two, [])
    yield "no algorithm comes first", Order({"data/a": b"", "data/a/b": b""}, [], [("Payload-Oxum", "3.2")],
        [("data/c", "x:y")])
    for label in OXUM_LABELS:
        yield "Oxum given as " + label, Order(two, elements=[("A", "b"), (label, "3.2")])
    yield "Oxum comes before holes", Order({"data/a": b"", "data/a/b": b""}, elements=[("payload-OXUM", "")],
        holes=[("data/c", "x:y")])
    yield "a label that is almost that", Order(two, elements=[("Payload-Oxu", "1"), ("Payload-Oxum-2", "2")])
    yield "a hole that isn't there", Order(two, holes=[("data/a", "x:y"), ("data/c", "x:y")])
    yield "a hole that is a tag file", Order({**two, "note": b"x"}, holes=[("note", "x:y")])
    yield "a hole that is a folder", Order({"data/a/b": b"x"}, holes=[("data/a", "x:y")])
    yield "the first of bad holes", Order(two, holes=[("data/a", "x:y"), ("data/a", "x:y"), ("data/c", "x:y")])
    yield "a hole twice", Order(two, holes=[("data/a", "x:y"), ("data/b", "x:y"), ("data/a", "x:z")])
    for url in BAD_URLS:
        yield f"bad url {url!r}", Order(two, holes=[("data/b", "x:y"), ("data/a", url)])
    for url in GOOD_URLS:
        yield f"good url {url!r}", Order(two, holes=[("data/a", url)])
    yield "holes come before clashes", Order({"data/a": b"", "data/a/b": b""}, holes=[("data/c", "x:y")])
    yield "a clash", Order({"data/a": b"", "data/a/b": b""})
    yield "a clash far away", Order({"data/a": b"", "data/a.b": b"", "data/a/b/c": b"", "data/a0": b""})
    yield "the first of clashes", Order({"data/b": b"", "data/b/c": b"", "data/a\n%/b": b"", "data/a\n%": b""})
    for hole in ("data/a", "data/a/b"):
        yield f"a clash of the hole {hole}", Order({"data/a": b"", "data/a/b": b""}, holes=[(hole, "x:y")])
    yield "no clash of names that begin alike", Order({"data/a.txt": b"", "data/a/b": b"", "data/a0": b""})
    yield "no clash of tag files", Order({"data/b": b"", "a": b"", "a/b": b""})
    yield "no clash of tag files, and a hole", Order({"data/b": b"", "a": b"", "a/b": b""}, holes=[("data/b", "x:y")])
    most = {f"data/{number:06}": b"" for number in range(MOST_FILES)}
    yield "as many files as may be", Order(most, ["md5"])
    yield "a file too many", Order({**most, "data/more": b""}, ["md5"])
    rest = LARGEST_TAG_FILE - len("A: \nPayload-Oxum: 3.2\n")
    yield "as long a tag file as may be", Order(two, elements=[("A", "x" * rest)])
    yield "a tag file with an octet too many", Order(two, elements=[("A", "x" * (rest + 1))])
    yield "a tag file that the Oxum makes too long", Order({**two, "data/b": b"1234567"}, elements=[("A", "x" * rest)])
    # An entry of `fetch.txt` has 10 octets beside its url: ` 0 data/a` and LF.
    url = "x:" + "y" * (LARGEST_TAG_FILE - 10 - len("x:"))
    yield "as long a fetch list as may be", Order({"data/a": b"123456789"}, holes=[("data/a", url)])
    yield "a fetch list with an octet too many", Order({"data/a": b"123456789"}, holes=[("data/a", url + "y")])
    yield "a fetch list that a length makes too long", Order({"data/a": b"1234567890"}, holes=[("data/a", url)])
    yield "a manifest that is too long", Order({f"data/{number:06}" + "n" * 40: b"" for number in range(MOST_FILES)},
        ["md5", "sha512"])
    yield from ((name, Order(files, ["sha512"])) for name, files in long_manifests())


def long_manifests():
    """Payloads whose manifest by SHA-512 has 16,777,216 octets, or one more: by name. A line has 131 octets beside its
    path: 128 digits, two blanks and LF."""
    # 3,969 lines of 4,096 + 131 octets are 16,776,963, which leaves 253: a line with a path of 122 octets.
    longest = {f"data/{number:04}" + "n" * 4087: b"" for number in range(3969)}
    yield "as long a manifest as may be", {**longest, "data/" + "n" * 117: b"x"}
    yield "a manifest with an octet too many", {**longest, "data/" + "n" * 118: b"x"}
    # A path of 4,096 octets of which 4,087 are escaped is spelled in 12,270. 1,352 lines of 12,270 + 131 are
    # 16,766,152, which leaves 11,064: a line with a spelling of 10,933, which are 7 and three for each of 3,642.
    escaped = {f"data/{number:04}" + ("%\n\r" * 1363)[:4087]: b"" for number in range(1352)}
    yield "as long a manifest of escapes as may be", {**escaped, "data/" + "%" * 3642 + "nn": b"x"}
    yield "a manifest of escapes with an octet too many", {**escaped, "data/" + "%" * 3642 + "nnn": b"x"}


class Held(reference.Bag):
    """A written bag that isn't in a folder."""

    def __init__(self, files):
        super().__init__(files, True)
        self.files = files

    def octets(self, path):
        return self.files[path]

    def length(self, path):
        return len(self.files[path]) if path in self.files else None


class Judges:
    """Has written bags judged by tools that know nothing about the writer, and counts what was judged."""

    def __init__(self, program):
        self.program, self.counts = program, collections.Counter()

    def fault(self, order, files):
        """What is wrong with the written bag; None if nothing is."""
        with tempfile.TemporaryDirectory() as folder:
            fits = put(os.fsencode(folder), files)
            self.counts["in a folder" if fits else "with a path that no folder takes"] += 1
            found = self.listed_otherwise(os.fsencode(folder) if fits else None, order, files)
            lines, status = verdict(order)
            self.counts[lines[-1]] += 1
            found = found or self.judged_otherwise(folder if fits else None, files, lines, status)
            if found or not order.holes:
                return found
            # With its holes filled the bag is valid.
            missing = {path: order.payload[path] for path, _ in order.holes}
            fits = put(os.fsencode(folder), missing) and fits
            self.counts["valid with its holes filled"] += 1
            return self.judged_otherwise(folder if fits else None, {**files, **missing}, ["valid"], 0)

    def judged_otherwise(self, folder, files, lines, status):
        """Judges it with the second program, and with `bag check` if the bag is in a folder."""
        if Held(files).judge() != (lines, status):
            return f"tests/model/reference.py says {Held(files).judge()} instead of {lines}"
        if folder is None:
            return None
        ran = run([self.program, "check", folder])
        if not is_answered(ran, lines, status):
            return f"bag check prints {ran.stdout + ran.stderr} with {ran.returncode} instead of {lines}"
        return None

    def listed_otherwise(self, base, order, files):
        """Each digest that a manifest lists, by hashlib and, where they can read its line, by coreutils."""
        holes = {path for path, _ in order.holes}
        for algorithm in order.algorithms:
            for name in f"manifest-{algorithm}.txt", f"tagmanifest-{algorithm}.txt":
                lines = [line + b"\n" for line in files[name.encode()].split(b"\n")[:-1]]
                lines = [line for line in lines if unspelled(line) not in holes]
                if not all(is_listed(algorithm, line, files) for line in lines):
                    return f"hashlib finds another digest than {name}"
                plain = [line for line in lines if base and fits_coreutils(line)]
                self.counts["digests by coreutils"] += len(plain)
                self.counts["digests by hashlib alone"] += len(lines) - len(plain)
                if plain and not accepted_by_coreutils(base, algorithm, plain):
                    return f"{algorithm}sum finds another digest than {name}"
        return None


def unspelled(line):
    """The path of a line of a manifest."""
    _, _, text = line.removesuffix(b"\n").partition(b"  ")
    return text.replace(b"%0A", b"\n").replace(b"%0D", b"\r").replace(b"%25", b"%")


def is_listed(algorithm, line, files):
    octets = files.get(unspelled(line))
    return octets is not None and hashlib.new(algorithm, octets).hexdigest().encode() == line.partition(b"  ")[0]


def kind(order):
    """Of an answer. Paths and places don't matter."""
    first, files = order.answer()
    if first == "refused: too large" and files is not None:
        return "refused after the payload: too large"
    return re.sub("^(written|refused: bad hole|refused: clash).*", r"\1", first, flags=re.DOTALL)


def main(count, seed, program, *driver):
    orders = list(chosen_orders())
    for number in range(int(count)):
        made = several_long_files if number % 10 == 0 else random_order
        orders.append((f"bag {number} of seed {seed}", made(random.Random(f"{seed} {number}"))))
    printed, status, said = written(orders, driver)
    with printed:
        found = difference(orders, printed)
    if found or status or said:
        print(found, f"The driver ends with {status} and says {said[-1000:]}.", sep="\n")
        return 1
    judges, kinds = Judges(program), collections.Counter(kind(order) for _, order in orders)
    for name, order in orders:
        first, files = order.answer()
        fault = judges.fault(order, files) if first.startswith("written") else None
        if fault:
            print(f"{name}: {fault}", *(line[:1000] for line in asked(order)), sep="\n")
            return 1
    tried = {**{what: kinds[what] for what in KINDS}, **{what: judges.counts[what] for what in JUDGED}}
    print(f"{len(orders)} bags: all written alike", *(f"{count} {what}" for what, count in tried.items()), sep="\n")
    return 0 if all(tried.values()) else 1


if __name__ == "__main__":
    sys.exit(main(*sys.argv[1:]))
