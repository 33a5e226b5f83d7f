"""The lists of calls for tests/refusals.py: for each call of the libraries that asks for memory, or that uses a device,
a list in which it is made, with the answers that docs/FORMAT.md requires if nothing is refused."""
import collections
import hashlib
import pathlib
import tempfile

import reference
import reference_texts
from events import with_files
from ledger_files import change, write_first
from reference_writer import Order, manifest
from refused_calls import octets_answer, shown, told
from small_bags import A_MD5, A_SHA256, BOTH_BY_MD5, DECLARATION, E_MD5, E_SHA256, MANIFEST, MARK, OF_0_97

# A list: its name; the calls; the range of those in which each request for memory is refused; the answers to the first
# calls, any if it is None; the keepers with which it is run; the call of a device that fails in each run, 0 for none;
# and whether it is short, so that over files each call of a file fails.
Calls = collections.namedtuple("Calls", ["name", "events", "first", "last", "wanted", "keepers", "broken", "is_short"],
    defaults=[False])
KEEPERS = ["map", "sqlite", "files"]
TAGS = [(b"bagit.txt", DECLARATION), (b"manifest-sha256.txt", MANIFEST)]
A, E = (b"data/a.txt", b"abc"), (b"data/e.txt", b"")
F = dict([*TAGS, A, E])
MISSING_A, MISSING_E = "manifest-sha256.txt: missing: data/a.txt", "manifest-sha256.txt: missing: data/e.txt"
FETCH = b"fetch.txt", b"http://example.org/a 3 data/a.txt\nhttp://example.org/e - data/e.txt\n"
HOLED = Order({"data/a.txt": b"abc", "data/e.txt": b""}, ["md5", "sha512"], [("Source-Organization", "Test")],
              [("data/e.txt", "http://example.org/e")])
HOLED_TAGS = sorted((path, octets) for path, octets in HOLED.answer()[1].items() if not reference.is_payload(path))
# A file of three pieces.
LARGE = b"data/m", (bytes(range(251)) * 523)[:131073]
OF_LARGE = [TAGS[0], (b"manifest-md5.txt", b"%s  data/m\n" % hashlib.md5(LARGE[1]).hexdigest().encode())]
OTHER_SPELLING = A_SHA256.upper() + b"\t*./data/a.txt\r\n" + E_SHA256 + b"  data/e.txt"


def on_ledger(name, steps, tags=TAGS, items=(A, E), transfer=b"t1", broken=("none", 0), undisturbed=0):
    """Steps on a ledger, each a call with its answer, of which the first few are never refused memory. Then what is
    held is asked for in every way, delivered again, and asked for once more after the ledger was opened again."""
    start = [(("start",), "started")]
    asked = rest(tags, items, transfer)
    return Calls(name, [event for event, _ in [*start, *steps]] + asked, len(start) + undisturbed,
                 len(start) + len(steps),
                 [answer for _, answer in [*start, *steps]], KEEPERS, broken)


def rest(tags, items, transfer):
    held = with_files("run", transfer, items)
    return [("report", transfer), held, ("export", transfer), with_files("begin", transfer, tags), ("left",),
            ("reopen",), ("report", transfer),
            ("audit", transfer), with_files("begin", transfer, tags), held, ("names",), ("export", transfer),
            ("report", transfer), ("left",)]


def on_values(name, *steps):
    """Calls without a ledger, each with its answer, and then the same once more."""
    return Calls(name, [event for event, _ in steps] * 2, 0, len(steps), [answer for _, answer in steps] * 2, ["map"],
        ("none", 0))


def first_format(texts):
    """The file of a ledger of format 1, with two transfers, which is changed so."""
    with tempfile.TemporaryDirectory() as folder:
        file = pathlib.Path(folder) / "ledger"
        write_first(file, {"t1": {"data/a.txt": b"abc", "data/e.txt": b""}, "t5": {"data/b": bytes(65_537)}})
        change(file, texts)
        return file.read_bytes()


def openings():
    """A ledger is made and opened again. If it was refused, it is opened by the call that follows. A map asks for no
    memory then. In files a ledger of format 1 is moved, and what is no ledger stays as it is."""
    begun = [with_files("begin", b"t1", TAGS), with_files("deliver", b"t1", [A])]
    events = [("start",), ("reopen",), ("reopen",), *begun, ("reopen",), ("reopen",)]
    wanted = ["started", "opened", "opened", "new", "taken", "opened", "opened"]
    left = [("left",), ("reopen",), ("reopen",), ("names",), ("audit", b"t1"), ("left",)]
    for name, place, short in [
            ("making a ledger", 0, [("start",)]), ("opening an empty ledger", 1, [("start",), ("reopen",)]),
            ("opening a ledger", 5, [("start",), *begun, ("reopen",)])]:
        yield Calls(name, events + rest(TAGS, (A, E), b"t1"), place, place + 1, wanted, ["sqlite"], ("none", 0))
        yield Calls(name, short + left, len(short) - 1, len(short), [], ["files"], ("none", 0), True)
    for name, due, texts in [
            ("taking over a ledger of format 1", b"opened", ""),
            ("a ledger of another format", b"refused: not a ledger", "UPDATE meta SET v = 3"),
            ("a ledger of format 1 with a damaged payload file", b"refused: damaged",
                "UPDATE item SET body = x'616264' WHERE path = 'data/a.txt'"),
            ("a database of another program", b"refused: not a ledger", "DROP TABLE meta; DROP TABLE item")]:
        loaded = with_files("load", due, [(b"-", first_format(texts))])
        asked = [("left",), ("reopen",), ("reopen",), ("left",)]
        if due == b"opened":
            asked = [*left, ("reopen",), with_files("deliver", b"t1", [A]), ("report", b"t5"), ("left",)]
        yield Calls(name, [loaded, *asked], 0, 1, [due.decode()], ["files"], ("none", 0), due == b"opened")
    yield on_values("opening a database without tables", (("adopt",), "refused: not a ledger"))


BEGUN = with_files("begin", b"t1", TAGS), "new"


def transfers():
    changed = [TAGS[0], (TAGS[1][0], b"B" + MANIFEST[1:])]
    half = [BEGUN, (with_files("deliver", b"t1", [A]), "taken")]
    yield on_ledger("all that is asked for", [
        *half, (("report", b"t1"), f"{MISSING_E} | not complete"), (("audit", b"t1"), f"{MISSING_E} | not complete"),
        (("names",), "t1"), (("export", b"t1"), " | ".join(["exported 3", *shown(True, dict([*TAGS, A]))])),
        (("audit", b"t2"), "refused: no transfer"), (("export", b"t2"), "refused: no transfer")])
    yield on_ledger("an export and a report", [
        *half, (("export", b"t1"), " | ".join(["exported 3", *shown(True, dict([*TAGS, A]))])),
        (("report", b"t1"), f"{MISSING_E} | not complete"), (("export", b"t1"), " | ".join(
            ["exported 3", *shown(True, dict([*TAGS, A]))])), (("audit", b"t1"), f"{MISSING_E} | not complete")])
    yield on_ledger("losses, repeats and damage", [
        BEGUN,
        (("report", b"t1"), f"{MISSING_A} | {MISSING_E} | not complete"),
        (with_files("run", b"t1", [E, A, A, (A[0], b"abx"), (b"data/z", b"abc")]),
         "taken | taken | repeated | refused: digest sha256 | refused: not listed | done"),
        (with_files("deliver", b"t2", [A]), "refused: no transfer"),
        (("report", b"t1"), "valid")])
    yield on_ledger("another order", [
        BEGUN,
        (with_files("run", b"t1", [(A[0], b"abx"), (b"data/z", b"abc"), A, E, A]),
         "refused: digest sha256 | refused: not listed | taken | taken | repeated | done")])
    yield on_ledger("two transfers", [
        BEGUN,
        (with_files("begin", b"t3", TAGS), "new"),
        (with_files("deliver", b"t3", [E]), "taken"),
        (("report", b"t3"), f"{MISSING_A} | not complete"),
        (with_files("deliver", b"t3", [A]), "taken"),
        (("report", b"t3"), "valid"),
        (("names",), "t1 t3")], transfer=b"t3")
    yield on_ledger("a transfer that is open", [
        BEGUN,
        (with_files("run", b"t1", [A, E]), "taken | taken | done"),
        (BEGUN[0], "again"),
        (with_files("begin", b"t1", changed), "refused: differs"),
        (("report", b"t1"), "valid")])
    yield on_ledger("a ledger that is opened again", [
        BEGUN,
        (with_files("deliver", b"t1", [A]), "taken"),
        (("reopen",), "opened"),
        (("reopen",), "opened"),
        (with_files("deliver", b"t1", [A]), "repeated"),
        (("audit", b"t1"), f"{MISSING_E} | not complete"),
        (("export", b"t1"), " | ".join(["exported 3", *shown(True, dict([*TAGS, A]))]))], undisturbed=4)
    yield on_ledger("lengths", [
        (with_files("begin", b"t1", [*TAGS, FETCH]), "new"),
        (with_files("deliver", b"t1", [(A[0], b"abcd")]), "refused: length"),
        (with_files("deliver", b"t1", [(A[0], b"abd")]), "refused: digest sha256"),
        (with_files("deliver", b"t1", [A]), "taken"),
        (with_files("deliver", b"t1", [(E[0], b"x")]), "refused: digest sha256")], [*TAGS, FETCH])
    yield on_ledger("tag files that open nothing", [
        (with_files("begin", b"t", [*TAGS, (b"manifest-md5.txt", A_MD5 + b"  data/a.txt\n")]),
         "refused: manifest-md5.txt: unlisted: data/e.txt"),
        (with_files("begin", b"t", [TAGS[0], (TAGS[1][0], A_SHA256 + b"  data/a\n" + A_SHA256 + b"  data/a/b\n")]),
            "refused: clash data/a"),
        (with_files("begin", b"t", [*TAGS, (b"tagmanifest-sha256.txt", E_SHA256 + b"  manifest-sha256.txt\n")]),
         "refused: tagmanifest-sha256.txt: digest: manifest-sha256.txt"),
        (with_files("begin", b"t", [TAGS[0], (TAGS[1][0], b"")]), "new"), (("report", b"t"), "valid")])


def devices():
    cut = [(A[0], b"a"), A, E]
    yield on_ledger("a courier", [
        BEGUN, (with_files("bring", b"t1", cut), "refused: digest sha256 | taken | taken | done"),
        (("report", b"t1"), "valid")])
    # Its third call is the read after the first octet, and its ninth is that which finds the end.
    yield on_ledger("a courier whose first item fails", [
        BEGUN, (with_files("bring", b"t1", cut), "refused: reader | taken | taken | done !"),
        (("report", b"t1"), "valid")],
                    broken=("courier", 3))
    yield on_ledger("a courier whose end fails", [
        BEGUN, (with_files("bring", b"t1", cut), "refused: digest sha256 | taken | taken | courier !"),
        (("report", b"t1"), "valid")],
                    broken=("courier", 9))
    yield on_ledger("a reader", [
        BEGUN, (with_files("read", b"t1", [A]), "taken"), (with_files("read", b"t1", [A]), "repeated"),
        (with_files("read", b"t1", [(A[0], b"abd")]), "refused: digest sha256"),
        (with_files("read", b"t1", [E]), "taken")])
    yield on_ledger("a file of three pieces", [
        (with_files("begin", b"t1", OF_LARGE), "new"), (with_files("read", b"t1", [LARGE]), "taken"),
        (with_files("read", b"t1", [LARGE]), "repeated"),
        (with_files("read", b"t1", [(LARGE[0], LARGE[1][:-1] + b"x")]), "refused: digest md5"),
        (("audit", b"t1"), "valid")], OF_LARGE, [LARGE])
    yield on_ledger("holes that are filled", [
        (with_files("begin", b"w", HOLED_TAGS), "new"),
        (with_files("deliver", b"w", [A]), "taken"),
        (with_files("fetch", b"w", [E]), "1 data/e.txt taken | done"),
        (("report", b"w"), "valid"), (("audit", b"w"), "valid"),
        (("export", b"w"), " | ".join(["exported 9", *shown(True, dict([*HOLED_TAGS, A, E]))]))], HOLED_TAGS,
        transfer=b"w", undisturbed=1)
    yield on_ledger("what a supplier lacks", [
        (with_files("begin", b"t1", [*TAGS, FETCH]), "new"),
        (with_files("fetch", b"t1", [(E[0], b"x")]),
            "1 data/a.txt not supplied | 2 data/e.txt refused: digest sha256 | done"),
        (with_files("fetch", b"t1", [A, E]), "1 data/a.txt taken | 2 data/e.txt taken | done"),
        (with_files("fetch", b"t1", [A, E]), "done"), (with_files("fetch", b"t9", [A]), "refused: no transfer")],
        [*TAGS, FETCH])


def commands():
    tree = [(with_files("file", b"", [file]), "added") for file in F.items()]
    yield on_ledger("begin, intake and report", [
        *tree,
        (("begin-to", b"t1"), told(0, ["new"])),
        (("report-to", b"t1"), told(1, [MISSING_A, MISSING_E, "not complete"])),
        (with_files("intake-to", b"t1", [E, A, A, (A[0], b"abx"), (b"data/z", b"abc")]), told(1, [
            "taken data/e.txt", "taken data/a.txt", "repeated data/a.txt", "refused data/a.txt: digest sha256",
            "refused data/z: not listed"])),
        (with_files("intake-to", b"t2", [A]), told(1, ["refused data/a.txt: no transfer"])),
        (("report-to", b"t1"), told(0, ["valid"]))])
    yield on_ledger("audit, list and export", [
        *tree,
        (("begin-to", b"t1"), told(0, ["new"])),
        (with_files("intake-to", b"t1", [A, E]), told(0, ["taken data/a.txt", "taken data/e.txt"])),
        (("audit-to", b"t1"), told(0, ["valid"])), (("list-to",), told(0, ["t1"])),
        (("export-to", b"t1"), " | ".join([told(0, ["exported 4 files"]), *shown(True, F)])),
        (("report-to", b"t2"), told(1, ["bag: no transfer"])), (("begin-to", b"t1"), told(0, ["again"]))])
    yield on_ledger("fetch", [
        (with_files("begin", b"w", HOLED_TAGS), "new"),
        (with_files("deliver", b"w", [A]), "taken"),
        (with_files("fetch-to", b"w", []), told(1, ["refused data/e.txt: not supplied"])),
        (with_files("fetch-to", b"w", [(E[0], b"x")]), told(1, ["refused data/e.txt: length"])),
        (with_files("fetch-to", b"w", [E]), told(0, ["taken data/e.txt"])),
        (with_files("fetch-to", b"w", [E]), told(0, []))],
                    HOLED_TAGS, transfer=b"w", undisturbed=1)


def tree_of(files):
    return [(("clear",), "cleared"), *((with_files("file", b"", [file]), "added") for file in files.items())]


def checked(name, *cases):
    """Trees, each checked."""
    return on_values("check: " + name,
        *(step for files, status, lines in cases for step in [*tree_of(files), (("check",), told(status, lines))]))


def checks():
    no = "not complete"
    listed = lambda more: {**F, TAGS[1][0]: MANIFEST + more}
    yield checked("valid", (F, 0, ["valid"]), ({**F, TAGS[1][0]: OTHER_SPELLING}, 0, ["valid"]))
    alone = dict([TAGS[0], (TAGS[1][0], E_SHA256 + b"  data/e.txt\n")])
    # Its payload file comes first, so that it is the one for which the list of files grows.
    yield checked("one payload file", (dict([E, *alone.items()]), 0, ["valid"]), (alone, 1, ["no data directory", no]))
    yield checked("bagit.txt", ({path: F[path] for path in F if path != b"bagit.txt"}, 1, ["no bagit.txt", no]),
                  ({**F, b"bagit.txt": MARK + DECLARATION}, 1, ["bagit.txt: byte order mark", no]),
                  ({**F, b"bagit.txt": b"BagIt-Version: 1.0"}, 1, ["bagit.txt: line count", no]),
                  ({**F, b"bag-info.txt": MARK + b"Payload-Oxum: 3.2\n"}, 0, ["valid"]))
    yield checked("paths", *((listed(E_SHA256 + b"  " + path + b"\n"), 1, [f"manifest-sha256.txt:3: {cause}", no])
        for path, cause in [
        (b"data/../k", "path"), (b"data//k", "path"), (b"data", "path"), (b"k", "wrong place"),
        (b"data/a.txt", "twice")]))
    yield checked("two manifests",
                  ({**F, b"manifest-md5.txt": A_MD5 + b"  data/a.txt\n"}, 1,
                      ["manifest-md5.txt: unlisted: data/e.txt", no]),
                  ({**F, b"manifest-md5.txt": BOTH_BY_MD5, b"data/z": b""}, 1,
                   ["manifest-md5.txt: unlisted: data/z", "manifest-sha256.txt: unlisted: data/z", no]))
    yield checked("Payload-Oxum", *(({**F, b"bag-info.txt": text}, status, lines) for text, status, lines in [
        (b"Payload-Oxum: 3.2\n", 0, ["valid"]), (b"Payload-Oxum: 4.2\n", 1, ["bag-info.txt: Payload-Oxum wrong", no]),
        (b"Payload-Oxum: 3\n", 1, ["bag-info.txt: Payload-Oxum form", no]),
        (b"Payload-Oxum: 3.2\n" * 2, 1, ["bag-info.txt: Payload-Oxum repeated", no])]))
    yield checked("digests, and bags that are not judged",
                  ({**F, A[0]: b"abd"}, 1, ["manifest-sha256.txt: digest: data/a.txt", "complete, not valid"]),
                  ({**F, b"manifest-sha224.txt": b""}, 2, ["outside: algorithm sha224"]),
                  ({**F, b"bagit.txt": DECLARATION.replace(b"UTF-8", b"ISO-8859-1")}, 2, ["outside: encoding"]),
                  ({**F, b"bagit.txt": OF_0_97}, 0, ["valid"]))
    tag = b"tagmanifest-sha256.txt"
    yield checked("tag manifests",
                  ({**F, tag: b""}, 1, ["tagmanifest-sha256.txt: not listed: manifest-sha256.txt", no]),
                  ({**F, tag: E_SHA256 + b"  data/a.txt"}, 1, ["tagmanifest-sha256.txt:1: wrong place", no]),
                  ({**F, tag: E_SHA256 + b"  manifest-sha256.txt"}, 1,
                   ["tagmanifest-sha256.txt: digest: manifest-sha256.txt", "complete, not valid"]))
    yield checked("fetch lists", ({**F, b"fetch.txt": b"http://example.org/z - data/z\n"}, 1,
        ["fetch.txt: not in manifest-sha256.txt: data/z", no]),
                  ({**F, b"fetch.txt": b"http://example.org/a 4 data/a.txt\n"}, 1,
                      ["fetch.txt:1: length: data/a.txt", no]))
    yield checked("holes", (HOLED.answer()[1], 1,
        ["manifest-md5.txt: missing: data/e.txt", "manifest-sha512.txt: missing: data/e.txt",
                                                   "bag-info.txt: Payload-Oxum wrong", no]))


def writing():
    tree = tree_of(dict([A, E]))
    yield on_values("a bag that is written", *tree, (("by", b"md5"), "added"), (("by", b"sha512"), "added"),
                    (with_files("element", b"", [(b"Source-Organization", b"Test")]), "added"),
                    (with_files("hole", b"", [(b"data/e.txt", b"http://example.org/e")]), "added"),
                    (("write",), " | ".join(["written 3.2", *shown(True, HOLED.answer()[1])])))
    made = Order({"data/a.txt": b"abc", "data/e.txt": b""}, ["md5", "sha256"])
    yield on_values("make", *tree, (with_files("make", b"", [(b"sha256", b""), (b"md5", b"")]), " | ".join(
        [told(0, ["made 2 files, 3 octets"]), *made.parts()[1:]])),
                    (with_files("make", b"", [(b"sha224", b"")]), told(64, ["unknown algorithm sha224"])))
    # Of these two are read, written and hashed side by side, and the third one is whole in its first piece.
    long = {b"data/e.txt": b"", b"data/m": LARGE[1], b"data/n": LARGE[1] * 2}
    side = Order({path.decode(): octets for path, octets in long.items()}, ["md5", "sha256"])
    yield on_values("make, with files of several pieces", *tree_of(long),
        (with_files("make", b"", [(b"sha256", b""), (b"md5", b"")]), " | ".join(
        [told(0, [f"made 3 files, {3 * len(LARGE[1])} octets"]), *side.parts()[1:]])))
    clash = tree_of({b"data/a": b"", b"data/a/b": b""})
    yield on_values("no bag can be made", *clash,
                    (with_files("make", b"", [(b"sha256", b"")]), told(1, ["bag: clash"])),
                    (("make",), told(1, ["bag: no algorithm"])))
    yield on_values("bags that are refused", *clash, (("write",), "refused: no algorithm"),
                    (("by", b"sha256"), "added"),
                    (("write",), "refused: clash data/a"),
                    (with_files("hole", b"", [(b"data/q", b"http://example.org/q")]), "added"),
                    (("write",), "refused: bad hole 0"))


def values():
    payload = lambda path: "payload " + path.hex()
    unescaped = lambda text, version=b"1.0": with_files("unescape", text, [(version, b"")])
    yield on_values("paths", (("parse", b"data/../k"), "refused: 4"), (("parse", b"data//k"), "refused: 3"),
                    (("parse", b"data"), "refused: 6"),
                    (("parse", b"k"), "tag 6b"), (("parse", b"data/k"), payload(b"data/k")),
                    (unescaped(b"data/x%0A%25y"), payload(b"data/x\n%y")),
                    (("escape", b"data/x\n%y"), "text data/x%0A%25y"), (unescaped(b"data/%0a"), payload(b"data/\n")),
                    (("escape", b"data/\n"), "text data/%0A"), (unescaped(b"data/%41"), "refused: 0"),
                    (unescaped(b"data/%2"), "refused: 0"), (unescaped(b"data/%25", b"0.97"), payload(b"data/%25")))
    yield on_values("digests", (with_files("hex", b"md5", [(A_MD5.upper(), b"")]), "text " + A_MD5.decode()),
                    (with_files("hex", b"sha256", [(A_SHA256, b"")]), "text " + A_SHA256.decode()),
                    (with_files("digest", b"3", [(b"md5", b"abc"), (b"sha256", b"abc")]),
                        f"3 md5 {A_MD5.decode()} sha256 {A_SHA256.decode()}"),
                    (with_files("digest", b"2", [(b"sha256", b"abc")]), "refused: too large"))
    sha512 = {octets: hashlib.sha512(octets).hexdigest().encode() for octets in (b"abc", b"")}
    elements = [(b"Note", b"one"), (b"Note", b"two\nthree"), (b"Empty", b"")]
    # Each pair stands twice, so that one that was refused is listed by the next step.
    yield on_values("texts that are written", (("declaration",), octets_answer(DECLARATION)),
                    (with_files("manifest", b"manifest-md5.txt",
                        [(A[0], A_MD5), (A[0], A_SHA256), (b"k", A_MD5), (A[0], A_MD5), (E[0], E_MD5)]),
                     "listed | refused: algorithm | refused: place | refused: twice | listed | "
                     + octets_answer(BOTH_BY_MD5)),
                    (with_files("manifest", b"manifest-sha512.txt",
                        [(A[0], sha512[b"abc"]), (A[0], sha512[b"abc"]), (E[0], sha512[b""]), (E[0], sha512[b""])]),
                     "listed | refused: twice | listed | refused: twice | "
                     + octets_answer(manifest("sha512", dict([A, E])))),
                    (with_files("metadata", b"", [(b"Source-Organization", b"Test")]),
                        "added | " + octets_answer(b"Source-Organization: Test\n")),
                    (with_files("metadata", b"", elements),
                        "added | added | added | " + octets_answer(b"Note: one\nNote: two\n three\nEmpty: \n")),
                    (with_files("entries", b"", [(E[0], b"http://example.org/e 0"), (A[0], b"x -"), (b"a", b"x:y -")]),
                     "added | refused: url | refused: place | "
                     + octets_answer(b"http://example.org/e 0 data/e.txt\n")))
    whole = lambda name, octets: with_files("whole", name, [(b"1.0", octets)])
    pairs = reference_texts.pairs(A_SHA256.decode(), A[0], E_SHA256.decode(), E[0])
    entries = lambda *lines: "entries " + " ".join(part if isinstance(part, str) else part.hex() for line in lines
        for part in line)
    yield on_values("texts that are read", (whole(b"manifest-sha256.txt", MANIFEST), pairs),
                    (whole(b"manifest-sha256.txt", OTHER_SPELLING), pairs),
                    *((whole(b"manifest-sha256.txt", MANIFEST + E_SHA256 + b"  " + path + b"\n"),
                        f"manifest-sha256.txt:3: {cause}")
                      for path, cause in [(b"data/../k", "path"), (b"data//k", "path"), (b"data", "path"),
                                          (b"k", "wrong place"),
                                          (b"data/a.txt", "twice")]),
                    (whole(b"bag-info.txt", b"Note: one\nNote: two\n\t three\nEmpty:\n"), "elements " + " ".join(
                        octets.hex() or "-" for element in elements for octets in element)),
                    *((whole(b"bag-info.txt", text), f"bag-info.txt:1: {cause}") for text, cause in [
                        (b" x", "nothing to continue"), (b"a b", "separator"), (b"L:v", "separator"),
                        (b"L : v", "label")]),
                    (whole(b"fetch.txt", FETCH[1]),
                        entries(("1", b"http://example.org/a", "3", A[0]), ("2", b"http://example.org/e", "-", E[0]))),
                    (whole(b"fetch.txt", b"http://example.org/z - data/z\n"),
                        entries(("1", b"http://example.org/z", "-", b"data/z"))),
                    (whole(b"fetch.txt", b"http://example.org/a 4 data/a.txt\n"),
                        entries(("1", b"http://example.org/a", "4", A[0]))),
                    (whole(b"fetch.txt", b"x\n"), "fetch.txt:1: separator"))
    planned = f"plan data/a.txt data/e.txt | {MISSING_A} | {MISSING_E} | not complete"
    yield on_values("plans", (with_files("plan", b"", TAGS * 2),
        f"added | added | refused: twice | refused: twice | {planned}"),
                    (with_files("plan", b"", [*TAGS, (b"manifest-md5.txt", A_MD5 + b"  data/a.txt\n")]),
                     "added | added | added | refused: manifest-md5.txt: unlisted: data/e.txt"),
                    (with_files("plan", b"", [TAGS[0],
                        (TAGS[1][0], A_SHA256 + b"  data/a\n" + A_SHA256 + b"  data/a/b\n")]),
                     "added | added | refused: clash data/a"))


def pieces():
    texts = [(b"manifest-sha256.txt", MANIFEST, b"1.0"), (b"manifest-sha256.txt", OTHER_SPELLING, b"1.0"),
             (b"manifest-sha256.txt", OTHER_SPELLING, b"0.97"),
             (b"bag-info.txt", b"Note: one\nNote: two\r\n\t three\nEmpty:\n", b"1.0"), (b"fetch.txt", FETCH[1], b"1.0")]
    cuttings = [with_files("feed", name, [(version, text[:cut]), (version, text[cut:])])
                for name, text, version in texts for cut in range(len(text) + 1)]
    for place in range(0, len(cuttings), 30):
        yield on_values(f"tag files in two pieces, from {place} on",
            *((event, None) for event in cuttings[place:place + 30]))


def lists():
    for some in (openings, transfers, devices, commands, checks, writing, values, pieces):
        yield from some()


def stores():
    """A map that once gives something else than it holds: no octets of a payload file (`piece`), or tag files of which
    no plan can be made (`tags`). That answer ends in a mark. No other may differ."""
    reopened = (("reopen",), "opened")
    exported = " | ".join(["exported 4", *shown(True, F)])
    in_part = " | ".join(["refused: store", *shown(True, dict(TAGS))])
    for name, items, device, number, *steps in [
            ("a payload file without its octets: export", [A, E], "piece", 1, (("export", b"t1"), in_part + " !"),
             (("export", b"t1"), "refused: store"), reopened, (("export", b"t1"), exported)),
            ("a payload file without its octets: audit", [A, E], "piece", 1,
             (("audit", b"t1"), f"{MISSING_A} | not complete !"),
             (("audit", b"t1"), "valid")),
            ("the only payload file without its octets: audit", [A], "piece", 1,
             (("audit", b"t1"), f"{MISSING_A} | {MISSING_E} | not complete !"),
             (("audit", b"t1"), f"{MISSING_E} | not complete")),
            ("tag files without a plan", [A, E], "tags", 2, reopened, (("report", b"t1"), "refused: store !"),
             (("report", b"t1"), "refused: store"),
             reopened, (("report", b"t1"), "valid"))]:
        taken = " | ".join([*["taken"] * len(items), "done"])
        begun = [(("start",), "started"), BEGUN, (with_files("run", b"t1", items), taken)]
        events, wanted = zip(*begun, *steps)
        yield Calls(name, events, 0, 0, wanted, ["breaking"], (device, number))
