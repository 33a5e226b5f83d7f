"""Hostile bags, each with the lines and the status that docs/FORMAT.md requires.

The numbers in brackets are sections of docs/FORMAT.md.
"""
import hashlib

DECLARATION = b"BagIt-Version: 1.0\nTag-File-Character-Encoding: UTF-8\n"
OF_0_97 = DECLARATION.replace(b"1.0", b"0.97")
PAYLOAD = {b"data/a.txt": b"abc", b"data/e.txt": b""}
MARK = b"\xef\xbb\xbf"
VALID = (["valid"], 0)


def line(path, octets, spelling=None):
    return hashlib.sha256(octets).hexdigest().encode() + b"  " + (spelling or path)


def manifest(files=PAYLOAD):
    return b"".join(line(path, octets) + b"\n" for path, octets in files.items())


def not_complete(*lines):
    return [*lines, "not complete"], 1


def unlisted(*paths):
    return [f"manifest-sha256.txt: unlisted: {path}" for path in paths]


def bag(**changes):
    """The bag of two files, with these files replaced or added; None removes a file."""
    files = {b"bagit.txt": DECLARATION, b"manifest-sha256.txt": manifest(), **PAYLOAD}
    files.update(changes.pop("files", {}))
    return {path: octets for path, octets in files.items() if octets is not None}


def with_tag(name, octets):
    return bag(files={name: octets})


def cuts_of_declaration():
    """Sections 3 and 12: the labels end at 15 and 48, the lines at 19 and 54."""
    for n in range(len(DECLARATION) + 1):
        if n <= 19:
            answer = not_complete("bagit.txt: line count")
        elif n <= 47:
            answer = not_complete("bagit.txt: label")
        elif n == 48:
            answer = not_complete("bagit.txt: encoding name")
        elif n <= 52:
            answer = (["outside: encoding"], 2)
        else:
            answer = VALID
        yield f"bagit.txt cut at {n}", with_tag(b"bagit.txt", DECLARATION[:n]), answer


def cut_line(number, cut, own, others):
    """A line that was cut after this many of its 76 octets, with the other payload files listed in no line before it
    [6]."""
    file = f"manifest-sha256.txt:{number}: "
    text = own[:cut - 66].decode()
    if cut <= 64:
        return not_complete(file + "separator")
    if cut in (65, 66, 70, 71):
        return not_complete(file + "path")
    if cut <= 69:
        return not_complete(file + "wrong place")
    if cut <= 75:
        missing = f"manifest-sha256.txt: missing: {text}"
        return not_complete(missing, *unlisted(*sorted([own.decode(), *others])))
    return not_complete(*unlisted(*others)) if others else VALID


def cuts_of_manifest():
    whole = manifest()
    for n in range(len(whole) + 1):
        if n == 0:
            answer = not_complete(*unlisted("data/a.txt", "data/e.txt"))
        elif n <= 77:
            answer = cut_line(1, min(n, 76), b"data/a.txt", ["data/e.txt"])
        else:
            answer = cut_line(2, min(n - 77, 76), b"data/e.txt", [])
        yield f"the manifest cut at {n}", with_tag(b"manifest-sha256.txt", whole[:n]), answer


def endings_and_marks():
    a, e = line(b"data/a.txt", b"abc"), line(b"data/e.txt", b"")
    for name, text in [
        ("CR", a + b"\r" + e + b"\r"),
        ("CR LF and none", a + b"\r\n" + e),
        ("blank lines of each kind", b"\r\n\r\r\n \t\n" + a + b"\n\r\n\r" + e + b"\r\n\n\t"),
        ("a mark", MARK + a + b"\n" + e),
        ("a mark on a line of its own", MARK + b"\n" + a + b"\n" + e),
    ]:
        yield f"a manifest with {name}", with_tag(b"manifest-sha256.txt", text), VALID
    twice = not_complete("manifest-sha256.txt:1: digest form")
    yield "two marks", with_tag(b"manifest-sha256.txt", MARK + MARK + a + b"\n" + e), twice
    late = not_complete("manifest-sha256.txt:2: digest form")
    yield "a mark on the second line", with_tag(b"manifest-sha256.txt", a + b"\n" + MARK + e), late
    info = with_tag(b"bag-info.txt", MARK + b"Payload-Oxum: 3.2\rNote: x\r\n\ty\n")
    yield "bag-info.txt with a mark and each ending", info, VALID
    fetch = with_tag(b"fetch.txt", MARK + b"http:x 3 data/a.txt\rhttp:x - data/e.txt")
    yield "fetch.txt with a mark", fetch, VALID


def names():
    """Names of payload files: with blanks at both ends, tabs, line ends, symbols and non-ASCII characters, and long
    ones [4, 6]."""
    odd = {
        b"data/ two  blanks ": b"",
        b"data/\ttab": b"",
        b"data/%": b"data/%25",
        b"data/%0A": b"data/%250A",
        b"data/line\nfeed": b"data/line%0afeed",
        b"data/return\r": b"data/return%0D",
        b"data/*": b"",
        b"data/.. ": b"",
        b"data/" + b"x" * 255: b"",
        b"data/" + "\u00e9\u0301\U0001f4e6".encode(): b"",
        b"data/" + b"/".join([b"d" * 200] * 15): b"",
        b"data/\\n": b"",
        b"data/data": b"",
        b"data/manifest-md5.txt": b"",
    }
    files = {path: path[-3:] for path in odd}
    text = b"".join(line(path, files[path], spelling or path) + b"\n" for path, spelling in odd.items())
    whole = {b"bagit.txt": DECLARATION, b"manifest-sha256.txt": text, **files}
    yield "odd names of payload files", whole, VALID
    tags = {b"*star": b"1", b" blank": b"2", b"dot.": b"3", b"x/tagmanifest-md5.txt": b"4", b"x/bagit.txt": b"5"}
    own = {b"manifest-sha256.txt": manifest(), **tags}
    listed = b"".join(line(path, octets, b"./" + path) + b"\n" for path, octets in own.items())
    yield "odd names of tag files", bag(files={**tags, b"tagmanifest-sha256.txt": listed}), VALID
    below = {b"x/manifest-sha224.txt": b"?", b"x/fetch.txt": b"?", b"manifest-.txt": b"?", b"Bagit.txt": b"?"}
    yield "tag files in folders, and names that are nearly right", bag(files=below), VALID


def long_lines():
    yield "a value of a million octets", with_tag(b"bag-info.txt", b"Note: " + b"x" * 10**6), VALID
    endless = not_complete("manifest-sha256.txt:1: separator")
    yield "a line of a million octets without a blank", with_tag(b"manifest-sha256.txt", b"a" * 10**6), endless
    blanks = line(b"data/a.txt", b"abc").replace(b"  ", b" \t" * 10**5) + b"\n" + line(b"data/e.txt", b"")
    yield "200,000 blanks before a path", with_tag(b"manifest-sha256.txt", blanks), VALID
    url = with_tag(b"fetch.txt", b"http:" + b"x" * 10**6 + b" 3 data/a.txt")
    yield "a url of a million octets", url, VALID
    path = line(b"", b"") + b"data/" + b"x" * 4092
    too_long = not_complete("manifest-sha256.txt:3: path")
    yield "a path of 4,097 octets", with_tag(b"manifest-sha256.txt", manifest() + path), too_long


def numerals():
    zeros = b"0" * 5000
    yield "an Oxum with 5,000 zeros", with_tag(b"bag-info.txt", b"Payload-Oxum: " + zeros + b"3." + zeros + b"2"), VALID
    yield "a length with 5,000 zeros", with_tag(b"fetch.txt", b"http:x " + zeros + b"3 data/a.txt"), VALID
    nines = b"9" * 5000
    form = not_complete("bag-info.txt: Payload-Oxum form")
    yield "an Oxum of 5,000 nines", with_tag(b"bag-info.txt", b"Payload-Oxum: " + nines + b".2"), form
    length = not_complete("fetch.txt:1: length")
    yield "a length of 5,000 nines", with_tag(b"fetch.txt", b"http:x " + nines + b" data/a.txt"), length
    largest = not_complete("bag-info.txt: Payload-Oxum wrong")
    yield "the greatest Oxum", with_tag(b"bag-info.txt", b"Payload-Oxum: 18446744073709551615.2"), largest


def limits():
    """Section 13, from both sides."""
    many = (["bag: too many"], 3)
    large = (["bag: tag too large"], 3)
    lines = manifest() + b"\n" * (100_000 - 2)
    yield "a manifest of 100,000 lines", with_tag(b"manifest-sha256.txt", lines), VALID
    yield "a manifest of 100,001 lines", with_tag(b"manifest-sha256.txt", lines + b"\n"), many
    yield "a fetch.txt of 100,000 lines", with_tag(b"fetch.txt", b"\n" * 100_000), VALID
    yield "a fetch.txt of 100,001 lines", with_tag(b"fetch.txt", b"\n" * 100_001), many
    yield "a bag-info.txt of 100,001 lines", with_tag(b"bag-info.txt", b"\n" * 100_001), VALID
    value = b"Note: " + b"x" * (16_777_216 - 6)
    yield "a bag-info.txt of 16,777,216 octets", with_tag(b"bag-info.txt", value), VALID
    yield "a bag-info.txt of 16,777,217 octets", with_tag(b"bag-info.txt", value + b"x"), large
    yield "another tag file of 16,777,217 octets", with_tag(b"notes.txt", value + b"x"), VALID
    tags = {b"tags/%d/%d" % (i % 300, i): b"" for i in range(200_000 - 4)}
    yield "200,000 files", bag(files=tags), VALID
    yield "200,001 files", bag(files={**tags, b"one-more": b""}), many


def limits_beside_faults():
    """A limit of a file is told before a faulty line of it [13], wherever the two are."""
    many, large = (["bag: too many"], 3), (["bag: tag too large"], 3)
    for name in (b"fetch.txt", b"manifest-sha256.txt", b"tagmanifest-md5.txt"):
        told = name.decode()
        last = not_complete(f"{told}:100000: separator")
        yield f"{told}: a faulty line and 100,000 more", with_tag(name, b"x\n" + b"\n" * 100_000), many
        yield f"{told}: 99,999 lines and a faulty one", with_tag(name, b"\n" * 99_999 + b"x"), last
        yield f"{told}: a faulty line and 16,777,215 octets", with_tag(name, b"x\n" + b" " * 16_777_215), large
        yield f"{told}: 16,777,216 lines", with_tag(name, b"\n" * 16_777_216), many
        yield f"{told}: 16,777,217 lines", with_tag(name, b"\n" * 16_777_217), large
    first = not_complete("bag-info.txt:1: separator")
    yield "bag-info.txt: a faulty line and 16,777,214 more", with_tag(b"bag-info.txt",
        b"x\n" + b"\n" * 16_777_214), first
    yield "bag-info.txt: a faulty line and 16,777,215 more", with_tag(b"bag-info.txt",
        b"x\n" + b"\n" * 16_777_215), large


def pieces():
    """What stands where a piece of 65,536 octets ends; and manifests of several pieces, which are hashed."""
    for octets, lines in [(b"\r\n", 2), (b"\r", 2), (b"\n", 2), ("\u00e9".encode(), 1), ("\U0001f4a9".encode(), 1),
        (b"\n\r\n", 3)]:
        for before in range(len(octets) + 1):
            text = b"Note: " + b"x" * (65_536 - 6 - before) + octets + b" y\nOther: z\n"
            yield f"{octets} at the end of a piece, after {before} of its octets", with_tag(b"bag-info.txt",
                text), VALID
            bad = not_complete(f"bag-info.txt:{lines + 2}: separator")
            yield "the same, and a faulty line", with_tag(b"bag-info.txt", text + b"bad"), bad
    text = MARK + b"A: " + b"x" * (65_536 - 5) + b"\xff"
    yield "a line of more than a piece that isn't UTF-8", with_tag(b"bag-info.txt",
        text), not_complete("bag-info.txt:1: not UTF-8")
    files = {b"data/%04d" % i: b"" for i in range(2_000)}
    for ending in (b"\n", b"\r", b"\r\n"):
        text = b"".join(line(path, b"") + ending for path in files)
        listed = line(b"manifest-sha256.txt", text) + b"\n"
        whole = {b"bagit.txt": DECLARATION, b"manifest-sha256.txt": text, b"tagmanifest-sha256.txt": listed, **files}
        yield f"a manifest of 2,000 lines that end in {ending}", whole, VALID
        other = {**whole, b"tagmanifest-sha256.txt": b"0" * 64 + listed[64:]}
        answer = ["tagmanifest-sha256.txt: digest: manifest-sha256.txt", "complete, not valid"], 1
        yield "the same with another digest", other, answer


def payload_directory():
    empty = {b"bagit.txt": DECLARATION, b"manifest-sha256.txt": b""}
    yield "no data/", empty, not_complete("no data directory")
    yield "an empty data/", {**empty, b"data/": None}, VALID


def with_tag_0_97(name, octets):
    return bag(files={b"bagit.txt": OF_0_97, name: octets})


def names_0_97():
    """Names of payload files and of a tag file in version 0.97, in which `%` isn't escaped [15]."""
    odd = {
        b"data/%": b"",
        b"data/%25": b"",
        b"data/%250A": b"",
        b"data/%%": b"",
        b"data/%\n%": b"data/%%0a%",
        b"data/%0\r": b"data/%0%0D",
        b"data/%0/A": b"",
        "data/%0\u0661".encode(): b"",
        b"data/" + b"%" * 255: b"",
        b"data/" + b"/".join([b"%0\n" * 60] * 20): b"data/" + b"/".join([b"%0%0A" * 60] * 20),
        b"data/ % ": b"",
        b"data/*%": b"",
    }
    files = {path: path[-3:] for path in odd}
    text = b"".join(line(path, files[path], spelling or path) + b"\n" for path, spelling in odd.items())
    whole = {b"bagit.txt": OF_0_97, b"manifest-sha256.txt": text, **files}
    yield "odd names of payload files, version 0.97", whole, VALID
    own = {b"manifest-sha256.txt": manifest(), b"50%25": b"1", b"*%": b"2"}
    listed = b"".join(line(path, octets, b"./" + path) + b"\n" for path, octets in own.items())
    tags = {**own, b"bagit.txt": OF_0_97, b"tagmanifest-sha256.txt": listed}
    yield "odd names of tag files, version 0.97", bag(files=tags), VALID
    for name in ("%0A", "%0a", "x%0Dy", "k/%0d", "%25%0a"):
        answer = not_complete(*unlisted("data/" + name.replace("%", "%25")))
        yield f"a file {name}, version 0.97", with_tag_0_97(b"data/" + name.encode(), b""), answer


def long_paths_0_97():
    zeros = line(b"", b"") + b"data/"
    for name, spelling, printed in [("%", b"%", "%25"), ("LF", b"%0a", "%0A")]:
        missing = not_complete("manifest-sha256.txt: missing: data/" + printed * 4091)
        text = manifest() + zeros + spelling * 4091
        yield f"a path of 4,096 octets with {name}, version 0.97", with_tag_0_97(b"manifest-sha256.txt", text), missing
        too_long = not_complete("manifest-sha256.txt:3: path")
        yield f"an octet more with {name}, version 0.97", with_tag_0_97(b"manifest-sha256.txt",
            text + spelling), too_long
        text = manifest() + zeros + spelling * 10**6
        yield f"a million times {name}, version 0.97", with_tag_0_97(b"manifest-sha256.txt", text), too_long


def blanks_0_97():
    blanks = b" \t" * 10**6
    label = not_complete("bag-info.txt:1: label")
    for name, octets, answer in [
        ("before a colon", b"Note" + blanks + b":x", VALID),
        ("after a colon", b"Note:" + blanks + b"x", VALID),
        ("around the colon of an Oxum", b"Payload-Oxum" + blanks + b":" + blanks + b"3.2" + blanks, VALID),
        ("within a label", b"Note" + blanks + b"x:y", VALID),
        ("and no colon", b"Note" + blanks, not_complete("bag-info.txt:1: separator")),
    ]:
        yield f"2,000,000 blanks {name}, version 0.97", with_tag_0_97(b"bag-info.txt", octets), answer
    yield "a million colons, version 0.97", with_tag_0_97(b"bag-info.txt", b":" * 10**6), label
    yield "a label and a million colons, version 0.97", with_tag_0_97(b"bag-info.txt", b"x" + b":" * 10**6), VALID
    yield "a million elements, version 0.97", with_tag_0_97(b"bag-info.txt", b"a : b\nc:d\n" * 500_000), VALID


def many_0_97():
    """Many files, each in one of four manifests, and many paths of fetch.txt that are in none."""
    algorithms = "md5", "sha1", "sha256", "sha512"
    files = {b"data/%d" % i: b"%d" % i for i in range(20_000)}
    texts = [[], [], [], []]
    for i, (path, octets) in enumerate(files.items()):
        texts[i % 4].append(hashlib.new(algorithms[i % 4], octets).hexdigest().encode() + b"  " + path)
    manifests = {b"manifest-%s.txt" % name.encode(): b"\n".join(text) for name, text in zip(algorithms, texts)}
    whole = {b"bagit.txt": OF_0_97, **manifests, **files}
    yield "20,000 files, each in one of four manifests, version 0.97", whole, VALID
    empty = {**whole, **dict.fromkeys(manifests, b"")}
    answer = not_complete(*[f"manifest-md5.txt: unlisted: {path.decode()}" for path in sorted(files)])
    yield "20,000 files, in none of four manifests, version 0.97", empty, answer
    paths = [b"data/z%d" % (i // 2) for i in range(100_000)]
    text = b"".join(b"http:x - " + path + b"\n" for path in paths)
    answer = not_complete(*[f"fetch.txt: not in manifest-sha256.txt: {path.decode()}" for path in sorted(set(paths))])
    yield "100,000 lines of fetch.txt, whose paths are in no manifest, version 0.97", with_tag_0_97(b"fetch.txt",
        text), answer


FAMILIES = (cuts_of_declaration, cuts_of_manifest, endings_and_marks, names, long_lines, numerals, payload_directory,
            limits, limits_beside_faults, pieces, names_0_97, long_paths_0_97, blanks_0_97, many_0_97)
