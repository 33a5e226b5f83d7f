"""Random small bags, whole and damaged, of versions 1.0 and 0.97 in turn, and every kind of line that a check prints of
them. The same seed makes the same bags."""
import hashlib
import os
import random
import re

VERSIONS = [b"1.0", b"0.97"]
ALGORITHMS = ["md5", "sha1", "sha256", "sha512"]
NAMES = [name.encode() for name in [
    "a.txt", "b", "A.TXT", "two words", "line\nend", "line end", "line!", "cr\rend", "100%.txt", "%41", "%0A",
    "tab\tname", "%25", "%250d", "%", "%%\n", "k/%0d", "%0\n", "%2", "trail ", " lead", "*star", "k/x", "k.txt", "k0",
    "deep/er/still", "\u00e9", "e\u0301", "\ufeffmark", "\u00a0gap", "back\\slash", ".hidden", "...", "data",
    "bagit.txt", "tagmanifest-md5.txt"]]
TAG_NAMES = [name.encode() for name in [
    "note", "notes/read me", "*star", " lead", "line\nend", "50%", "50%25", "%0a", "\u00e9", "datax",
    "Manifest-md5.txt", "manifest-.txt", "manifest-a-b.txt", "tags/manifest-md5.txt", "manifest-md5.txt~", "BagIt.txt"]]
OTHER_ALGORITHMS = [b"sha224", b"MD5", b"sha3_256", b"zz", b"_", b"blake2b"]
# Some are good in version 0.97.
BAD_SPELLINGS = [
    b"", b"data", b"data/", b"/data/a", b"data//a", b"data/./a", b"data/../a", b"..", b".", b"data/a/", b"data/%41",
    b"data/%2", b"data/%", b"data/%0", b"data/a%0g", b"data/%%0a", b"data/\0", b"././data/a", b"data/" + b"n" * 4092,
    b"*", b"./", b"**data/a", b"%"]
OTHER_PLACES = [
    b"bagit.txt", b"k", b"data/a.txt", b"tagmanifest-md5.txt", b"tagmanifest-other_1.txt", b"tagmanifest-a-b.txt",
    b"manifest-sha256.txt", b"datax/a", b"Data/a", b"data%25", b"data%0A", b"tags/tagmanifest-md5.txt"]
BAD_URLS = [b"a.txt", b":x", b"http:", b"1a:x", b"a_b:x", b"a:\x01", b"a:\x7f", b"\xef\xbb\xbfa:x", b"\xc3\xa9:x"]
GOOD_URLS = [
    b"http://example.org/a", b"A+b-.1:x", b"x::", b"file:%", b"a:\xc2\x85", b"a:\xe2\x80\x83b", b"a:\xc3\xa9"]
BAD_LENGTHS = [b"x", b"--", b"-1", b"+1", b"1.0", b"18446744073709551616", b"0x1", b"\xd9\xa1"]
BAD_OXUMS = [
    b"", b"3", b".", b"3.", b".2", b"3.2.1", b"-3.2", b"3 .2", b"3,2", b"x.y", b"18446744073709551616.1",
    b"1.99999999999999999999", b"\xd9\xa1.1", b"3.2\n 1", b"0x1.1", b"3.2\xc2\xa0", b"3.2:", b"3.2 : x"]
ELEMENTS = [
    b"Contact-Name: Ada", b"Contact-Name:\tBen", b"Empty:", b"Empty: ", b"Folded: one\n two\n\t three",
    b"Late:\n  value", b"\xc3\xa9: x", b"a b: c:d", b"Payload-Oxum-Not: x", b"Payload-Oxum\xc2\xa0: x",
    b"Payload-Oxum\x0c: x", b"x: Payload-Oxum: x", b"Spaced:   x  ", b"Gap: one\n\n two"]
# Some are good in version 0.97.
BAD_ELEMENTS = [
    b"no colon", b"no colon", b"Label:value", b"Label : value", b": value", b":", b":x", b":a: b",
    b"\xef\xbb\xbfLabel: x", b"L\xff: x", b"\xef\xbb\xbf : x", b"a:b: c", b"a\t:b", b"Label:\xc2\xa0x",
    b"Label\xc2\xa0:x"]
OTHER_VERSIONS = [
    b"0.96", b"0.98", b"0.9", b"1.97", b"1.1", b"2.0", b"0.970", b"01.0", b"00.97", b"1.00", b"0.097", b"1", b"97",
    b"1.0 ", b" 0.97", b"1.0.0", b"0.97.0", b"1.1234567890", b"999999999.0", b"1,0", b""]
OTHER_ENCODINGS = [
    b"utf-8", b"Utf-8", b"ISO-8859-1", b"UTF-16", b"UTF8", b"", b"UTF-8 ", b"UTF 8", b"\xc3\xa9", b"UTF\xff8"]
# Lengths in octets at the edges of the blocks that are hashed, of a piece, and of the buffer of a check.
EDGES = [0, 55, 56, 63, 64, 65, 119, 120, 127, 128, 129, 65_535, 65_536, 65_537, 131_071, 131_072, 131_073]
OCTETS = [bytes([octet]) for octet in b" \t\r\n%*./:-0129aAfFgd\0\xff\x7f\x85"]
OCTETS += [b"\xc3\xa9", b"\xef\xbb\xbf", b"\xc2\xa0", b"\xed\xa0\x80"]


def declaration(version, encoding=b"UTF-8"):
    return b"BagIt-Version: " + version + b"\nTag-File-Character-Encoding: " + encoding + b"\n"


def declarations(version):
    """Declarations of other versions and encodings, and files that declare nothing."""
    first, second = declaration(version).splitlines(True)
    both = first + second
    return [declaration(other) for other in VERSIONS * 2 + OTHER_VERSIONS] + [
        declaration(version, encoding) for encoding in OTHER_ENCODINGS] + [
        declaration(other, encoding) for other in [b"0.96", *VERSIONS] for encoding in [b"ISO-8859-1", b"utf-8"]] + [
        b"\xef\xbb\xbf" + both] * 3 + [
        b"", b"\n", first[:-1], first + b" \n", both + b"\n", b"\n" + both, both[:-1], both.lower(), second + first,
        first + b"\n" + second] + [
        both.replace(b": ", other, 1) for other in [b":", b":  ", b" : "]]


def sometimes(rng, percent):
    return rng.randrange(100) < percent


def has_spelling(path, version):
    return version == b"1.0" or not re.search(b"%0[AaDd]", path)


def spelled(rng, path, version):
    """The path's spelling in the version, and now and then that of the other version."""
    percent = b"%25" if (version == b"1.0") != sometimes(rng, 4) else b"%"
    escapes = {b"%": [percent], b"\n": [b"%0A", b"%0a"], b"\r": [b"%0D", b"%0d"]}
    return re.sub(rb"[%\n\r]", lambda found: rng.choice(escapes[found[0]]), path)


def colon(rng, version):
    """What stands between a label and a value."""
    if sometimes(rng, 3 if version == b"1.0" else 60):
        return rng.choice([b":", b" : ", b"\t:", b" \t:\t ", b":  ", b":\t\t"])
    return rng.choice([b": ", b": ", b":\t"])


def holders(rng, version, number):
    """Which of so many payload manifests list a path, by their places: in 1.0 all, in 0.97 some, and now and then
    none."""
    if sometimes(rng, 97 if version == b"1.0" else 35):
        return range(number)
    least = 0 if sometimes(rng, 20) else 1
    return rng.sample(range(number), rng.randint(least, number))


def joined(rng, lines):
    """The lines with endings, a mark at the front and empty lines between them as it falls."""
    if sometimes(rng, 15):
        lines = list(lines)
        for place in range(rng.randrange(3)):
            lines.insert(place * 2, rng.choice([b"", b" ", b"\t "] * 6 + [b"\x0c"]))
    endings = rng.choice([[b"\n"]] * 4 + [[b"\r\n"], [b"\r"], [b"\n", b"\r", b"\r\n"]])
    text = b"".join(line + rng.choice(endings) for line in lines)
    if sometimes(rng, 15) and lines:
        text = text.rstrip(b"\r\n")
    return (b"\xef\xbb\xbf" if sometimes(rng, 10) else b"") + text


def content(rng):
    octets = bytes(rng.randrange(256) for _ in range(rng.randrange(9)))
    return octets * rng.choice([1, 1, 1, 1, 8000, 16384]) if sometimes(rng, 10) else octets


def content_at_edges(rng):
    octets = bytes(rng.randrange(256) for _ in range(1 + rng.randrange(8)))
    length = rng.choice(EDGES) if sometimes(rng, 10) else len(octets)
    return (octets * (length // len(octets) + 1))[:length]


def content_of_pieces(rng):
    """As many octets as some pieces of a check have, or nearly."""
    octets = bytes(rng.randrange(256) for _ in range(7))
    length = 131_072 * rng.choice([1, 1, 2, 2, 3, 4]) + rng.choice([-1, 0, 0, 0, 1, 63, 64, 65, 65_536])
    return (octets * (length // len(octets) + 1))[:length]


def manifest_line(rng, digest, path, version):
    digest = rng.choice([str.lower, str.lower, str.upper, str.capitalize])(digest).encode()
    before = rng.choice([b"  "] * 4 + [b" ", b"\t", b" \t  ", b" *", b"  ./", b"\t*./"])
    if path[:1] in (b" ", b"\t", b"*"):
        before = rng.choice([b"  ./", b" *./"])
    return digest + before + spelled(rng, path, version)


class Bag:
    """A bag in memory: the octets of its files, its empty directories, and what isn't allowed in a bag."""

    def __init__(self, rng, version, names=NAMES, contents=content_at_edges):
        self.rng, self.version = rng, version
        self.files, self.directories, self.specials = {b"bagit.txt": declaration(version)}, [b"data"], {}
        for name in rng.sample(names, rng.choice([0, 1, 1, 2, 2, 3, 5])):
            self.files[b"data/" + name] = contents(rng)
        if contents is content_at_edges and sometimes(rng, 2):
            # More files than are hashed side by side, or about as many.
            for number in range(rng.choice([30, 31, 32, 33, 63, 64, 65, 100])):
                self.files[b"data/many/%03d" % number] = contents(rng)
        if contents is content_at_edges and sometimes(rng, 2):
            # Files of several pieces, as many as are read side by side or more, and short ones among them.
            for number in range(rng.choice([1, 2, 3, 4, 5, 7, 8, 9])):
                self.files[b"data/large/%03d" % number] = content_of_pieces(rng)
                if sometimes(rng, 20):
                    self.files[b"data/large/%03d short" % number] = contents(rng)
        for name in rng.sample(TAG_NAMES, rng.choice([0, 0, 0, 1, 2])):
            self.files[name] = contents(rng)
        self.payload_manifests(rng.sample(ALGORITHMS, rng.choice([1, 1, 1, 2, 2, 3, 4])))
        if sometimes(rng, 50):
            self.info()
        if sometimes(rng, 35):
            self.fetch()

    def payload(self):
        return [path for path in self.files if path.startswith(b"data/")]

    def manifest(self, algorithm, paths):
        lines = []
        for path in self.rng.sample(paths, len(paths)):
            if has_spelling(path, self.version) or sometimes(self.rng, 30):
                digest = hashlib.new(algorithm, self.files[path]).hexdigest()
                lines.append(manifest_line(self.rng, digest, path, self.version))
        return joined(self.rng, lines)

    def payload_manifests(self, some):
        lists = [[] for _ in some]
        for path in self.payload():
            for place in holders(self.rng, self.version, len(some)):
                lists[place].append(path)
        for algorithm, paths in zip(some, lists):
            self.files[b"manifest-%s.txt" % algorithm.encode()] = self.manifest(algorithm, paths)

    def tag_manifests(self):
        """They list every tag file, sometimes every one except the payload manifests, and sometimes some."""
        rng = self.rng
        tags = [path for path in self.files if not path.startswith((b"data/", b"tagmanifest-"))]
        if sometimes(rng, 20):
            tags = rng.sample(tags, rng.randrange(len(tags) + 1))
        elif sometimes(rng, 30):
            tags = [path for path in tags if path.startswith(b"manifest-")]
        for algorithm in rng.sample(ALGORITHMS, rng.choice([0, 0, 1, 1, 2])):
            self.files[b"tagmanifest-%s.txt" % algorithm.encode()] = self.manifest(algorithm, tags)

    def oxum(self):
        """The right one."""
        paths = self.payload()
        return b"%d.%d" % (sum(len(self.files[path]) for path in paths), len(paths))

    def info(self):
        rng = self.rng
        elements = [re.sub(rb":[ \t]?", lambda _: colon(rng, self.version), element, count=1)
                    for element in rng.sample(ELEMENTS, rng.randrange(4))]
        label = rng.choice([b"Payload-Oxum"] * 3 + [b"payload-oxum", b"PAYLOAD-OXUM"])
        value = rng.choice([b"%s"] * 4 + [b" %s\t", b"%s ", b"00%s", b"%s\x0c", b"\n %s"]) % self.oxum()
        if sometimes(rng, 15):
            value = rng.choice(BAD_OXUMS + [b"18446744073709551615.0", b"0.0", b"7." + value[-1:], value[:-1] + b"9"])
        if sometimes(rng, 70):
            elements.insert(rng.randrange(len(elements) + 1), label + colon(rng, self.version) + value)
        if sometimes(rng, 5):
            elements.append(b"Payload-Oxum" + colon(rng, self.version) + rng.choice([value, self.oxum(), b"x", b"1.1"]))
        if sometimes(rng, 12):
            elements.insert(rng.randrange(len(elements) + 1), rng.choice(BAD_ELEMENTS))
        if sometimes(rng, 3):
            elements.insert(0, b" continued")
        self.files[b"bag-info.txt"] = joined(rng, b"\n".join(elements).split(b"\n") if elements else [])

    def fetch(self):
        rng = self.rng
        lines = []
        paths = self.payload() or [b"data/none"]
        for _ in range(rng.randrange(4)):
            path = rng.choice(paths)
            length = rng.choice([b"-", b"%d" % len(self.files.get(path, b"")),
                b"%03d" % len(self.files.get(path, b""))])
            url, gap = rng.choice(GOOD_URLS), rng.choice([b" ", b"  ", b"\t"])
            spelling = spelled(rng, path, self.version)
            if sometimes(rng, 18):
                length = rng.choice(BAD_LENGTHS + [b"1", b"2", b"4", b"18446744073709551615"] * 4)
            if sometimes(rng, 8):
                url = rng.choice(BAD_URLS)
            if sometimes(rng, 15):
                unlisted = [b"*data/a.txt", b"./data/a.txt"] + [b"data/z", b"data/z%0a"] * 9
                spelling = rng.choice(BAD_SPELLINGS + OTHER_PLACES + unlisted)
            lines.append(url + gap + length + rng.choice([b" ", b" \t"]) + spelling)
            if sometimes(rng, 6):
                line = lines[-1]
                lines[-1] = rng.choice([url, url + gap, url + gap + length, b" " + line, line + b"\xff", line + b" "])
        self.files[b"fetch.txt"] = joined(rng, lines)

    def tag_file(self, prefixes):
        """The path of some tag file whose name begins so, or None."""
        found = [path for path in self.files if path.startswith(prefixes)]
        return self.rng.choice(found) if found else None

    def drop_file(self):
        self.files.pop(self.rng.choice([path for path in self.files if path != b"bagit.txt"] + [b"none"]), None)

    def add_file(self):
        self.files[b"data/" + self.rng.choice(NAMES)] = content(self.rng)

    def change_file(self):
        path = self.rng.choice(self.payload() or list(self.files))
        octets = self.files[path]
        self.files[path] = self.rng.choice(
            [octets + b"x", octets[:-1], bytes([octets[0] ^ 1]) + octets[1:] if octets else b"y"])

    def rename_file(self):
        paths = self.payload()
        if paths:
            self.files[b"data/" + self.rng.choice(NAMES)] = self.files.pop(self.rng.choice(paths))

    def swap_files(self):
        paths = self.payload()
        if len(paths) > 1:
            one, other = self.rng.sample(paths, 2)
            self.files[one], self.files[other] = self.files[other], self.files[one]

    def copy_manifest(self):
        """One manifest gets the name of another, or an unknown name."""
        path = self.tag_file((b"manifest-", b"tagmanifest-"))
        if path:
            name = (
                self.rng.choice(ALGORITHMS).encode() if sometimes(self.rng, 50) else self.rng.choice(OTHER_ALGORITHMS))
            self.files[self.rng.choice([b"manifest-%s.txt", b"tagmanifest-%s.txt"]) % name] = self.files[path]

    def empty_manifest(self):
        path = self.tag_file((b"manifest-", b"tagmanifest-"))
        if path:
            self.files[path] = b""

    def drop_payload(self):
        for path in self.payload():
            del self.files[path]

    def damage_line(self):
        """One line of a manifest is changed in one way."""
        path = self.tag_file((b"manifest-", b"tagmanifest-"))
        lines = self.files[path].splitlines(True) if path else []
        if lines:
            place = self.rng.randrange(len(lines))
            lines[place] = self.damaged(lines[place])
            self.files[path] = b"".join(lines)

    def damaged(self, line):
        rng = self.rng
        digest, _, rest = line.partition(b" ")
        ways = [
            lambda: b"",
            lambda: digest[1:] + b" " + rest,
            lambda: b"0" + line,
            lambda: b"g" + line[1:],
            lambda: (b"1" if line[:1] != b"1" else b"2") + line[1:],
            lambda: digest + rest.lstrip(),
            lambda: digest + b"\n",
            lambda: b" " + line,
            lambda: line.rstrip(b"\r\n") + b" \n",
            lambda: line.rstrip(b"\r\n") + b"\xff\n",
            lambda: digest + rng.choice([b"\xc2\xa0", b"\x0b", b"\x0c", b"\xe2\x80\x83"]) + rest,
            lambda: digest + b"  data/" + rng.choice(NAMES[:4]) + b"\n",
        ] + [
            lambda: line.rstrip(b"\r\n") + b"\n" + line,
            lambda: digest + b"  " + rng.choice(BAD_SPELLINGS) + b"\n",
            lambda: digest + b"  " + rng.choice(OTHER_PLACES) + b"\n",
        ] * 3
        return rng.choice(ways)()

    def damage_octet(self):
        """One octet of a tag file is changed, dropped or added."""
        path = self.tag_file((b"manifest-", b"tagmanifest-", b"bag", b"fetch"))
        octets = self.files.get(path)
        if octets:
            place = self.rng.randrange(len(octets))
            octet = self.rng.choice(OCTETS + [b""])
            self.files[path] = octets[:place] + octet + octets[place + self.rng.randrange(2):]

    def declare(self):
        """Another declaration, or none, or one with another ending."""
        ended = declaration(self.version).replace(b"\n", self.rng.choice([b"\r", b"\r\n"]))
        declared = self.rng.choice([self.rng.choice(declarations(self.version))] * 3 + [None, ended])
        self.files.pop(b"bagit.txt", None)
        if declared is not None:
            self.files[b"bagit.txt"] = declared

    def drop_payload_directory(self):
        self.directories = [path for path in self.directories if path != b"data"]
        for path in self.payload():
            if sometimes(self.rng, 95):
                del self.files[path]

    def drop_manifests(self):
        for path in [path for path in self.files if path.startswith(b"manifest-")]:
            del self.files[path]

    def put_directory(self):
        """A directory in the place of a file, or somewhere else."""
        others = [b"data/empty/er", b"tags", b"manifest-sha256.txt", b"manifest-zz.txt", b"fetch.txt"]
        path = self.rng.choice(list(self.files) + others)
        self.files.pop(path, None)
        self.directories.append(path)

    def put_special(self):
        path = self.rng.choice([b"data/special", b"special", b"data/\xff", b"manifest-md5.txt"])
        self.files.pop(path, None)
        links = [lambda place: os.symlink(b"data", place), lambda place: os.symlink(b"none", place)]
        self.specials[path] = self.rng.choice([os.mkfifo] + links)

    def write(self, folder):
        """What can't exist next to the earlier files is left out."""
        os.mkdir(folder)
        for path in self.directories:
            os.makedirs(os.path.join(folder, path), exist_ok=True)
        for path, octets in self.files.items():
            try:
                os.makedirs(os.path.dirname(os.path.join(folder, path)), exist_ok=True)
                with open(os.path.join(folder, path), "xb") as file:
                    file.write(octets)
            except (FileExistsError, NotADirectoryError):
                pass
        for path, make in self.specials.items():
            place = os.path.join(folder, path)
            if os.path.isdir(os.path.dirname(place)) and not os.path.lexists(place):
                make(place)


DAMAGES = (
    [Bag.drop_file] * 4 + [Bag.add_file] * 3 + [Bag.change_file] * 5 + [Bag.rename_file] * 3 + [Bag.swap_files] * 2
    + [Bag.copy_manifest] * 2 + [Bag.damage_line] * 8 + [Bag.damage_octet] * 8 + [Bag.declare] * 4 + [
        Bag.drop_payload_directory, Bag.drop_payload, Bag.drop_manifests, Bag.empty_manifest, Bag.put_directory,
        Bag.put_special])


def made(seed, number):
    """The bag of this number. Damage done before the tag manifests are written agrees with them."""
    rng = random.Random(f"{seed} {number}")
    bag = Bag(rng, VERSIONS[number % 2])
    damages = [rng.choice(DAMAGES) for _ in range(rng.choice([0, 1, 1, 1, 2, 2, 3, 4]))]
    early = [sometimes(rng, 50) for _ in damages]
    for damage, now in zip(damages, early):
        if now:
            damage(bag)
    bag.tag_manifests()
    for damage, now in zip(damages, early):
        if not now:
            damage(bag)
    return bag


def shape(line):
    """What kind of line it is: a line's number, the paths and the algorithms don't matter."""
    line = re.sub(r"^((?:tag)?manifest)-\w+\.txt", r"\1", line)
    line = re.sub(r"^(.*?):\d+: ", r"\1:N: ", line)
    line = re.sub(r"(not listed|missing|unlisted|digest|length|not in manifest-\w+\.txt): .*", r"\1", line)
    return re.sub(r"(not in|outside: algorithm) .*", r"\1", line)


def shapes():
    """Every kind of line that a check of a folder prints, except for the limits. Each occurs for each version."""
    manifest = ["not UTF-8", "separator", "digest form", "path", "wrong place", "twice"]
    causes = {
        "bag-info.txt": ["not UTF-8", "nothing to continue", "separator", "label"],
        "fetch.txt": ["not UTF-8", "separator", "url", "length", "path", "wrong place"],
        "manifest": manifest,
        "tagmanifest": manifest,
    }
    lines = [f"{file}:N: {cause}" for file, some in causes.items() for cause in some]
    faults = ["not UTF-8", "byte order mark", "line count", "label", "version", "encoding name"]
    lines += [f"bagit.txt: {fault}" for fault in faults]
    lines += ["no bagit.txt", "no data directory", "no payload manifest", "tagmanifest: not listed",
        "manifest: unlisted"]
    lines += [f"bag-info.txt: Payload-Oxum {word}" for word in ["form", "repeated", "wrong"]]
    lines += [f"{file}: {word}" for file in ["manifest", "tagmanifest"] for word in ["missing", "digest"]]
    lines += ["fetch.txt: not in", "fetch.txt:N: length", "outside: version", "outside: encoding", "outside: algorithm"]
    return lines + ["bag: files", "valid", "complete, not valid", "not complete"]
