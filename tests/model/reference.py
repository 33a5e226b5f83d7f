#!/usr/bin/env python3
"""A second implementation of `bag check DIR`, written only from docs/FORMAT.md. tests/tools.sh compares the two.

The numbers in brackets are sections of docs/FORMAT.md. Paths, names and texts are octets throughout.
"""
import hashlib
import os
import re
import stat
import sys

ALGORITHMS = {b"md5": 32, b"sha1": 40, b"sha256": 64, b"sha512": 128}
MARK = b"\xef\xbb\xbf"
BLANKS = b" \t"
TAG_LIMIT, LINE_LIMIT, FILE_LIMIT, PATH_LIMIT = 16777216, 100000, 200000, 4096
# The name of a manifest, its algorithm known or not [5].
MANIFEST = re.compile(rb"(tag)?manifest-([A-Za-z0-9_]+)\.txt")
URL = re.compile(rb"[A-Za-z][A-Za-z0-9+.-]*:[^\x00-\x20\x7f]+")
VERSIONS = b"1.0", b"0.97"
NUMBER = rb"(0|[1-9][0-9]{0,8})"
VERSION = re.compile(NUMBER + rb"\." + NUMBER)


class End(Exception):
    """The check ends with these lines and this status."""

    def __init__(self, lines, status):
        super().__init__()
        self.lines, self.status = lines, status


class BadLine(Exception):
    """A line can't be read; the cause is the text printed."""


def is_utf8(octets):
    try:
        octets.decode("utf-8")
    except UnicodeDecodeError:
        return False
    return True


def lines_of(octets):
    """[2]"""
    parts = re.split(rb"\r\n|\r|\n", octets)
    return parts if parts[-1] else parts[:-1]


def numbered(octets):
    """The lines that aren't skipped, with their numbers [2]."""
    if octets.startswith(MARK):
        octets = octets[len(MARK):]
    return [(n, line) for n, line in enumerate(lines_of(octets), 1) if line.strip(BLANKS)]


def cut(line):
    """The part before the first blank, and what follows after all blanks; None if there is no blank."""
    found = re.search(rb"[ \t]+", line)
    return (line[:found.start()], line[found.end():]) if found else None


def spell(path):
    """[4]"""
    return path.replace(b"%", b"%25").replace(b"\n", b"%0A").replace(b"\r", b"%0D")


def unescape(spelling, version):
    """[4, 15]"""
    if version == b"0.97":
        return re.sub(rb"%0[Dd]", b"\r", re.sub(rb"%0[Aa]", b"\n", spelling))
    if re.search(rb"%(?!0[Aa]|0[Dd]|25)", spelling):
        raise BadLine("path")
    return re.sub(rb"%(..)", lambda found: bytes([int(found[1], 16)]), spelling)


def is_path(path):
    """[4]"""
    if not path or len(path) > PATH_LIMIT or b"\0" in path or path == b"data":
        return False
    return not any(segment in (b"", b".", b"..") for segment in path.split(b"/"))


def read_path(spelling, version):
    """[4]"""
    path = unescape(spelling, version)
    if not is_path(path):
        raise BadLine("path")
    return path


def is_payload(path):
    return path.startswith(b"data/")


def read_declaration(octets):
    """The fault, or the version and whether the encoding is UTF-8 [3]."""
    if not is_utf8(octets):
        return "not UTF-8", None
    if octets.startswith(MARK):
        return "byte order mark", None
    lines = lines_of(octets)
    if len(lines) != 2:
        return "line count", None
    labels = b"BagIt-Version: ", b"Tag-File-Character-Encoding: "
    if not all(line.startswith(label) for line, label in zip(lines, labels)):
        return "label", None
    version, encoding = (line[len(label):] for line, label in zip(lines, labels))
    if not VERSION.fullmatch(version):
        return "version", None
    if not re.fullmatch(rb"[!-~]+", encoding):
        return "encoding name", None
    return None, (version, encoding.upper() == b"UTF-8")


def read_manifest(name, version):
    """The digests by path [6]."""
    tag, algorithm = MANIFEST.fullmatch(name).groups()
    pairs = {}

    def take(line):
        parts = cut(line)
        if parts is None:
            raise BadLine("separator")
        digest, text = parts
        if not re.fullmatch(rb"[0-9A-Fa-f]{%d}" % ALGORITHMS[algorithm], digest):
            raise BadLine("digest form")
        text = text[1:] if text.startswith(b"*") else text
        path = read_path(text[2:] if text.startswith(b"./") else text, version)
        if is_payload(path) if tag else not is_payload(path):
            raise BadLine("wrong place")
        found = MANIFEST.fullmatch(path)
        if tag and found and found[1]:
            raise BadLine("wrong place")
        if path in pairs:
            raise BadLine("twice")
        pairs[path] = digest.lower().decode()

    return pairs, take


def cut_element(line, version):
    """The label and the first line of the value [7, 15]."""
    label, colon, rest = line.partition(b":")
    if not colon:
        raise BadLine("separator")
    if version == b"0.97":
        return label.rstrip(BLANKS), rest.lstrip(BLANKS)
    if rest[:1] not in (b"", b" ", b"\t"):
        raise BadLine("separator")
    return label, rest[1:]


def read_info(_, version):
    """The elements, each a list of label and value [7]."""
    elements = []

    def take(line):
        if line[:1] in (b" ", b"\t"):
            if not elements:
                raise BadLine("nothing to continue")
            elements[-1][1] += b"\n" + line.lstrip(BLANKS)
            return
        label, first = cut_element(line, version)
        if not label or label.strip(BLANKS) != label or label.startswith(MARK):
            raise BadLine("label")
        elements.append([label, first])

    return elements, take


def read_number(digits):
    """A number below 2^64, or None [7, 8]."""
    if not re.fullmatch(rb"0*[0-9]{1,20}", digits):
        return None
    number = int(digits[-20:])
    return number if number < 2**64 else None


def read_fetch(_, version):
    """The length, or None, and the path of each entry [8], each at the index of its line."""
    entries = []

    def take(line):
        first = cut(line)
        second = first and cut(first[1])
        if not second:
            raise BadLine("separator")
        (url, _), (length, text) = first, second
        if not URL.fullmatch(url):
            raise BadLine("url")
        if length != b"-" and read_number(length) is None:
            raise BadLine("length")
        path = read_path(text, version)
        if not is_payload(path):
            raise BadLine("wrong place")
        entries.append((None if length == b"-" else read_number(length), path))

    return entries, take


class Bag:
    """The paths in order, and the faults found: each is (number, file, line, path) and its text."""

    def __init__(self, paths, has_payload_directory):
        self.paths, self.has_payload_directory, self.faults = sorted(paths), has_payload_directory, set()
        self.payload = [path for path in self.paths if is_payload(path)]

    def octets(self, path):
        raise NotImplementedError

    def judge(self):
        """The printed lines and the status [14]."""
        try:
            self.judge_declaration()
            self.judge_form()
            self.judge_files()
        except End as end:
            return end.lines, end.status
        return ["valid"], 0

    def length(self, path):
        return len(self.octets(path)) if path in self.paths else None

    def tell(self, number, text, file=b"", line=0, path=b""):
        self.faults.add((number, file, line, path, text))

    def end_where_at_fault(self):
        """The first tier that has a fault ends the list [11]."""
        if self.faults:
            lines = [fault[-1] for fault in sorted(self.faults)]
            complete = all(fault[0] == 14 for fault in self.faults)
            raise End(lines + ["complete, not valid" if complete else "not complete"], 1)

    def text(self, name):
        """A tag file that is read as text [13]."""
        octets = self.octets(name)
        if len(octets) > TAG_LIMIT:
            raise End(["bag: tag too large"], 3)
        return octets

    def judge_declaration(self):
        """Tier 1, and what isn't judged [11, 12]."""
        if b"bagit.txt" not in self.paths:
            self.tell(1, "no bagit.txt")
            self.end_where_at_fault()
        fault, declared = read_declaration(self.text(b"bagit.txt"))
        if fault:
            self.tell(2, "bagit.txt: " + fault)
            self.end_where_at_fault()
        self.version, is_utf8_encoded = declared
        if self.version not in VERSIONS:
            raise End(["outside: version"], 2)
        if not is_utf8_encoded:
            raise End(["outside: encoding"], 2)
        for path in self.paths:
            found = MANIFEST.fullmatch(path)
            if found and found[2] not in ALGORITHMS:
                raise End(["outside: algorithm " + found[2].decode()], 2)

    def read(self, name, reader):
        """The content of the file, or None if a line can't be read, which is then reported."""
        octets = self.text(name)
        if name != b"bag-info.txt" and len(lines_of(octets)) > LINE_LIMIT:
            raise End(["bag: too many"], 3)
        value, take = reader(name, self.version)
        for number, line in numbered(octets):
            try:
                if not is_utf8(line):
                    raise BadLine("not UTF-8")
                take(line)
            except BadLine as cause:
                self.tell(5, "%s:%d: %s" % (name.decode(), number, cause), name, number)
                return None
            if name == b"fetch.txt":
                value[-1] = (number, *value[-1])
        return value

    def judge_form(self):
        """Tier 2 [11]. The content of the tag files is kept for tier 3."""
        self.manifests, self.fetch, self.oxums, elements = {}, [], [], []
        for name in self.paths:
            if MANIFEST.fullmatch(name):
                self.manifests[name] = self.read(name, read_manifest)
            elif name == b"bag-info.txt":
                elements = self.read(name, read_info) or []
            elif name == b"fetch.txt":
                self.fetch = self.read(name, read_fetch) or []
        self.payload_manifests = [name for name in self.manifests if name.startswith(b"manifest-")]
        if not self.has_payload_directory:
            self.tell(3, "no data directory")
        if not self.payload_manifests:
            self.tell(4, "no payload manifest")
        for name, pairs in self.manifests.items():
            for listed in self.payload_manifests if name.startswith(b"tag") and pairs is not None else []:
                if listed not in pairs:
                    self.tell(6, "%s: not listed: %s" % (name.decode(), listed.decode()), name, 0, listed)
        self.judge_oxum_form([value for label, value in elements if label.lower() == b"payload-oxum"])
        self.end_where_at_fault()

    def judge_oxum_form(self, values):
        """[7]"""
        for value in values:
            parts = [read_number(part) for part in value.strip(BLANKS).split(b".")]
            if len(parts) != 2 or None in parts:
                self.tell(7, "bag-info.txt: Payload-Oxum form")
            self.oxums.append(parts)
        if len(values) > 1:
            self.tell(8, "bag-info.txt: Payload-Oxum repeated")

    def judge_files(self):
        """Tier 3 [11]."""
        present = set(self.paths)
        for name, pairs in self.manifests.items():
            algorithm = MANIFEST.fullmatch(name)[2].decode()
            for path, digest in pairs.items():
                if path not in present:
                    self.tell_path(9, name, "missing", path)
                elif hashlib.new(algorithm, self.octets(path)).hexdigest() != digest:
                    self.tell_path(14, name, "digest", path)
        for path in self.payload:
            for name in self.lacking(path):
                self.tell_path(10, name, "unlisted", path)
        self.judge_fetch()
        numbers = [sum(self.length(path) for path in self.payload), len(self.payload)]
        if self.oxums and self.oxums[0] != numbers:
            self.tell(13, "bag-info.txt: Payload-Oxum wrong")
        self.end_where_at_fault()

    def lacking(self, path):
        """The payload manifests that are reported because they don't list the path [9, 15]."""
        names = sorted(name for name in self.payload_manifests if path not in self.manifests[name])
        if self.version == b"0.97":
            return names[:1] if len(names) == len(self.payload_manifests) else []
        return names

    def judge_fetch(self):
        """[8, 9]"""
        for number, length, path in self.fetch:
            for name in self.lacking(path):
                text = "fetch.txt: not in %s: %s" % (name.decode(), spell(path).decode())
                self.tell(11, text, name, 0, path)
            if length is not None and self.length(path) not in (None, length):
                text = "fetch.txt:%d: length: %s" % (number, spell(path).decode())
                self.tell(12, text, b"fetch.txt", number, path)

    def tell_path(self, number, manifest, word, path):
        self.tell(number, "%s: %s: %s" % (manifest.decode(), word, spell(path).decode()), manifest, 0, path)


class Folder(Bag):
    """A bag in a folder."""

    def __init__(self, folder):
        self.folder = folder
        paths, directories = [], []
        self.walk(b"", paths, directories)
        super().__init__(paths, b"data" in directories)

    def walk(self, below, paths, directories):
        """[9, 14]"""
        try:
            names = os.listdir(os.path.join(self.folder, below))
            for name in names:
                path = below + b"/" + name if below else name
                mode = os.lstat(os.path.join(self.folder, path)).st_mode
                if not is_utf8(name):
                    raise OSError
                if stat.S_ISDIR(mode):
                    directories.append(path)
                    self.walk(path, paths, directories)
                elif not stat.S_ISREG(mode) or path == b"data" or len(path) > PATH_LIMIT:
                    raise OSError
                else:
                    paths.append(path)
        except OSError:
            raise End(["bag: files"], 3) from None

    def octets(self, path):
        with open(os.path.join(self.folder, path), "rb") as file:
            return file.read()


def check(folder):
    """The printed lines and the status [14]."""
    try:
        bag = Folder(folder)
    except End as end:
        return end.lines, end.status
    if len(bag.paths) > FILE_LIMIT:
        return ["bag: too many"], 3
    return bag.judge()


if __name__ == "__main__":
    printed, answer = check(os.fsencode(sys.argv[1]))
    sys.stdout.buffer.write("".join(line + "\n" for line in printed).encode())
    sys.exit(answer)
