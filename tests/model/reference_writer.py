"""A second implementation of the writer of bags, written only from section 17 of docs/FORMAT.md.

The numbers in brackets are sections of docs/FORMAT.md.
"""
import hashlib
import re

DECLARATION = b"BagIt-Version: 1.0\nTag-File-Character-Encoding: UTF-8\n"
ALGORITHMS = ["md5", "sha1", "sha256", "sha512"]
MOST_FILES, LARGEST_TAG_FILE = 100000, 16777216
# A scheme, a colon, and more without blanks and controls [8].
URL = re.compile("[A-Za-z][A-Za-z0-9+.-]*:[^\\x00- \\x7f]+")


class Order:
    """What to write: a tree, algorithms, elements and holes."""

    def __init__(self, files, algorithms=("sha256",), elements=(), holes=()):
        self.files = {path.encode(): octets for path, octets in dict(files).items()}
        self.payload = {path: self.files[path] for path in sorted(self.files) if path.startswith(b"data/")}
        self.algorithms = [name for name in ALGORITHMS if name in algorithms]
        self.elements = list(elements)
        self.holes = [(path.encode(), url) for path, url in holes]

    def refusal(self):
        """The refusal that is reported before anything is written, or None [17.1]."""
        if not self.algorithms:
            return "no algorithm"
        if any(label.lower() == "payload-oxum" for label, _ in self.elements):
            return "Oxum given"
        earlier = set()
        for place, (path, url) in enumerate(self.holes):
            if path not in self.payload or path in earlier or not URL.fullmatch(url):
                return f"bad hole {place}"
            earlier.add(path)
        folders = {path[:end] for path in self.payload for end in range(len(path)) if path[end:end + 1] == b"/"}
        clashes = folders.intersection(self.payload)
        if clashes:
            return "clash " + spelled(min(clashes)).decode()
        return "too large" if self.is_too_large_empty() else None

    def is_too_large_empty(self):
        """Whether something is too large even if every payload file is empty [17.1]."""
        empty = Order({path.decode(): b"" for path in self.payload}, self.algorithms, self.elements)
        empty.holes = self.holes
        return len(self.payload) > MOST_FILES or any(len(octets) > LARGEST_TAG_FILE for _, octets in empty.tag_files())

    def answer(self):
        """The first line, and the files that are there then [17.1, 17.2]."""
        refusal = self.refusal()
        if refusal:
            return "refused: " + refusal, None
        holes = dict(self.holes)
        files = {path: octets for path, octets in self.payload.items() if path not in holes}
        for name, octets in self.tag_files():
            if len(octets) > LARGEST_TAG_FILE:
                return "refused: too large", files
            files[name] = octets
        return "written " + self.oxum(), files

    def oxum(self):
        return f"{sum(map(len, self.payload.values()))}.{len(self.payload)}"

    def tag_files(self):
        """The tag files in the order of their names [17.3]."""
        listed = {
            b"bag-info.txt": "".join(
                label + ": " + value.replace("\n", "\n ") + "\n"
                for label, value in [*self.elements, ("Payload-Oxum", self.oxum())]).encode(),
            b"bagit.txt": DECLARATION,
        }
        if self.holes:
            listed[b"fetch.txt"] = b"".join(
                b"%s %d %s\n" % (url.encode(), len(self.payload[path]), spelled(path)) for path, url in self.holes)
        for name in self.algorithms:
            listed[b"manifest-%s.txt" % name.encode()] = manifest(name, self.payload)
        yield from listed.items()
        for name in self.algorithms:
            yield b"tagmanifest-%s.txt" % name.encode(), manifest(name, listed)

    def parts(self):
        """The parts of an answer: the first line, and what is there then, in hex."""
        first, files = self.answer()
        return [first] if files is None else [first, "data/",
            *(f"{path.hex()} {files[path].hex()}" for path in sorted(files))]


def spelled(path):
    """[4]"""
    return path.replace(b"%", b"%25").replace(b"\n", b"%0A").replace(b"\r", b"%0D")


def manifest(algorithm, files):
    """[17.3] No path here begins with a mark or a blank."""
    return b"".join(
        b"%s  %s\n" % (hashlib.new(algorithm, files[path]).hexdigest().encode(), spelled(path))
        for path in sorted(files))


def verdict(order):
    """What a check of the written bag has to print, and its status."""
    missing = sorted(path for path, _ in order.holes)
    if not missing:
        return ["valid"], 0
    lines = [f"manifest-{name}.txt: missing: {spelled(path).decode()}" for name in order.algorithms for path in missing]
    return [*lines, "bag-info.txt: Payload-Oxum wrong", "not complete"], 1
