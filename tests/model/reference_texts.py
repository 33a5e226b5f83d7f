"""A second reader of tag files, each alone: what it says, as the driver prints it (tests/feeds.py describes that). It
uses the rules of tests/model/reference.py."""
import reference


def field(octets):
    return octets.hex() or "-"


class Text(reference.Bag):
    """One tag file, which is read by the rules of a version."""

    def __init__(self, name, version, octets):
        super().__init__([name], False)
        self.name, self.version, self.text_octets = name, version, octets

    def octets(self, path):
        return self.text_octets

    def reading(self):
        """What the driver prints of it."""
        if self.name == b"bag-info.txt":
            value = self.read(self.name, reference.read_info)
            found = ["elements", *(field(part) for element in value or [] for part in element)]
        elif self.name == b"fetch.txt":
            value = self.read(self.name, reference.read_fetch)
            lines = dict(reference.numbered(self.text_octets))
            found = ["entries"]
            for number, length, path in value or []:
                url = reference.cut(lines[number])[0]
                found += [str(number), field(url), "-" if length is None else str(length), field(path)]
        else:
            value = self.read(self.name, reference.read_manifest)
            found = ["pairs", *(part for path, digest in (value or {}).items() for part in (digest, field(path)))]
        if value is None:
            found = [fault[-1] for fault in self.faults]
        return " ".join([str(len(reference.lines_of(self.text_octets))), *found])


def pairs(*parts):
    return " ".join(["pairs", *(part if isinstance(part, str) else field(part) for part in parts)])
