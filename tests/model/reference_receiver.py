"""A second implementation of the receiver of transfers, written only from docs/FORMAT.md; it uses the rules of
tests/model/reference.py. tests/deliveries.py compares the two, and tests/data/worked_answers.py has worked cases for
both.

The numbers in brackets are sections of docs/FORMAT.md. Names, paths and contents are octets; an answer is the text of
its line.
"""
import hashlib
import re

import reference

ITEM_LIMIT, RUN_LIMIT = 1073741824, 1000000
NAME = re.compile(rb"[a-z0-9-]{1,64}")


class Refused(Exception):
    """A refusal; the cause is the text printed."""


def printed(path):
    return reference.spell(path).decode()


def is_too_large(path, octets):
    found = reference.MANIFEST.fullmatch(path)
    has_counted_lines = path == b"fetch.txt" or (found and found[2] in reference.ALGORITHMS)
    too_many = has_counted_lines and len(reference.lines_of(octets)) > reference.LINE_LIMIT
    return too_many or len(octets) > reference.TAG_LIMIT


def tags_of(files):
    """The tag files by path. `files` are pairs of path and octets."""
    tags = {}
    for place, (path, octets) in enumerate(files):
        if not reference.is_path(path) or reference.is_payload(path) or path in tags:
            raise Refused(f"tag path {place}")
        tags[path] = octets
    large = [path for path, octets in tags.items() if is_too_large(path, octets)]
    if large:
        raise Refused("tag too large " + printed(min(large)))
    return tags


class HeldBag(reference.Bag):
    """A bag of files in memory, whose payload directory counts as existing."""

    def __init__(self, files):
        super().__init__(files, True)
        self.files = files

    def octets(self, path):
        return self.files[path]


def can_be_mended(fault):
    """Whether payload files still to come can remedy this fault of tier 3."""
    number, file = fault[:2]
    return number in (12, 13) or (number == 14 and file.startswith(b"manifest-"))


class Transfer:
    """The tag files, what they say about the payload files, and the payload files taken."""

    def __init__(self, tags):
        self.tags, self.held = tags, {}
        bag = HeldBag(tags)
        try:
            bag.judge_declaration()
            bag.judge_form()
        except reference.End as end:
            raise Refused(end.lines[0]) from None
        self.fetch = [path for _, _, path in bag.fetch]
        self.lengths = [(path, length) for _, length, path in bag.fetch if length is not None]
        # The digests listed for each path, by algorithm.
        self.listed = {}
        for name in bag.payload_manifests:
            for path, digest in bag.manifests[name].items():
                self.listed.setdefault(path, {})[reference.MANIFEST.fullmatch(name)[2].decode()] = digest
        self.refuse_what_stays()
        self.refuse_clash()

    def refuse_what_stays(self):
        """The first fault that no payload file can remedy, if all listed files count as existing."""
        whole = HeldBag({**self.tags, **dict.fromkeys(self.listed, b"")})
        whole.judge()
        faults = [fault for fault in whole.faults if not can_be_mended(fault)]
        if faults:
            raise Refused(min(faults)[-1])

    def refuse_clash(self):
        paths = {*self.tags, *self.listed}
        folders = {path[:place] for path in paths for place, octet in enumerate(path) if octet == ord("/")}
        if paths & folders:
            raise Refused("clash " + printed(min(paths & folders)))

    def want(self, path):
        if not reference.is_path(path):
            raise Refused("path")
        if path not in self.listed:
            raise Refused("not listed")

    def test(self, path, octets):
        self.want(path)
        if len(octets) > ITEM_LIMIT:
            raise Refused("too large")
        if any(length != len(octets) for other, length in self.lengths if other == path):
            raise Refused("length")
        for algorithm in map(bytes.decode, reference.ALGORITHMS):
            if self.listed[path].get(algorithm) not in (None, hashlib.new(algorithm, octets).hexdigest()):
                raise Refused(f"digest {algorithm}")

    def report(self):
        """The lines."""
        return HeldBag({**self.tags, **self.held}).judge()[0]


class Receiver:
    """The transfers that are open, by name [16]."""

    def __init__(self):
        self.transfers = {}

    def begin(self, name, files):
        try:
            if not NAME.fullmatch(name):
                raise Refused("name")
            transfer = Transfer(tags_of(files))
            if name in self.transfers and self.transfers[name].tags != transfer.tags:
                raise Refused("differs")
        except Refused as cause:
            return f"refused: {cause}"
        if name in self.transfers:
            return "again"
        self.transfers[name] = transfer
        return "new"

    def deliver(self, name, path, octets):
        try:
            transfer = self.named(name)
            transfer.test(path, octets)
        except Refused as cause:
            return f"refused: {cause}"
        if path in transfer.held:
            return "repeated"
        transfer.held[path] = octets
        return "taken"

    def fail(self, name, path, octets):
        """A delivery by a reader that fails after these octets. What no octets are read for is answered before."""
        try:
            self.named(name).want(path)
        except Refused as cause:
            return f"refused: {cause}"
        return "refused: too large" if len(octets) > ITEM_LIMIT else "refused: reader"

    def run(self, name, items, breaks=False):
        """The answers, and how the run ended. `items` are pairs of path and octets. If it breaks, the reader of the
        first one fails."""
        answers = [
            self.fail(name, path, octets) if breaks and place == 0 else self.deliver(name, path, octets)
            for place, (path, octets) in enumerate(items[:RUN_LIMIT])
        ]
        return answers, "too many" if len(items) > RUN_LIMIT else "done"

    def report(self, name):
        """The lines."""
        try:
            return self.named(name).report()
        except Refused as cause:
            return [f"refused: {cause}"]

    def names(self):
        return sorted(self.transfers)

    def named(self, name):
        if name not in self.transfers:
            raise Refused("no transfer")
        return self.transfers[name]


def ledger_of(receiver):
    """What it holds: for each transfer its tag files and its payload files."""
    return {name: (dict(transfer.tags), dict(transfer.held)) for name, transfer in receiver.transfers.items()}


def known(ledger):
    """A receiver with this ledger."""
    receiver = Receiver()
    for name, (tags, held) in (ledger or {}).items():
        assert receiver.begin(name, list(tags.items())) == "new"
        assert all(receiver.deliver(name, path, octets) == "taken" for path, octets in held.items())
    return receiver
