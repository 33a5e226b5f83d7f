"""Judges the answers to a list of calls, in which one request for memory may have been refused, or one call of a device
may have failed. It was written from docs/FORMAT.md, with the second programs for it beside it. What a refusal may do is
this: the call that met it answers what is due, or that it was refused, and then nothing has changed; all other calls
answer what is due for what is held. After a failure of its store a ledger answers nothing else until it is opened
again, and then the call in which the store failed was done, or not.

tests/refusals.py describes the calls and their answers.
"""
import contextlib
import copy
import functools
import hashlib
import pathlib
import re
import sqlite3
import tempfile

import reference
import reference_receiver
import reference_texts
import reference_writer
from ledger_rows import rows
from reference_receiver import Refused, known, ledger_of, printed
from reference_writer import DECLARATION

ALGORITHMS = list(map(bytes.decode, reference.ALGORITHMS))
NO_MEMORY = "refused: memory"


class Otherwise(Exception):
    """An answer that isn't due, and that no refusal explains."""


def shown(has_directory, files):
    """The payload directory and the files as parts of an answer."""
    return ["data/"] * has_directory + [f"{path.hex()} {files[path].hex()}" for path in sorted(files)]


@functools.lru_cache(maxsize=4)
def held_in(log, database):
    """The number of the format and the ledger that sqlite3 finds in these two files, which are given as `unhexed` takes
    them; 0 and None if there are no tables."""
    octets = unhexed(database)
    # The first page of a new database is written with another first octet, which sqlite3 doesn't accept, and that octet
    # comes last.
    if octets[:16] == b"\0QLite format 3\0" and len(octets) <= 4_096:
        return 0, None
    with tempfile.TemporaryDirectory() as folder:
        file = pathlib.Path(folder) / "ledger"
        file.write_bytes(octets)
        file.with_name("ledger-wal").write_bytes(unhexed(log))
        with contextlib.closing(sqlite3.connect(file)) as opened:
            opened.execute("PRAGMA synchronous = OFF")
            ask = lambda text, *fields: opened.execute(text, fields).fetchall()
            ledger = rows(ask)
            return (0 if ledger is None else ask("SELECT v FROM meta")[0][0]), ledger


def unhexed(field):
    """The octets of a field in hex, in which zeros that follow each other are a number in parentheses; `-` if there are
    none."""
    return bytes.fromhex(re.sub(r"\((\d+)\)", lambda zeros: "00" * int(zeros[1]), field.removeprefix("-")))


class Tree(reference_receiver.HeldBag):
    """Files in memory, with a payload directory only if there is a payload file."""

    def __init__(self, files):
        super().__init__(files)
        self.has_payload_directory = bool(self.payload)


class World:
    """What is held, and the draft of a bag. `may` has the words of each refusal that the call may have met."""

    def __init__(self):
        self.receiver, self.is_spent, self.may = reference_receiver.Receiver(), False, []
        # The call in which the store failed, and whether a refusal was answered.
        self.doubt, self.has_refused = None, False
        # The format of the ledger, if it is in files, of which there is none before it is made; or a database that is
        # no ledger.
        self.formats, self.alien, self.due = {0}, None, "opened"
        self.clear()

    def clear(self):
        self.files, self.algorithms, self.elements, self.holes = {}, [], [], []

    def settled(self):
        """The worlds that may be there when the ledger is opened again."""
        call, self.doubt = self.doubt, None
        if call is None:
            return [self]
        other = copy.deepcopy(self)
        if call[0] == "begin":
            other.receiver.begin(call[1], pairs(call[2:]))
        else:
            other.receiver.deliver(*call[1:])
        return [self, other]

    def judge(self, event, answer, may):
        """Judges the answer to a call."""
        self.may = list(may)
        word, *fields = event
        getattr(self, "judge_" + word.replace("-", "_"))((fields or [b""])[0], pairs(fields[1:]), answer)

    def refused(self, answer, due, call=None):
        """The answer isn't the one that is due, and has to be a refusal that may be. `call` is what was to be done to
        the ledger."""
        word = answer.removeprefix("refused: ")
        if self.is_spent and word == "store":
            return
        if not answer.startswith("refused: ") or not self.may_be(word):
            raise Otherwise(f"{answer!r} instead of {due!r}")
        self.may.remove(next(words for words in self.may if word in words))
        self.has_refused = True
        if word == "store":
            self.is_spent, self.doubt = True, call

    def may_be(self, word):
        return any(word in words for words in self.may)

    def same(self, answer, due):
        """A call that changes nothing."""
        if answer != due:
            self.refused(answer, due)

    # OPENING

    def judge_start(self, _, __, answer):
        self.receiver, self.doubt, self.formats = reference_receiver.Receiver(), None, {0}
        self.opened(answer, "started")

    def judge_load(self, due, files, answer):
        """The database of a file, with what is due if it is opened."""
        [(_, octets)] = files
        self.due = due.decode()
        if self.due == "opened":
            number, ledger = held_in("", octets.hex())
            self.receiver, self.doubt, self.formats = known(ledger), None, {number}
        else:
            self.alien = octets
        self.opened(answer, self.due)

    def judge_reopen(self, _, __, answer):
        self.opened(answer, self.due)

    def opened(self, answer, due):
        """A ledger that is opened is of format 2. If it was refused, it may be."""
        self.is_spent = False
        self.same(answer, due)
        self.is_spent = False
        self.formats = {2} if answer == due else self.formats | {2}

    def judge_left(self, _, __, answer):
        """What sqlite3 finds in the files of the ledger, if it is in files, once it was left as a program does that
        stops."""
        self.is_spent = False
        word, *files = answer.split(" ")
        if word != "left" or files and self.alien is not None and unhexed(files[1]) != self.alien:
            raise Otherwise(f"{answer[:300]!r}: what is no ledger was written")
        if not files or self.alien is not None:
            return
        try:
            number, ledger = held_in(*files)
        except (AssertionError, sqlite3.Error, ValueError) as fault:
            raise Otherwise(f"sqlite3 finds {fault!r} in what is left") from fault
        if number not in self.formats or (ledger or {}) != ledger_of(self.receiver):
            raise Otherwise(f"what is left has format {number} and {ledger!r:.300}")

    def judge_adopt(self, _, __, answer):
        self.same(answer, "refused: not a ledger")

    # A RECEIVER

    def of_store(self, answer, due, needs_store=True):
        """The answer of a call that changes nothing."""
        if answer != due or self.is_spent and needs_store:
            self.refused(answer, due)

    def judge_begin(self, name, files, answer):
        before = dict(self.receiver.transfers)
        due = self.receiver.begin(name, files)
        if due not in ("new", "again"):
            self.of_store(answer, due, due == "refused: differs")
        elif answer != due or self.is_spent:
            self.receiver.transfers = before
            self.refused(answer, due, ("begin", name, *(field for file in files for field in file)) if due == "new"
                else None)

    def judge_delivery(self, name, path, octets, answer):
        due = self.receiver.deliver(name, path, octets)
        if due != "taken":
            self.of_store(answer, due, due == "repeated")
        elif answer != due or self.is_spent:
            del self.receiver.transfers[name].held[path]
            self.refused(answer, due, ("deliver", name, path, octets))

    def judge_deliver(self, name, files, answer):
        self.judge_delivery(name, *files[0], answer)

    judge_read = judge_deliver

    def judge_run(self, name, files, answer):
        *given, end = answer.split(" | ")
        if len(given) > len(files):
            raise Otherwise(f"{answer!r}: {len(files)} were delivered")
        for (path, octets), one in zip(files, given):
            self.judge_delivery(name, path, octets, one)
        if end != "done":
            self.refused("refused: " + end, "done")
        elif len(given) < len(files):
            raise Otherwise(f"{answer!r}: {len(files)} were to be delivered")

    judge_bring = judge_run

    def judge_report(self, name, _, answer):
        self.of_store(answer, " | ".join(self.receiver.report(name)), name in self.receiver.transfers)

    judge_audit = judge_report

    def judge_names(self, _, __, answer):
        self.of_store(answer, b" ".join(self.receiver.names()).decode())

    def asked_for(self, name):
        """The number of each line of `fetch.txt`, with its path."""
        transfer = self.receiver.transfers[name]
        return list(zip((number for number, _ in reference.numbered(transfer.tags.get(b"fetch.txt", b""))),
            transfer.fetch))

    def judge_fetch(self, name, files, answer):
        if name not in self.receiver.transfers:
            self.of_store(answer, "refused: no transfer", False)
            return
        *given, end = answer.split(" | ")
        if not given and end != "done":
            self.refused(end, "done")
            return
        for number, path in self.asked_for(name):
            if path in self.receiver.transfers[name].held:
                continue
            front = f"{number} {printed(path)} "
            if not given or not given[0].startswith(front):
                raise Otherwise(f"{answer!r}: {front}is asked for")
            self.judge_fetched(name, path, dict(files).get(path), given.pop(0).removeprefix(front))
        if given or end != "done":
            raise Otherwise(f"{answer!r}: there is more")

    def judge_fetched(self, name, path, octets, one):
        if one == "supplier":
            self.refused("refused: supplier", "taken")
        elif octets is not None:
            self.judge_delivery(name, path, octets, one)
        elif one != "not supplied":
            self.refused(one, "not supplied")

    def judge_export(self, name, _, answer):
        transfer = self.receiver.transfers.get(name)
        if transfer is None:
            self.of_store(answer, "refused: no transfer", False)
            return
        files = {**transfer.tags, **transfer.held}
        self.judge_files(answer, " | ".join([f"exported {len(files)}", *shown(True, files)]), self.is_spent)

    def judge_files(self, answer, due, is_spent=False):
        """An answer that shows files. If it was refused, only some of those that are due are there, each whole."""
        if answer == due and not is_spent:
            return
        first, *found = answer.split(" | ")
        self.refused(first, due)
        are_part_of(found, due)

    # A BAG THAT IS WRITTEN

    def added(self, answer, due, add):
        """Something is added, if it was not refused."""
        if answer == due:
            add()
        else:
            self.refused(answer, due)

    def judge_clear(self, _, __, answer):
        self.added(answer, "cleared", self.clear)

    def judge_file(self, _, files, answer):
        [(path, octets)] = files
        if path in self.files:
            self.same(answer, "refused: twice")
        else:
            self.added(answer, "added", lambda: self.files.update({path: octets}))

    def judge_by(self, name, _, answer):
        self.added(answer, "added", lambda: self.algorithms.append(name.decode()))

    def judge_element(self, _, files, answer):
        [(label, value)] = files
        self.added(answer, "added", lambda: self.elements.append((label.decode(), value.decode())))

    def judge_hole(self, _, files, answer):
        [(path, url)] = files
        self.added(answer, "added", lambda: self.holes.append((path.decode(), url.decode())))

    def order(self, *means):
        """A bag by these algorithms, with these elements and holes."""
        return reference_writer.Order({path.decode(): octets for path, octets in self.files.items()}, *means)

    def judge_write(self, _, __, answer):
        self.judge_files(answer, " | ".join(self.order(self.algorithms, self.elements, self.holes).parts()))

    # TEXTS AND VALUES

    def judge_parse(self, name, _, answer):
        self.same(answer, path_answer(name))

    def judge_unescape(self, name, files, answer):
        try:
            self.same(answer, path_answer(reference.unescape(name, files[0][0])))
        except reference.BadLine:
            self.same(answer, "refused: 0")

    def judge_escape(self, name, _, answer):
        self.same(answer, "text " + printed(name))

    def judge_hex(self, name, files, answer):
        digits = files[0][0]
        is_one = len(digits) == reference.ALGORITHMS[name] and set(digits) <= set(b"0123456789abcdefABCDEF")
        self.same(answer, "text " + digits.decode().lower() if is_one else "none")

    def judge_digest(self, name, files, answer):
        octets, names = files[-1][1], [alg.decode() for alg, _ in files]
        if len(octets) > int(name):
            self.same(answer, "refused: too large")
            return
        digests = (f"{alg} {hashlib.new(alg, octets).hexdigest()}" for alg in ALGORITHMS if alg in names)
        self.same(answer, " ".join([str(len(octets)), *digests]))

    def judge_declaration(self, _, __, answer):
        self.same(answer, octets_answer(DECLARATION))

    def judge_steps(self, answer, steps):
        """A call of several steps, each of which may be refused. `steps` yields what is due at each, and is sent
        whether it was done."""
        done = None
        for part in answer.split(" | "):
            due = next_of(steps, done)
            if due is None:
                raise Otherwise(f"{answer!r}: there is more")
            done = part == due
            self.same(part, due)
        if next_of(steps, done) is not None:
            raise Otherwise(f"{answer!r}: there is less")

    def judge_manifest(self, name, files, answer):
        self.judge_steps(answer, self.manifest_steps(name, files))

    @staticmethod
    def manifest_steps(name, files):
        """Of paths of which none begins with a mark or a blank."""
        alg, listed = reference.MANIFEST.fullmatch(name)[2], {}
        for path, digest in files:
            if len(digest) != reference.ALGORITHMS[alg]:
                yield "refused: algorithm"
            elif reference.is_payload(path) == name.startswith(b"tag") or path.startswith(b"tagmanifest-"):
                yield "refused: place"
            elif path in listed:
                yield "refused: twice"
            elif (yield "listed"):
                listed[path] = digest.lower()
        yield octets_answer(b"".join(digest + b"  " + reference.spell(path) + b"\n" for path, digest in listed.items()))

    def judge_metadata(self, _, files, answer):
        self.judge_steps(answer, self.metadata_steps(files))

    @staticmethod
    def metadata_steps(files):
        """Of elements that can be written."""
        text = b""
        for label, value in files:
            if (yield "added"):
                text += label + b": " + value.replace(b"\n", b"\n ") + b"\n"
        yield octets_answer(text)

    def judge_entries(self, _, files, answer):
        self.judge_steps(answer, self.entry_steps(files))

    @staticmethod
    def entry_steps(files):
        text = b""
        for path, entry in files:
            url, length = entry.split(b" ")
            if not reference.URL.fullmatch(url):
                yield "refused: url"
            elif not reference.is_payload(path):
                yield "refused: place"
            elif (yield "added"):
                text += url + b" " + length + b" " + reference.spell(path) + b"\n"
        yield octets_answer(text)

    def judge_plan(self, _, files, answer):
        self.judge_steps(answer, self.plan_steps(files))

    @staticmethod
    def plan_steps(files):
        """Of files that are tag files."""
        tags = {}
        for path, octets in files:
            if path in tags:
                yield "refused: twice"
            elif (yield "added"):
                tags[path] = octets
        try:
            transfer = reference_receiver.Transfer(tags)
        except Refused as cause:
            yield f"refused: {cause}"
            return
        for part in [" ".join(["plan", *map(printed, sorted(transfer.listed))]), *transfer.report()]:
            if not (yield part):
                return

    def judge_whole(self, name, files, answer):
        [(version, octets)] = files
        self.same(answer, reading(name, version, octets))

    def judge_feed(self, name, files, answer):
        """Of a text that can be read, so that each piece is accepted. After memory ran out a feed answers nothing
        else."""
        *given, end = answer.split(" | ")
        due = ["ok"] * len(files) + [reading(name, files[0][0], b"".join(piece for _, piece in files))]
        parts = [*given, end]
        met = parts.index(NO_MEMORY) if NO_MEMORY in parts else len(due)
        if parts != due[:met] + [NO_MEMORY] * (len(due) - met):
            raise Otherwise(f"{answer!r} instead of {due!r}")
        if met < len(due):
            self.refused(NO_MEMORY, due)

    # THE COMMANDS

    def judge_check(self, _, __, answer):
        lines, status = Tree(self.files).judge()
        self.judge_told(answer, told(status, lines))

    def judge_make(self, _, files, answer):
        names = [name.decode() for name, _ in files]
        unknown = [name for name in names if name not in ALGORITHMS]
        if unknown:
            self.judge_told(answer, told(64, ["unknown algorithm " + reference.spell(unknown[0].encode()).decode()]))
            return
        order = self.order(names)
        refusal = order.refusal()
        if refusal:
            self.judge_told(answer, told(1, ["bag: " + re.sub("^clash .*", "clash", refusal, flags=re.DOTALL)]))
            return
        octets, number = order.oxum().split(".")
        self.judge_told(answer, " | ".join([told(0, [f"made {number} files, {octets} octets"]), *order.parts()[1:]]))

    def judge_told(self, answer, due):
        """A command on the tree: what is due, or the one line of a refusal. If that could not be written, the work was
        done all the same, and nothing was printed after a write that failed."""
        first, *found = answer.split(" | ")
        whole, *made = due.split(" | ")
        if answer == due:
            return
        printed, all_of_it = (text.partition(" ")[2] for text in (first, whole))
        if self.may_be("writer") and first.startswith("3 ") and found == made and all_of_it.startswith(printed):
            return
        lines = {told(3, ["bag: " + {"tree": "files", "sink": "files"}.get(word, word)]): word for words in self.may
            for word in words}
        self.refused("refused: " + lines[first] if first in lines else answer, due)
        are_part_of(found, due)

    def judge_command(self, word, name, files, answer, untold):
        """A command on a ledger: what it prints is what the call answers. If a write failed, the call did its work."""
        first, *found = answer.split(" | ")
        status, _, octets = first.partition(" ")
        if self.may_be("writer") and status == "3":
            self.work(word, name, files)
            return
        lines = bytes.fromhex(octets).decode().split("\n")
        if lines.pop() or int(status) != status_of(lines):
            raise Otherwise(f"{word}: {status} {lines}")
        getattr(self, "judge_" + word)(name, files, " | ".join([untold(lines), *found]))

    def work(self, word, name, files):
        if word == "begin":
            self.receiver.begin(name, files)
        elif word == "bring":
            self.receiver.run(name, files)
        elif word == "fetch" and name in self.receiver.transfers:
            for _, path in self.asked_for(name):
                if path in dict(files):
                    self.receiver.deliver(name, path, dict(files)[path])

    def judge_begin_to(self, name, _, answer):
        tags = [(path, self.files[path]) for path in sorted(self.files) if not reference.is_payload(path)]
        self.judge_command("begin", name, tags, answer, lambda lines: only(lines).replace("bag: ", "refused: ").replace(
            "outside: ", "refused: outside: "))

    def judge_intake_to(self, name, files, answer):
        ends = {"bag: memory": "memory", "bag: files": "courier"}

        def untold(lines):
            end = ends[lines.pop()] if lines and lines[-1] in ends else "done"
            return " | ".join([*(untold_delivery(text, path) for text, (path, _) in zip(lines, files)),
                *lines[len(files):], end])

        self.judge_command("bring", name, files, answer, untold)

    def judge_report_to(self, name, files, answer):
        self.judge_command("report", name, files, answer, untold_view)

    def judge_audit_to(self, name, files, answer):
        self.judge_command("audit", name, files, answer, untold_view)

    def judge_list_to(self, name, files, answer):
        self.judge_command("names", name, files, answer, lambda lines: untold_view(lines) if lines in (
            ["bag: memory"], ["bag: store"]) else " ".join(lines))

    def judge_fetch_to(self, name, files, answer):
        due = [pair for pair in self.asked_for(name)
            if pair[1] not in self.receiver.transfers[name].held] if name in self.receiver.transfers else []

        def untold(lines):
            if len(lines) == 1 and lines[0].startswith("bag: "):
                return lines[0].replace("bag: ", "refused: ")
            parts = []
            for text, (number, path) in zip(lines, due):
                one = untold_delivery(text, path)
                one = {"refused: not supplied": "not supplied", "refused: supplier": "supplier"}.get(one, one)
                parts.append(f"{number} {printed(path)} {one}")
            return " | ".join([*parts, *lines[len(due):], "done"])

        self.judge_command("fetch", name, files, answer, untold)

    def judge_export_to(self, name, files, answer):
        def untold(lines):
            text = only(lines)
            if text.startswith("exported "):
                return text.removesuffix(" files")
            return text.replace("bag: files", "refused: sink").replace("bag: ", "refused: ")

        self.judge_command("export", name, files, answer, untold)


def next_of(steps, done):
    try:
        return steps.send(done)
    except StopIteration:
        return None


def pairs(fields):
    return list(zip(fields[::2], fields[1::2]))


def are_part_of(found, due):
    wanted = due.split(" | ")[1:]
    if any(part not in wanted for part in found) or len(set(found)) < len(found):
        raise Otherwise(f"{found!r} is no part of {due!r}")


def reading(name, version, octets):
    """What is read from a tag file, without the number of its lines."""
    return reference_texts.Text(name, version, octets).reading().partition(" ")[2]


def told(status, lines):
    """What a command prints, with its status."""
    return f"{status} " + "".join(text + "\n" for text in lines).encode().hex()


def only(lines):
    if len(lines) != 1:
        raise Otherwise(f"{lines}")
    return lines[0]


def untold_view(lines):
    return lines[0].replace("bag: ", "refused: ") if len(lines) == 1 else " | ".join(lines)


def untold_delivery(text, path):
    word, _, rest = text.partition(" ")
    if rest != printed(path) and not rest.startswith(printed(path) + ": "):
        raise Otherwise(f"{text!r}: {path} is delivered")
    return word if word != "refused" else "refused: " + rest.removeprefix(printed(path) + ": ")


def status_of(lines):
    """The status of a command on a ledger, by its lines [14]."""
    failed = ("memory", "store", "reader", "supplier", "files")
    statuses = [0]
    for text in lines:
        if text.startswith(("refused ", "bag: ")):
            statuses.append(3 if text.rpartition(": ")[2] in failed else 1)
        elif text.startswith("outside: "):
            statuses.append(2)
        elif text in ("not complete", "complete, not valid") or text.startswith("refused: "):
            statuses.append(1)
    return max(statuses)


def path_answer(path):
    """A path and its kind, or the number of its first fault [4]."""
    segments = path.split(b"/")
    faults = [not path, len(path) > reference.PATH_LIMIT, b"" in segments, b"." in segments or b".." in segments,
        b"\0" in path, path == b"data"]
    if any(faults):
        return f"refused: {faults.index(True) + 1}"
    return ("payload " if reference.is_payload(path) else "tag ") + path.hex()


def octets_answer(octets):
    return "octets " + (octets.hex() or "-")
