#!/usr/bin/env python3
"""cuts.py PROGRAM [CUTS [SEED [TRIED]]]: power cuts while a command works on a ledger, and while the next one recovers
what was left.

strace records what a command asks of the ledger, of its log and of their folder, and each line that it prints. A cut at
any moment leaves what the last sync of each file had reached, and of each later write any of its octets; what grew has
any length, and past the old end it may hold zeros, noise or octets of an older log. A name that was made or removed
after the last sync of the folder is there or not. In some runs one sync fails: from then on nothing of that file is
settled, whatever later syncs say.

After a cut `report`, `audit`, `list` or the same command again recovers the ledger, and may be cut too, up to four
times in a row. It must find all that was answered before (a line that was printed), each payload file whole or not at
all, and of the deliveries the first ones. sqlite3 reads what is left, row by row and octet by octet
(tests/model/ledger_rows.py); then the command is given again and ends as if nothing had happened. The commands are a
first `begin` that is refused and takes back the ledger that it made, one that is not, another, `intake`, `fetch`, and
the first command on ledgers of format 1 with pages of several sizes: plain ones, in WAL mode, and with all in the log.

It ends after CUTS cuts (400) or some more, and writes the seed and what was tried to TRIED, or to standard output. If
it fails, it ends with the seed. Left out is a `begin` whose ledger cannot be made, and which takes it back.
"""
import contextlib
import itertools
import os
import pathlib
import random
import re
import shutil
import sqlite3
import sys
import tempfile

import ledger_rows
from events import tag_files
from explaining import is_explained
from ledger_files import PIECE, in_the_log, write_first
from running import run

CALL = re.compile(r"(\w+)\((.*)\) += (-?\d+)")
PATH, TEXT = re.compile(r"<([^>]*)>"), re.compile(r'"([^"]*)"')
TRACED = "openat,pwrite64,ftruncate,fdatasync,fsync,unlink,write"
# The folder, the ledger and its log, by the ends of their names.
ENDS = {"at": "/", "ledger": "", "ledger-wal": "-wal"}
READERS = [["report", "first"], ["audit", "first"], ["list"]]
PAGES = [1_024, 2_048, 4_096, 8_192]
# The first word of an answer that is given again, and of the answer that it repeats.
FIRST_WORDS = {"repeated": "taken", "again": "new"}


def plain(text):
    """The octets that strace prints in hexadecimal."""
    return bytes.fromhex(text.replace("\\x", ""))


def events_of(trace):
    """What was asked of the files, and what was printed: for each call its name, the end of the file's name, and its
    values."""
    for call, words, answer in (CALL.match(line).groups() for line in trace.splitlines()[:-1]):
        failed, quoted, last = answer.startswith("-"), TEXT.search(words), words.rpartition(", ")[2]
        if call == "write":
            if words.startswith("1<"):
                yield "print", "", plain(quoted[1])
            continue
        path = plain(quoted[1] if call in ("openat", "unlink") else PATH.search(words)[1]).decode()
        end = ENDS.get(path.rpartition("/")[2])
        if end is None or (call == "openat" and "O_CREAT" not in words):
            continue
        if "sync" in call:
            yield "failed sync" if failed else "sync", end, None
        elif not failed:
            yield call, end, (
                (int(last), plain(quoted[1])) if call == "pwrite64" else int(last) if call == "ftruncate" else None)


def reached(rng, at, size):
    """Which octets of a write reach the disk: pairs of a first place and one past the last."""
    some, other = sorted(rng.randrange(size + 1) for _ in range(2))
    sector = rng.choice([512, 4_096])
    bounds = [0, *range(sector - at % sector, size, sector), size]
    return rng.choice([
        [], [(0, size)], [(0, some)], [(some, size)], [(some, other)], [(0, some), (other, size)],
        [(some, min(some + 1, size))], [pair for pair in zip(bounds, bounds[1:]) if rng.randrange(2)]])


def fill(rng, older, at, size):
    """What may stand past the old end: zeros, noise, or what an older log had there."""
    return rng.choice([bytes(size), rng.randbytes(size), older[at : at + size].ljust(size, b"\0")])


def length_between(rng, *lengths):
    least, most = min(lengths), max(lengths)
    sector = rng.choice([512, 4_096])
    return rng.choice([least, most, rng.randint(least, most), max(least, most // sector * sector)])


def torn(rng, left, older, at, octets):
    """What a cut may leave of a file of which this was left, and in which these octets were written."""
    length = length_between(rng, len(left), max(len(left), at + len(octets)))
    new = bytearray(left + fill(rng, older, len(left), length - len(left)))
    for first, last in reached(rng, at, len(octets)):
        new[at + first : min(at + last, length)] = octets[first : max(first, min(last, length - at))]
    assert len(new) == length, (len(new), length)
    return bytes(new)


def shortened(rng, left, older, length):
    """The same, of a file that got this length."""
    chosen = length_between(rng, len(left), length)
    kept = left[: min(length, chosen)]
    return kept + fill(rng, older, len(kept), chosen - len(kept))


def written(now, at, octets):
    """The content of a file in which these octets were written."""
    return now[:at].ljust(at, b"\0") + octets + now[at + len(octets) :]


class Disk:
    """The files as a command sees them, and what of each no sync has settled."""

    def __init__(self, files):
        self.now, self.settled, self.broken = dict(files), dict(files), set()
        self.later = {end: [] for end in files}
        self.names = {end for end in files if files[end] is not None}
        self.logs = [files["-wal"] or b""]

    def do(self, call, end, value):
        if call == "openat" and self.now[end] is None:
            self.now[end], self.settled[end], self.later[end] = b"", b"", []
        elif call == "unlink":
            self.now[end] = None
        elif call == "pwrite64":
            self.now[end] = written(self.now[end], *value)
            self.later[end].append((torn, value))
        elif call == "ftruncate":
            self.now[end] = self.now[end][:value].ljust(value, b"\0")
            self.later[end].append((shortened, (value,)))
        elif call == "failed sync":
            self.broken.add(end)
        elif call == "sync" and end == "/":
            self.names = {end for end in self.now if self.now[end] is not None}
        elif call == "sync" and end not in self.broken:
            self.settled[end], self.later[end] = self.now[end], []
            self.logs += [self.now[end]] if end == "-wal" else []

    def cut(self, rng, older):
        """What a cut may leave of each file."""
        files = {}
        for end, now in self.now.items():
            is_there = now is not None
            if is_there != (end in self.names):
                is_there = rng.randrange(2) == 0
            files[end] = self.settled[end] if is_there else None
            for change, values in self.later[end] if is_there else ():
                files[end] = change(rng, files[end], older, *values)
        return files


class Work:
    """A command on a ledger: the files before it, its words, the lines that it prints, and what the ledger may hold
    after each number of these lines. A command that is refused prints that alone, and leaves what it found."""

    def __init__(self, files, words, lines, states):
        self.files, self.words, self.lines, self.states = files, words, lines, states
        self.is_new = None in states[0]
        self.is_refused = any(line.startswith("refused: ") for line in lines)
        self.status = int(self.is_refused)


class Place:
    """A folder with a ledger, in which commands are run."""

    def __init__(self, program, folder):
        self.program, self.folder, self.trace = os.path.abspath(program), folder / "at", folder / "trace"
        self.ledger = self.folder / "ledger"

    def put(self, files):
        shutil.rmtree(self.folder, ignore_errors=True)
        self.folder.mkdir()
        for end, octets in files.items():
            if octets is not None:
                pathlib.Path(f"{self.ledger}{end}").write_bytes(octets)

    def files(self):
        paths = {end: pathlib.Path(f"{self.ledger}{end}") for end in ("", "-wal")}
        return {end: path.read_bytes() if path.exists() else None for end, path in paths.items()}

    def run(self, words, before=()):
        """The status and the lines."""
        ran = run([*before, self.program, words[0], self.ledger, *words[1:]])
        lines = ran.stdout.decode().splitlines()
        assert any("inject" in word for word in before) or is_explained(lines, ran.returncode, ran.stderr), (words, ran)
        return ran.returncode, lines

    def record(self, words, fails=None):
        """The same, and what was asked of the files. `fails` is the name and the number of a sync that fails."""
        inject = ["-e", "inject={}:error=EIO:when={}".format(*fails)] if fails else []
        answer = self.run(words, ["strace", "-y", "-xx", "-s", "1000000", "-e", f"trace={TRACED}", *inject, "-o",
            str(self.trace)])
        return answer, list(events_of(self.trace.read_text(encoding="ascii")))

    def found(self):
        """What sqlite3 finds in the ledger; None if there are no tables."""
        if not self.ledger.exists():
            return None
        try:
            return ledger_rows.found(self.ledger)
        except sqlite3.DatabaseError as error:
            assert "not a database" in str(error), error
            return None

    def number_of_format(self):
        with contextlib.closing(sqlite3.connect(self.ledger)) as database:
            return database.execute("SELECT v FROM meta").fetchone()[0]


def answer_of(words, ledger):
    """The status and the lines of `report`, `audit` and `list`."""
    if ledger is None:
        return 3, ["bag: not a ledger"]
    if words == ["list"]:
        return 0, sorted(name.decode() for name in ledger)
    if words[1].encode() not in ledger:
        return 1, ["bag: no transfer"]
    tags, held = ledger[words[1].encode()]
    listed = sorted(line.split(b"  ")[1] for line in tags[b"manifest-sha256.txt"].splitlines())
    missing = [f"manifest-sha256.txt: missing: {path.decode()}" for path in listed if path not in held]
    return (1, [*missing, "not complete"]) if missing else (0, ["valid"])


def as_at_first(line):
    word, blank, rest = line.partition(" ")
    return FIRST_WORDS.get(word, word) + blank + rest


class Cutting:
    """Work that is cut at random, again and again. At least what was answered by `least` of its lines must be held."""

    def __init__(self, rng, place, work, tried):
        self.rng, self.place, self.work, self.tried = rng, place, work, tried
        self.least, self.logs = 0, []

    def words(self):
        """A command that recovers what was left: one that reads, or the same again."""
        return self.rng.choice([*READERS, self.work.words])

    def judge(self, words, answer):
        """Judges a command that ended, and what it left. Returns how many lines that is."""
        found = self.place.found()
        numbers = [number for number, states in enumerate(self.work.states) if found in states and number >= self.least]
        assert numbers, (words, answer, self.least, found and {name: sorted(held) for name, (_, held) in found.items()})
        if words in READERS:
            assert answer == answer_of(words, found), (words, answer, found)
            self.tried["more"] += self.least < numbers[-1]
        else:
            assert answer[0] == self.work.status and numbers[-1] == len(self.work.states) - 1, (words, answer, numbers)
            self.judge_again(answer[1])
        return numbers[-1]

    def judge_again(self, lines):
        """Judges the lines of the work that is done again: the first of it may be there already. A fetch passes that
        over."""
        passed = self.passed(lines)
        told = [as_at_first(line) for line in lines]
        assert told == self.work.lines[passed:], lines
        repeated = [line != first for line, first in zip(lines, told)]
        assert repeated == sorted(repeated, reverse=True), lines
        there = passed + sum(repeated)
        assert self.least <= there, (self.least, lines)
        self.tried["more"] += self.least < there

    def passed(self, lines):
        return len(self.work.lines) - len(lines) if self.work.words[0] == "fetch" else 0

    def cut(self, words, fails=None):
        """Runs the command on what is there, and cuts it."""
        disk = Disk(self.place.files())
        answer, events = self.place.record(words, fails)
        failed = [number for number, event in enumerate(events) if event[0] == "failed sync"]
        number = 0 if failed else self.judge(words, answer)
        moment = self.rng.randint(failed[0] if failed else 0, len(events))
        for event in events[:moment]:
            disk.do(*event)
        printed = b"".join(octets for call, _, octets in events[:moment] if call == "print").decode().splitlines()
        if words in READERS:
            self.least = max(self.least, number if printed == answer[1] else 0)
        else:
            self.heard(printed, answer[1])
        self.tried["cuts"] += 1
        self.tried["failed syncs"] += bool(failed)
        self.logs += disk.logs
        self.place.put(disk.cut(self.rng, self.rng.choice(self.logs)))

    def heard(self, printed, lines):
        """The work printed these lines, of all that it would have printed, before it was cut."""
        goods = [line for line in printed if not line.endswith(": store")]
        assert goods == printed[: len(goods)], printed
        if goods:
            passed = self.passed(lines)
            assert [as_at_first(line) for line in goods] == self.work.lines[passed:][: len(goods)], printed
            self.least = max(self.least, 0 if self.work.is_refused else passed + len(goods))

    def go(self, fails):
        self.place.put(self.work.files)
        self.cut(self.work.words, fails)
        for _ in range(self.rng.choice([0, 0, 0, 1, 1, 2, 3])):
            self.cut(self.words())
        for words in (self.words(), self.work.words):
            self.least = max(self.least, self.judge(words, self.place.run(words)))
        for name in self.work.states[-1][0] or ():
            words = ["audit", name.decode()]
            assert self.place.run(words) == answer_of(words, self.work.states[-1][0]), words
        assert self.place.found() is None or self.place.number_of_format() == 2


def write(folder, files):
    for path, octets in files.items():
        (folder / path.decode()).parent.mkdir(parents=True, exist_ok=True)
        (folder / path.decode()).write_bytes(octets)
    return folder


def works(place, folder, rng):
    """The commands, each on the ledger that those before it left."""
    sizes = [2 * PIECE + 1, 0, 1, PIECE, 2_048, 70_000, 9]
    contents = {b"data/%d" % number: rng.randbytes(size) for number, size in enumerate(sizes)}
    fetch = b"".join(b"http://example.org/ - %s\n" % path for path in contents)
    tags = dict(tag_files(contents.items(), (b"fetch.txt", fetch)))
    bag = write(folder / "bag", {**tags, **contents})
    folders = [write(folder / f"from{first}", dict(list(contents.items())[first:last]))
        for first, last in [(0, 1), (1, 4), (4, 7)]]
    taken = [f"taken {path.decode()}" for path in contents]
    parts = [dict(list(contents.items())[:number]) for number in range(len(contents) + 1)]
    first, second = ({name: (tags, part)} for name, part in ((b"first", contents), (b"second", {})))
    place.put({"": None, "-wal": None})
    for words, lines, states in [
        (["begin", "First", bag], ["refused: name"], [[None, {}]]),
        (["begin", "first", bag], ["new"], [[None, {}], [{b"first": (tags, {})}]]),
        (["intake", "first", *folders], taken, [[{b"first": (tags, part)}] for part in parts]),
        (["begin", "second", bag], ["new"], [[first], [{**first, **second}]]),
        (["fetch", "second", bag], taken, [[{**first, b"second": (tags, part)}] for part in parts]),
    ]:
        work = Work(place.files(), words, lines, states)
        yield work
        assert place.run(words) == (work.status, lines) and place.found() == states[-1][0], words


def moves(place, folder, rng):
    """The first command on ledgers of format 1: plain ones, in WAL mode, and with all but the first page in the log."""
    files = {f"data/{number}": rng.randbytes(size) for number, size in enumerate([2 * PIECE + 1, 0, 1, 3_000])}
    for (page, kind), words in zip(itertools.product(PAGES, ["plain", "wal", "log"]), itertools.cycle(READERS)):
        database = folder / f"{kind}{page}"
        write_first(database, {"first": files, "second": {}})
        with contextlib.closing(sqlite3.connect(database)) as opened:
            opened.executescript(f"PRAGMA page_size = {page}; VACUUM"
                + ("; PRAGMA journal_mode = WAL" if kind != "plain" else ""))
        found = ledger_rows.found(database)
        start = {"": database.read_bytes(), "-wal": None}
        if kind == "log":
            place.put({})
            in_the_log(place.ledger, database, "VACUUM")
            start = {"": place.files()[""][:page], "-wal": place.files()["-wal"]}
        yield Work(start, words, [], [[found]])


def try_all(program, folder, rng, cuts, tried):
    place = Place(program, folder)
    new, older = list(works(place, folder, rng)), list(moves(place, folder, rng))
    while tried["cuts"] < cuts:
        # A third of the ledgers is of format 1.
        work = rng.choice(new if rng.randrange(3) else older)
        fails = None
        if not work.is_new and rng.randrange(4) == 0:
            fails = rng.choice([("fsync", rng.randint(1, 4)), *[("fdatasync", rng.randint(1, 30))] * 5])
        Cutting(rng, place, work, tried).go(fails)
        tried["works"] += 1


def main(program, cuts="400", seed=None, tried_file="/dev/stdout"):
    seed = seed or str(random.SystemRandom().randrange(1 << 32))
    tried = dict.fromkeys(["cuts", "works", "failed syncs", "more"], 0)
    try:
        with tempfile.TemporaryDirectory() as folder:
            try_all(program, pathlib.Path(folder), random.Random(seed), int(cuts), tried)
        assert all(tried.values()) or int(cuts) < 100, tried
    except Exception as error:
        raise RuntimeError(f"with the seed {seed}") from error
    with open(tried_file, "w", encoding="ascii") as out:
        print(
            f"seed {seed}: {tried['cuts']} cuts of {tried['works']} commands,"
            f" {tried['failed syncs']} of them after a sync that failed;"
            f" after {tried['more']} a step was held that was not answered",
            file=out,
        )


if __name__ == "__main__":
    main(*sys.argv[1:])
