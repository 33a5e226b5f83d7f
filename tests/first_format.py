#!/usr/bin/env python3
"""first_format.py PROGRAM: ledgers of format 1, which sqlite3 writes as docs/FORMAT.md says.

The first command on such a ledger must move it to format 2 and answer as on a ledger that was always of format 2.
sqlite3 reads the tables before and after, row by row. A ledger that is refused, or for which there is no room, must
stay of format 1, with all that it held. At the end it prints how much of each was tried.
"""
import contextlib
import pathlib
import random
import shutil
import sqlite3
import sys
import tempfile

import ledger_files
from ledger_files import FIRST, ITEM, PIECE, SECOND, SMALL, change, tags_of, write_first
from running import run_limited

LARGEST = 16_777_216


def read(file):
    """The number of the format of a ledger, and for each transfer its tag files and its payload files. Each row belongs
    to something."""
    with tempfile.TemporaryDirectory() as folder:
        copy = pathlib.Path(folder) / "copy"
        for end in ("", "-wal"):
            if pathlib.Path(f"{file}{end}").exists():
                shutil.copy(f"{file}{end}", f"{copy}{end}")
        with contextlib.closing(sqlite3.connect(copy)) as database:
            return rows(lambda text, *fields: database.execute(text, fields).fetchall())


def rows(ask):
    assert ask("PRAGMA integrity_check") == [("ok",)] and ask("PRAGMA foreign_key_check") == []
    [(name, number)] = ask("SELECT k, v FROM meta")
    assert name == "bag-ledger" and number in (1, 2), (name, number)
    tables = sorted(text for (text,) in ask("SELECT sql FROM sqlite_schema WHERE type = 'table'"))
    assert tables in ([sorted(FIRST)] if number == 1 else [sorted(SECOND), sorted(SECOND + ITEM)]), (number, tables)
    if number == 2 and len(tables) == 6:
        assert ask("SELECT * FROM item") == []
    ledger = {}
    for transfer, name in ask("SELECT id, name FROM transfer"):
        tags = dict(ask("SELECT path, body FROM tag WHERE transfer = ?", transfer))
        ledger[name] = tags, held_in_first(ask, transfer) if number == 1 else held_in_second(ask, transfer)
    return number, ledger


def held_in_first(ask, transfer):
    held = ask("SELECT path, size, body FROM item WHERE transfer = ?", transfer)
    assert all(size == len(body) for _, size, body in held)
    return {path: body for path, _, body in held}


def held_in_second(ask, transfer):
    held = {}
    for item, path, size in ask("SELECT id, path, size FROM held WHERE transfer = ?", transfer):
        pieces = ask("SELECT n, body FROM piece WHERE item = ? ORDER BY n", item)
        octets = b"".join(body for _, body in pieces)
        assert len(octets) == size, (path, size)
        assert pieces == [(n, octets[at : at + PIECE]) for n, at in enumerate(range(0, size, PIECE))], path
        held[path] = octets
    return held


class Program:
    def __init__(self, program, folder):
        self.program, self.folder, self.places = program, folder, 0

    def run(self, *words, limit=None):
        return run_limited([self.program, *words], limit)

    def place(self):
        """A new folder."""
        self.places += 1
        folder = self.folder / f"place{self.places}"
        folder.mkdir()
        return folder


def is_moved(program):
    """A small ledger, one with payload files of many sizes, one with as many as a manifest can list, and one with more
    transfers than can be numbered in 16 bits. Returns how many payload files there were."""
    small = {"t1": SMALL, "t5": {"data/b": bytes(PIECE + 1)}}
    rng = random.Random(7)
    sizes = [0, 1, PIECE - 1, PIECE, PIECE + 1, 2 * PIECE, 2 * PIECE + 1, LARGEST, LARGEST + 1]
    many = {"sizes": {f"data/{size}": rng.randbytes(size) for size in sizes}, "t": {"data/%25 é": b"x"}, "none": {}}
    all_listed = {"t1": {f"data/{number:06}": b"" for number in range(100_000)}}
    all_named = {f"t{number}": {} for number in range(65_540)}
    ledgers = small, many, all_listed, all_named
    for transfers in ledgers:
        file = program.place() / "ledger"
        write_first(file, transfers)
        was = read(file)
        assert was[0] == 1 and {name: files for name, (_, files) in was[1].items()} == transfers
        assert program.run("list", file) == (0, sorted(transfers)), transfers.keys()
        assert read(file) == (2, was[1])
        for name in transfers if len(transfers) < 10 else ["t1"]:
            assert program.run("report", file, name) == (0, ["valid"]) == program.run("audit", file, name), name
        assert read(file) == (2, was[1])
    with contextlib.closing(sqlite3.connect(program.folder / "place1/ledger")) as database:
        counts = [database.execute(f"SELECT count(*) FROM {table}").fetchone()[0]
            for table in ("held", "piece", "item")]
    assert counts == [3, 3, 0], counts
    return sum(len(files) for transfers in ledgers for files in transfers.values())


def first_commands(program):
    """Each command as the first one on a ledger of format 1, and on the same ledger once it was moved. Returns how many
    there were."""
    commands = ["begin", "intake", "report", "audit", "fetch", "export", "list"]
    for command in commands:
        answers = []
        for is_moved_first in (False, True):
            place = program.place()
            bag = place / "bag"
            for path, octets in {**tags_of({**SMALL, "data/z": b"z"}), **SMALL, "data/z": b"z"}.items():
                (bag / path).parent.mkdir(parents=True, exist_ok=True)
                (bag / path).write_bytes(octets)
            write_first(place / "ledger", {"t1": SMALL}, {"t1": {"data/z": b"z"}})
            if is_moved_first:
                assert program.run("list", place / "ledger") == (0, ["t1"])
            more = {"begin": ["t1", bag], "intake": ["t1", bag], "fetch": ["t1", bag], "export": ["t1", place / "out"],
                "list": []}
            answer = program.run(command, place / "ledger", *more.get(command, ["t1"]))
            number, ledger = read(place / "ledger")
            assert number == 2
            answers.append((answer, ledger,
                sorted(path.relative_to(place) for path in place.rglob("*") if path.is_file())))
        assert answers[0] == answers[1], answers
        assert answers[0][0][0] in (0, 1), answers
    return len(commands)


# A table of any types, in which a row may have no owner and a path may be there twice.
LOOSE = "CREATE TABLE loose (transfer, path, size, body); INSERT INTO loose SELECT * FROM item; DROP TABLE item; ALTER TABLE loose RENAME TO item; "
LOOSE_TAGS = "CREATE TABLE loose (transfer, path, body); INSERT INTO loose SELECT * FROM tag; DROP TABLE tag; ALTER TABLE loose RENAME TO tag; "
# Names and paths in columns for which `A` and `a` are equal.
ANY_CASE = """CREATE TABLE loose (id INTEGER PRIMARY KEY, name TEXT COLLATE NOCASE); INSERT INTO loose SELECT * FROM transfer;
    DROP TABLE transfer; ALTER TABLE loose RENAME TO transfer; """
ANY_CASE_ITEMS = """CREATE TABLE loose (transfer, path TEXT COLLATE NOCASE, size, body); INSERT INTO loose SELECT * FROM item;
    DROP TABLE item; ALTER TABLE loose RENAME TO item; """
# The first payload file of `t1` does not pass; or no transfer can be opened with the tag files of `t1`.
DAMAGED = "UPDATE item SET body = x'616264' WHERE path = 'data/a.txt' AND transfer = 1; "
DAMAGED_TAGS = "UPDATE tag SET body = x'' WHERE transfer = 1 AND path = 'bagit.txt'; "
# A change to a ledger of format 1 with two transfers, and the lines of `list` afterwards.
CHANGES = [
    ("", "t1", "t2"),
    ("VACUUM", "t1", "t2"),
    ("DELETE FROM item WHERE path = 'data/e.txt'", "t1", "t2"),
    ("DELETE FROM meta", "bag: not a ledger"),
    ("UPDATE meta SET v = 2", "bag: not a ledger"),
    ("UPDATE meta SET v = 0", "bag: not a ledger"),
    ("UPDATE meta SET k = 'ledger'", "bag: not a ledger"),
    ("INSERT INTO meta (k, v) VALUES ('other', 1)", "bag: not a ledger"),
    ("DROP TABLE item", "bag: not a ledger"),
    ("DROP TABLE tag", "bag: not a ledger"),
    ("ALTER TABLE item RENAME COLUMN body TO octets", "bag: not a ledger"),
    ("UPDATE item SET body = x'616264' WHERE path = 'data/a.txt' AND transfer = 1", "bag: damaged t1 data/a.txt"),
    ("UPDATE item SET body = x'6162' WHERE path = 'data/a.txt' AND transfer = 1", "bag: damaged t1 data/a.txt"),
    ("UPDATE item SET body = zeroblob(65536) WHERE path = 'data/z'", "bag: damaged t1 data/z"),
    ("UPDATE item SET body = x'' WHERE transfer = 2", "bag: damaged t2 data/a.txt"),
    ("UPDATE item SET size = 4 WHERE path = 'data/a.txt' AND transfer = 1", "bag: damaged t1 data/a.txt"),
    ("UPDATE item SET size = -3 WHERE path = 'data/a.txt' AND transfer = 1", "bag: damaged t1 data/a.txt"),
    ("UPDATE item SET size = size - 1 WHERE path = 'data/z'", "bag: damaged t1 data/z"),
    ("UPDATE item SET path = 'data/other' WHERE path = 'data/z'", "bag: damaged t1 data/other"),
    ("UPDATE item SET path = '../x' WHERE path = 'data/z'", "bag: damaged t1 ../x"),
    ("INSERT INTO item VALUES (1, 'data/q', 0, x'')", "bag: damaged t1 data/q"),
    ("UPDATE tag SET body = x'' WHERE transfer = 1 AND path = 'bagit.txt'", "bag: damaged t1 "),
    ("DELETE FROM tag WHERE transfer = 2 AND path = 'bagit.txt'", "bag: damaged t2 "),
    ("INSERT INTO transfer (name) VALUES ('t0')", "bag: damaged t0 "),
    ("INSERT INTO item VALUES (9, 'data/q', 0, x'')", "bag: not a ledger"),
    ("PRAGMA foreign_keys = OFF; DELETE FROM transfer WHERE id = 2", "bag: not a ledger"),
    (LOOSE, "t1", "t2"),
    (LOOSE + "UPDATE item SET body = CAST(body AS TEXT) WHERE path = 'data/z'", "bag: damaged t1 data/z"),
    (LOOSE + "UPDATE item SET body = NULL WHERE path = 'data/z'", "bag: damaged t1 data/z"),
    (LOOSE + "UPDATE item SET size = 'three' WHERE path = 'data/z'", "bag: not a ledger"),
    (LOOSE + "UPDATE item SET path = x'00' WHERE path = 'data/z'", "bag: not a ledger"),
    (LOOSE + "INSERT INTO item VALUES (9, 'data/q', 0, x'')", "bag: not a ledger"),
    # An owner that is only equal to the number of a transfer.
    (LOOSE + "UPDATE item SET transfer = '1' WHERE path = 'data/z'", "bag: not a ledger"),
    (LOOSE + "UPDATE item SET transfer = 1.0 WHERE path = 'data/z'", "bag: not a ledger"),
    (LOOSE_TAGS, "t1", "t2"),
    (LOOSE_TAGS + "UPDATE tag SET transfer = '2' WHERE transfer = 2 AND path = 'bagit.txt'", "bag: not a ledger"),
    # A database that is no ledger is told as that, whatever is damaged too, and wherever.
    (DAMAGED + "UPDATE transfer SET name = CAST(x'7aff' AS TEXT) WHERE name = 't2'", "bag: not a ledger"),
    (DAMAGED + "UPDATE tag SET path = CAST(x'7aff' AS TEXT) WHERE transfer = 2 AND path = 'bagit.txt'",
        "bag: not a ledger"),
    (DAMAGED + "UPDATE item SET path = CAST(x'646174612f7aff' AS TEXT) WHERE transfer = 2", "bag: not a ledger"),
    (DAMAGED_TAGS + "UPDATE transfer SET name = CAST(x'7aff' AS TEXT) WHERE name = 't2'", "bag: not a ledger"),
    (DAMAGED_TAGS + "ALTER TABLE item RENAME COLUMN body TO octets", "bag: not a ledger"),
    ("UPDATE item SET path = CAST(x'646174612f7aff' AS TEXT) WHERE path = 'data/z'", "bag: not a ledger"),
    # What is told is the first by octets, also where the columns have another order.
    (ANY_CASE, "t1", "t2"),
    (ANY_CASE_ITEMS, "t1", "t2"),
    (ANY_CASE + DAMAGED + "INSERT INTO transfer (name) VALUES ('T3')", "bag: damaged T3 "),
    (ANY_CASE_ITEMS + DAMAGED + "INSERT INTO item VALUES (1, 'data/Y', 0, x'')", "bag: damaged t1 data/Y"),
    # Every payload file is as it should be, and there is no room for them in format 2.
    (LOOSE + "INSERT INTO item SELECT * FROM item WHERE transfer = 2", "bag: store"),
    ("CREATE TABLE held (id INTEGER PRIMARY KEY)", "bag: store"),
    ("CREATE TABLE piece (id INTEGER PRIMARY KEY)", "bag: store"),
    # Tables of the names of format 2 are not taken for those of this ledger, even if they have its texts, and rows.
    (
        "; ".join(SECOND[3:])
        + "; INSERT INTO held VALUES (1, 1, 'data/a.txt', 3); INSERT INTO piece VALUES (1, 0, x'000000')", "bag: store",
    ),
    # What is no one's stays.
    ("CREATE TABLE other (id INTEGER PRIMARY KEY); INSERT INTO other VALUES (7)", "t1", "t2"),
    ("CREATE VIEW names AS SELECT name FROM transfer", "t1", "t2"),
    ("CREATE INDEX by_path ON item (path)", "t1", "t2"),
    ("ANALYZE", "t1", "t2"),
]


def held(file, held_in):
    """What each transfer holds, and the rows of a table that is no one's, if there is one."""
    with contextlib.closing(sqlite3.connect(file)) as database:
        ask = lambda text, *fields: database.execute(text, fields).fetchall()
        others = ask("SELECT name FROM sqlite_schema WHERE name = 'other'") and ask("SELECT * FROM other")
        return {name: held_in(ask, transfer) for transfer, name in ask("SELECT id, name FROM transfer")}, others


def changed(program):
    """Ledgers that another program changed. Those that are refused stay octet by octet, and the others hold what they
    held. Returns how many there were."""
    for text, *lines in CHANGES:
        file = program.place() / "ledger"
        write_first(file, {"t1": {**SMALL, "data/z": bytes(PIECE + 1)}, "t2": {"data/a.txt": b"abc"}})
        change(file, text)
        before = file.read_bytes()
        is_refused = lines[0].startswith("bag: ")
        was = None if is_refused else held(file, held_in_first)
        found = program.run("list", file)
        assert found == (3 if is_refused else 0, lines), (text, found)
        if is_refused:
            assert before == file.read_bytes() and sorted(path.name
                for path in file.parent.iterdir()) == ["ledger"], text
        else:
            assert held(file, held_in_second) == was, text
    return len(CHANGES)


def locked(program):
    """While another program has the ledger open it is not moved."""
    file = program.place() / "ledger"
    write_first(file, {"t1": SMALL})
    before = file.read_bytes()
    with ledger_files.locked(file):
        assert program.run("report", file, "t1") == (3, ["bag: store"])
    assert file.read_bytes() == before
    assert program.run("report", file, "t1") == (0, ["valid"])


def full_disks(program):
    """A disk that is full after so many octets: the ledger stays what it was, or it is moved. Returns how often it
    stayed and was moved."""
    transfers = {"t1": {**SMALL, "data/z": random.Random(3).randbytes(3 * PIECE)}}
    whole = program.place() / "ledger"
    write_first(whole, transfers)
    was, size, counts = read(whole)[1], whole.stat().st_size, [0, 0]
    for limit in [0, 1, 32, 4_096, 4_128, *range(8_192, 4 * size, 12_288)]:
        file = program.place() / "ledger"
        shutil.copy(whole, file)
        found = program.run("report", file, "t1", limit=limit)
        number, ledger = read(file)
        assert ledger == was, limit
        assert found == (0, ["valid"]) if number == 2 and found[0] == 0 else found == (3, ["bag: store"]), (
            limit, found, number)
        counts[number - 1] += 1
        assert program.run("audit", file, "t1") == (0, ["valid"]) and read(file) == (2, was), limit
        shutil.rmtree(file.parent)
    assert all(counts), counts
    return counts


def main(program):
    with tempfile.TemporaryDirectory() as folder:
        tried = Program(program, pathlib.Path(folder))
        files, commands, changes = is_moved(tried), first_commands(tried), changed(tried)
        locked(tried)
        stayed, moved = full_disks(tried)
    print(f"{files} payload files moved, {commands} first commands, {changes} changed, {stayed + moved} full disks")


if __name__ == "__main__":
    main(*sys.argv[1:])
