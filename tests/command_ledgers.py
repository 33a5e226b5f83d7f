#!/usr/bin/env python3
"""command_ledgers.py PROGRAM: the commands on ledgers of every kind: missing ledgers, files that aren't ledgers,
damaged and locked ledgers, full disks, every command after every other, and ledgers that sqlite3 reads back.

Each command must print its lines and end with its status; what exists afterwards is compared with what existed before,
name by name and octet by octet. At the end it prints how much of each was tried.
"""
import hashlib
import itertools
import os
import pathlib
import shutil
import sqlite3
import sys
import tempfile

import ledger_files
from damaged_ledgers import DAMAGES, TOO_LARGE
from ledger_files import DECLARATION, PIECE, SMALL, TABLES
from places import ALL, Place


def no_ledgers(make):
    """Files that aren't ledgers are left as they were. Returns how many there were, including the locked one."""
    whole = make(SMALL)
    assert whole.run(*whole.words("begin")) == (0, ["new"])
    assert whole.run(*whole.words("intake")) == (0, ["taken data/a.txt", "taken data/e.txt"])
    database = sqlite3.connect(whole.ledger)
    database.execute("PRAGMA wal_checkpoint(TRUNCATE)")
    database.close()
    octets = whole.ledger.read_bytes()

    nothing = make(SMALL)
    nothing.refuses("bag: not a ledger", but=["begin"])
    assert not list(nothing.ledger.parent.iterdir())
    empty = make(SMALL)
    empty.ledger.touch()
    empty.refuses("bag: not a ledger", but=["begin"])
    tables = make(SMALL)
    tables.sql("PRAGMA user_version = 1")
    tables.refuses("bag: not a ledger", but=["begin"])
    lost = make(SMALL)
    lost.ledger.symlink_to("nowhere")
    lost.refuses("bag: not a ledger", but=["begin"])
    before = lost.there()
    assert lost.run(*lost.words("begin")) == (3, ["bag: store"]) and lost.there() == before
    before = nothing.there()
    assert nothing.run("begin", nothing.ledger, "T1", nothing.bag) == (1, ["refused: name"])
    assert nothing.run("begin", nothing.ledger, "t1", nothing.work / "none") == (3, ["bag: files"])
    assert nothing.there() == before, (nothing.there(), before)
    for begun in (nothing, empty, tables):
        assert begun.run(*begun.words("begin")) == (0, ["new"])
        assert begun.run(*begun.words("intake")) == (0, ["taken data/a.txt", "taken data/e.txt"])
        assert begun.run(*begun.words("report")) == (0, ["valid"])
    for other in (b"x", b"a text file, and longer than the header of a database" * 99, bytes(4_096)):
        file = make(SMALL)
        file.ledger.write_bytes(other)
        file.refuses("bag: not a ledger")
    # If a ledger is truncated, the store doesn't say whether it is a database.
    cut = make(SMALL)
    cut.ledger.write_bytes(octets[: len(octets) // 2])
    cut.refuses("bag: not a ledger", "bag: store")
    application = make(SMALL)
    application.sql("CREATE TABLE meta (k TEXT, v TEXT)")
    application.refuses("bag: not a ledger")
    directory = make(SMALL)
    directory.ledger.mkdir()
    directory.refuses("bag: not a ledger")
    linked = make(SMALL)
    shutil.copy(whole.ledger, linked.work / "elsewhere")
    linked.ledger.symlink_to(linked.work / "elsewhere")
    assert linked.run(*linked.words("report")) == (0, ["valid"])
    locked(whole)
    return 11


def locked(place):
    """While another program has the ledger open, no command does anything with it; afterwards everything is as it
    was."""
    with ledger_files.locked(place.ledger):
        place.refuses("bag: store")
    assert place.run(*place.words("audit")) == (0, ["valid"])


def damaged(make):
    """Every command reports ledgers that another program changed, and leaves them alone. Returns how many there
    were."""
    damages = [*DAMAGES, TOO_LARGE]
    for damage, line in damages:
        place = make(SMALL)
        place.run(*place.words("begin"))
        place.run(*place.words("intake"))
        database = sqlite3.connect(place.ledger)
        database.executescript(damage)
        database.execute("PRAGMA wal_checkpoint(TRUNCATE)")
        database.close()
        place.refuses(line)
    vacuumed = make(SMALL)
    vacuumed.run(*vacuumed.words("begin"))
    vacuumed.run(*vacuumed.words("intake"))
    vacuumed.sql("VACUUM")
    assert vacuumed.run(*vacuumed.words("audit")) == (0, ["valid"])
    return len(damages)


# Two transfers. `t1` lists `abc`, an empty content and 65,537 zeros, and holds all three, the zeros in two pieces; `t2`
# lists and holds `abc`. The ids of the payload files are 1 to 4.
TWO = {"t1": {"data/a.txt": b"abc", "data/e.txt": b"", "data/z": bytes(PIECE + 1)}, "t2": {"data/a.txt": b"abc"}}
# Pieces in a table of any types and without owners, which is as good until its rows are not.
LOOSE = """CREATE TABLE loose (item, n, body, PRIMARY KEY (item, n)); INSERT INTO loose SELECT * FROM piece; DROP TABLE piece;
    ALTER TABLE loose RENAME TO piece; """
LOOSE_HELD = """CREATE TABLE loose (id INTEGER PRIMARY KEY, transfer, path, size); INSERT INTO loose SELECT * FROM held; DROP TABLE held;
    ALTER TABLE loose RENAME TO held; """
LOOSE_TAGS = """CREATE TABLE loose (transfer, path, body); INSERT INTO loose SELECT * FROM tag; DROP TABLE tag;
    ALTER TABLE loose RENAME TO tag; """
# Names and paths in columns for which `A` and `a` are equal.
ANY_CASE = """CREATE TABLE loose (id INTEGER PRIMARY KEY, name TEXT COLLATE NOCASE); INSERT INTO loose SELECT * FROM transfer;
    DROP TABLE transfer; ALTER TABLE loose RENAME TO transfer; """
ANY_CASE_HELD = """CREATE TABLE loose (id INTEGER PRIMARY KEY, transfer, path TEXT COLLATE NOCASE, size);
    INSERT INTO loose SELECT * FROM held; DROP TABLE held; ALTER TABLE loose RENAME TO held; """
# The first payload file of `t1` does not pass; or no transfer can be opened with the tag files of `t1`.
DAMAGED = "UPDATE piece SET body = x'616264' WHERE item = 1; "
DAMAGED_TAGS = "UPDATE tag SET body = x'' WHERE transfer = 1 AND path = 'bagit.txt'; "
# 2,000 transfers more, which hold nothing.
MANY = """WITH RECURSIVE n(i) AS (SELECT 1 UNION ALL SELECT i + 1 FROM n WHERE i < 2000)
    INSERT INTO transfer (name) SELECT printf('n%04d', i) FROM n;
    INSERT INTO tag SELECT new.id, tag.path, tag.body FROM transfer AS new, tag, transfer AS old
    WHERE new.name LIKE 'n%' AND old.name = 't2' AND tag.transfer = old.id"""
OPENED = "t1", "t2"
# A change to that ledger, and the lines of `list` afterwards.
CHANGES = [
    ("", *OPENED),
    ("VACUUM", *OPENED),
    ("DELETE FROM held WHERE id = 2", *OPENED),
    (MANY, *(f"n{number:04}" for number in range(1, 2_001)), *OPENED),
    # A name that no command gives is spelled as a path is.
    ("UPDATE transfer SET name = 't1' || char(9) || char(10) || '%' WHERE name = 't1'", "t1\t%0A%25", "t2"),
    ("DELETE FROM meta", "bag: not a ledger"),
    ("UPDATE meta SET v = 9", "bag: not a ledger"),
    ("UPDATE meta SET v = 3", "bag: not a ledger"),
    ("UPDATE meta SET v = 1", "bag: not a ledger"),
    ("UPDATE meta SET k = 'ledger'", "bag: not a ledger"),
    ("INSERT INTO meta (k, v) VALUES ('other', 2)", "bag: not a ledger"),
    ("DROP TABLE piece", "bag: not a ledger"),
    ("DELETE FROM piece", "bag: damaged t1 data/a.txt"),
    ("DELETE FROM piece WHERE item = 4", "bag: damaged t2 data/a.txt"),
    ("DELETE FROM piece WHERE item = 3 AND n = 1", "bag: damaged t1 data/z"),
    ("UPDATE piece SET n = 1 WHERE item = 1", "bag: damaged t1 data/a.txt"),
    ("UPDATE piece SET n = 2 WHERE item = 3 AND n = 1", "bag: damaged t1 data/z"),
    ("UPDATE piece SET n = n + 9 WHERE item = 3; UPDATE piece SET n = 10 - n WHERE item = 3", "bag: damaged t1 data/z"),
    ("UPDATE piece SET body = x'616264' WHERE item = 1", "bag: damaged t1 data/a.txt"),
    ("UPDATE piece SET body = x'01' WHERE item = 3 AND n = 1", "bag: damaged t1 data/z"),
    ("UPDATE piece SET body = zeroblob(65537) WHERE item = 3 AND n = 0", "bag: damaged t1 data/z"),
    ("UPDATE piece SET body = x'616264' WHERE item = 1; DELETE FROM piece WHERE item = 3",
        "bag: damaged t1 data/a.txt"),
    ("UPDATE held SET size = 4 WHERE id = 1", "bag: damaged t1 data/a.txt"),
    ("UPDATE held SET size = size - 1 WHERE id = 3", "bag: damaged t1 data/z"),
    ("UPDATE held SET size = -3 WHERE id = 1", "bag: damaged t1 data/a.txt"),
    ("UPDATE held SET path = 'data/other' WHERE id = 3", "bag: damaged t1 data/other"),
    ("INSERT INTO piece (item, n, body) VALUES (2, 0, x'')", "bag: damaged t1 data/e.txt"),
    ("INSERT INTO held (transfer, path, size) VALUES (1, 'data/q', 0)", "bag: damaged t1 data/q"),
    ("INSERT INTO held (transfer, path, size) VALUES (1, '../x', 0)", "bag: damaged t1 ../x"),
    ("UPDATE tag SET body = x'' WHERE transfer = 1 AND path = 'bagit.txt'", "bag: damaged t1 "),
    ("UPDATE tag SET path = '../x' WHERE transfer = 1 AND path = 'bagit.txt'", "bag: damaged t1 "),
    ("UPDATE tag SET path = 'tag.txt' WHERE transfer = 1 AND path = 'bagit.txt'", "bag: damaged t1 "),
    ("DELETE FROM tag WHERE transfer = 2 AND path = 'bagit.txt'", "bag: damaged t2 "),
    ("INSERT INTO transfer (name) VALUES ('t0')", "bag: damaged t0 "),
    ("DROP TABLE piece; CREATE TABLE piece (item INTEGER, n INTEGER, body BLOB); INSERT INTO piece VALUES (9, 0, x'00')",
     "bag: not a ledger"),
    ("PRAGMA foreign_keys = OFF; DELETE FROM held", "bag: not a ledger"),
    (LOOSE, *OPENED),
    (LOOSE + "UPDATE piece SET body = CAST(zeroblob(65536) AS TEXT) WHERE item = 3 AND n = 0",
        "bag: damaged t1 data/z"),
    (LOOSE + "UPDATE piece SET body = NULL WHERE item = 3 AND n = 1", "bag: damaged t1 data/z"),
    (LOOSE + "UPDATE piece SET n = 'one' WHERE item = 3 AND n = 1", "bag: not a ledger"),
    (LOOSE + "INSERT INTO piece VALUES (99, 0, x'00')", "bag: not a ledger"),
    (LOOSE + "INSERT INTO piece SELECT item, 1.5, body FROM piece WHERE item = 3 AND n = 1", "bag: not a ledger"),
    # An owner that is only equal to the number of a transfer or a payload file.
    (LOOSE + "UPDATE piece SET item = '3' WHERE item = 3 AND n = 1", "bag: not a ledger"),
    (LOOSE + "UPDATE piece SET item = 3.0 WHERE item = 3 AND n = 1", "bag: not a ledger"),
    (LOOSE_HELD, *OPENED),
    (LOOSE_HELD + "UPDATE held SET transfer = '1' WHERE id = 3", "bag: not a ledger"),
    (LOOSE_HELD + "UPDATE held SET transfer = 1.0 WHERE id = 3", "bag: not a ledger"),
    (LOOSE_TAGS, *OPENED),
    (LOOSE_TAGS + "UPDATE tag SET transfer = '2' WHERE transfer = 2 AND path = 'bagit.txt'", "bag: not a ledger"),
    (LOOSE_TAGS + "INSERT INTO tag VALUES ('2', 'more.txt', x'00')", "bag: not a ledger"),
    # A database that is no ledger is told as that, whatever is damaged too, and wherever.
    (DAMAGED + "UPDATE transfer SET name = CAST(x'7aff' AS TEXT) WHERE name = 't2'", "bag: not a ledger"),
    (DAMAGED + "UPDATE tag SET path = CAST(x'7aff' AS TEXT) WHERE transfer = 2 AND path = 'bagit.txt'",
        "bag: not a ledger"),
    (DAMAGED + "UPDATE held SET path = CAST(x'646174612f7aff' AS TEXT) WHERE id = 4", "bag: not a ledger"),
    (DAMAGED_TAGS + "UPDATE transfer SET name = CAST(x'7aff' AS TEXT) WHERE name = 't2'", "bag: not a ledger"),
    (DAMAGED_TAGS + "ALTER TABLE piece RENAME COLUMN body TO octets", "bag: not a ledger"),
    ("UPDATE held SET path = CAST(x'646174612f7aff' AS TEXT) WHERE id = 3", "bag: not a ledger"),
    # What is told is the first by octets, also where the columns have another order.
    (ANY_CASE, *OPENED),
    (ANY_CASE_HELD, *OPENED),
    (ANY_CASE + DAMAGED + "INSERT INTO transfer (name) VALUES ('T3')", "bag: damaged T3 "),
    (ANY_CASE_HELD + DAMAGED + "INSERT INTO held (transfer, path, size) VALUES (1, 'data/Y', 0)",
        "bag: damaged t1 data/Y"),
    # No name is judged, and each stays on its line.
    ("UPDATE transfer SET name = 'a' || char(10) || 't0' || char(13) || '%' WHERE id = 1", "a%0At0%0D%25", "t2"),
]


def two_transfers(make):
    """A place with that ledger, which sqlite3 writes."""
    place = make({})
    database = sqlite3.connect(place.ledger)
    for text in TABLES:
        database.execute(text)
    database.execute("INSERT INTO meta (k, v) VALUES ('bag-ledger', 2)")
    for name, files in TWO.items():
        transfer = database.execute("INSERT INTO transfer (name) VALUES (?)", [name]).lastrowid
        lines = "".join(f"{hashlib.sha256(octets).hexdigest()}  {path}\n" for path, octets in files.items())
        for path, body in (("bagit.txt", DECLARATION), ("manifest-sha256.txt", lines.encode())):
            database.execute("INSERT INTO tag (transfer, path, body) VALUES (?, ?, ?)", (transfer, path, body))
        for path, octets in files.items():
            text = "INSERT INTO held (transfer, path, size) VALUES (?, ?, ?)"
            item = database.execute(text, (transfer, path, len(octets))).lastrowid
            for n, at in enumerate(range(0, len(octets), PIECE)):
                database.execute("INSERT INTO piece (item, n, body) VALUES (?, ?, ?)",
                    (item, n, octets[at : at + PIECE]))
    database.commit()
    database.close()
    return place


def changed(make):
    """A ledger of two transfers after each change. Returns how many there were, with those of a ledger of many
    files."""
    for change, *lines in CHANGES:
        found = two_transfers(make).changed(change)
        assert found == (3 if lines[0].startswith("bag: ") else 0, lines), (change, found)
    place = make({f"data/folder/{number}.txt": number.to_bytes(4, "little") + b"." * 2_044 for number in range(300)})
    assert place.run(*place.words("begin")) == (0, ["new"])
    assert place.run(*place.words("intake")) == (0, [f"taken {path}" for path in sorted(place.contents)])
    judge(place, place.contents)
    whole, damages = place.ledger.read_bytes(), list(damages_among(sorted(place.contents)))
    for damage, line in damages:
        place.ledger.write_bytes(whole)
        assert place.changed(damage) == (3, [line]), (damage, line)
    return len(CHANGES) + len(damages) + damaged_in_pieces(make)


def damaged_in_pieces(make):
    """A ledger of payload files of several pieces, and of short ones. Returns how often it was damaged."""
    lengths = [number % 5 * 65_536 + number * 13 % 3 for number in range(24)]
    place = make({f"data/{number:02}.txt": bytes([number + 1]) * length for number, length in enumerate(lengths)})
    assert place.run(*place.words("begin")) == (0, ["new"])
    assert place.run(*place.words("intake")) == (0, [f"taken {path}" for path in sorted(place.contents)])
    judge(place, place.contents)
    long = [path for path in sorted(place.contents) if len(place.contents[path]) > 65_536]
    whole = place.ledger.read_bytes()
    for number, damage in enumerate(DAMAGES_IN_PIECES * 5):
        first, second = sorted((number * 7 % len(long), number * 11 % len(long)))
        items = [f"(SELECT id FROM held WHERE path = '{long[n]}')" for n in (first, second)]
        place.ledger.write_bytes(whole)
        found = place.changed("; ".join(damage.format(item) for item in dict.fromkeys(items)))
        assert found == (3, [f"bag: damaged t1 {long[first]}"]), (damage, items, found)
    return 5 * len(DAMAGES_IN_PIECES)


DAMAGES_IN_PIECES = [
    "UPDATE piece SET body = zeroblob(65536) WHERE item = {} AND n = 0",
    "UPDATE piece SET body = zeroblob(length(body)) WHERE item = {0} AND n = (SELECT max(n) FROM piece WHERE item = {0})",
    "DELETE FROM piece WHERE item = {} AND n = 1",
    "DELETE FROM piece WHERE item = {0} AND n = (SELECT max(n) FROM piece WHERE item = {0})",
    "INSERT INTO piece SELECT item, n + 1, x'00' FROM piece WHERE item = {} ORDER BY n DESC LIMIT 1",
    "UPDATE piece SET body = substr(body, 2) WHERE item = {} AND n = 0",
    "UPDATE held SET size = size - 1 WHERE id = {}",
]


def damages_among(paths):
    """Damages of one of these payload files and of the last: the first by path is named, wherever its batch begins or
    ends."""
    item = "item = (SELECT id FROM held WHERE path = '{}')"
    last = f"DELETE FROM piece WHERE {item.format(paths[-1])}"
    for place in (0, 1, 62, 63, 64, 65, 127, 128, len(paths) - 2):
        path = paths[place]
        yield f"UPDATE piece SET body = zeroblob(2048) WHERE {item.format(path)}; {last}", f"bag: damaged t1 {path}"


def no_second_ledger(make):
    """A beginning over a ledger of another name leaves what that holds."""
    place = two_transfers(make)
    assert place.run(*place.words("begin")) == (1, ["refused: differs"])
    assert place.run("begin", place.ledger, "t3", place.bag) == (0, ["new"])
    assert place.run("list", place.ledger) == (0, ["t1", "t2", "t3"])


def expected(place, command, held):
    """The answer of a command if the transfer is open (`held` isn't None) and holds these payload files, and what it
    holds afterwards."""
    missing = [f"manifest-sha256.txt: missing: {path}" for path in sorted(SMALL)
        if held is not None and path not in held]
    if command == "begin":
        return (0, ["new"] if held is None else ["again"]), held or set()
    if held is None:
        return (3, ["bag: not a ledger"]), None
    if command in ("report", "audit"):
        return ((1, [*missing, "not complete"]) if missing else (0, ["valid"])), held
    if command == "list":
        return (0, ["t1"]), held
    if command == "export":
        return (0, [f"exported {len(place.tags) + len(held)} files"]), held
    if command == "fetch":
        return (0, [] if "data/e.txt" in held else ["taken data/e.txt"]), held | {"data/e.txt"}
    lines = [f"repeated {path}" if path in held else f"taken {path}" for path in sorted(SMALL)]
    return (0, lines), held | set(SMALL)


# What another program may add to a ledger.
OTHERS = [
    "CREATE TABLE other (id INTEGER PRIMARY KEY)",
    "CREATE VIEW names AS SELECT name FROM transfer",
    "CREATE INDEX by_path ON held (path)",
]


def beside_others(make):
    """A transfer in a ledger that has what is no one's: all of it is held, and that stays."""
    for text in OTHERS:
        place = make(SMALL)
        assert place.run(*place.words("begin")) == (0, ["new"])
        place.sql(text)
        assert place.run(*place.words("intake")) == (0, [f"taken {path}" for path in sorted(SMALL)]), text
        assert place.run(*place.words("audit")) == (0, ["valid"]), text
        judge(place, SMALL, sorted([*TABLES, text]))


def each_after_each(make):
    """Every command after every other, with a ledger that is missing at first or that has the transfer. Returns the
    number of orders."""
    orders = list(itertools.product([False, True], ALL, ALL))
    for begun, *commands in orders:
        place, held = make(SMALL, fetched=["data/e.txt"]), None
        for command in ["begin"] * begun + commands:
            found = place.run(*place.words(command))
            wanted, held = expected(place, command, held)
            assert found == wanted, (begun, commands, command, found, wanted)
            if command == "export" and held is not None:
                exported(place, place.work / f"out{place.exports}", held)
        assert place.ledger.exists() == (held is not None), commands
        shutil.rmtree(place.work)
    return len(orders)


def exported(place, folder, held):
    """The folder has exactly the tag files and the payload files that are held."""
    files = {str(file.relative_to(folder)): file.read_bytes() for file in folder.rglob("*") if file.is_file()}
    assert files == {**place.tags, **{path: place.contents[path] for path in held}} and (
        folder / "data").is_dir(), folder


def judge(place, held, tables=None):
    """The tables have exactly the rows of one transfer with these payload files (section 18 of FORMAT.md). There are no
    other tables than these."""
    assert place.sql("PRAGMA integrity_check") == [("ok",)] and place.sql("PRAGMA foreign_key_check") == []
    assert place.sql("SELECT k, v FROM meta") == [("bag-ledger", 2)]
    texts = place.sql("SELECT sql FROM sqlite_schema WHERE sql IS NOT NULL")
    assert sorted(" ".join(text.split()) for (text,) in texts) == (tables or TABLES), texts
    [(transfer, name)] = place.sql("SELECT id, name FROM transfer")
    assert name == "t1"
    assert sorted(place.sql("SELECT transfer, path, body FROM tag")) == sorted((transfer, *tag)
        for tag in place.tags.items())
    rows = place.sql("SELECT transfer, path, size FROM held")
    assert sorted(rows) == sorted((transfer, path, len(place.contents[path])) for path in held), (rows, held)
    pieces = [
        (path, n, place.contents[path][at : at + PIECE])
        for path in held
        for n, at in enumerate(range(0, len(place.contents[path]), PIECE))
    ]
    assert sorted(place.sql("SELECT path, n, body FROM piece JOIN held ON held.id = item")) == sorted(pieces)
    assert place.sql("SELECT count(*) FROM piece") == [(len(pieces),)]


def read_back(make):
    """Files of all lengths close to multiples of a piece, read by sqlite3 after each command that writes. Returns how
    many there were."""
    lengths = [0, 1, PIECE - 1, PIECE, PIECE + 1, 2 * PIECE, 3 * PIECE + 17]
    contents = {f"data/{length} %": os.urandom(length) for length in lengths}
    place = make(contents)
    assert place.run(*place.words("begin")) == (0, ["new"])
    judge(place, [])
    place.sql("VACUUM")
    judge(place, [])
    one = place.work / "one"
    path = f"data/{3 * PIECE + 17} %"
    (one / "data").mkdir(parents=True)
    (one / path).write_bytes(contents[path][:-1])
    spelled = path.replace("%", "%25")
    assert place.run("intake", place.ledger, "t1", one) == (1, [f"refused {spelled}: digest sha256"])
    judge(place, [])
    (one / path).write_bytes(contents[path])
    assert place.run("intake", place.ledger, "t1", one) == (0, [f"taken {spelled}"])
    judge(place, [path])
    assert place.run(*place.words("intake"))[0] == 0
    judge(place, contents)
    place.sql("VACUUM")
    judge(place, contents)
    assert place.run(*place.words("export")) == (0, [f"exported {2 + len(contents)} files"])
    exported(place, place.work / f"out{place.exports}", contents)
    return len(contents)


def many_items(make):
    """A ledger with as many payload files as one manifest can list is opened, and audited. Returns how many."""
    place = make({})
    paths = [f"data/{number}" for number in range(100_000)]
    empty = hashlib.sha256(b"").hexdigest()
    (place.bag / "manifest-sha256.txt").write_text("".join(f"{empty}  {path}\n" for path in paths), encoding="ascii")
    assert place.run(*place.words("begin")) == (0, ["new"])
    database = sqlite3.connect(place.ledger)
    database.executemany("INSERT INTO held (transfer, path, size) VALUES (1, ?, 0)", ((path,) for path in paths))
    database.commit()
    database.close()
    for command in ("report", "audit"):
        assert place.run(*place.words(command)) == (0, ["valid"]), command
    return len(paths)


def counted_rows(make):
    """A file of two pieces and one octet: the rows of `held` and `piece` after it came whole, again, and changed.
    Returns how many deliveries there were."""
    octets = os.urandom(2 * PIECE + 1)
    place = make({"data/a": octets, "data/b": b"b"})
    rows = lambda: [place.sql(f"SELECT count(*) FROM {table}")[0][0] for table in ("held", "piece")]
    assert place.run(*place.words("begin")) == (0, ["new"])
    changed = octets[:-1] + bytes([octets[-1] ^ 1])
    deliveries = [
        (changed, "refused data/a: digest sha256", [0, 0]),
        (octets[:-1], "refused data/a: digest sha256", [0, 0]),
        (octets, "taken data/a", [1, 3]),
        (octets, "repeated data/a", [1, 3]),
        (changed, "refused data/a: digest sha256", [1, 3]),
    ]
    for number, (given, line, wanted) in enumerate(deliveries):
        one = place.work / f"one{number}"
        (one / "data").mkdir(parents=True)
        (one / "data/a").write_bytes(given)
        assert place.run("intake", place.ledger, "t1", one) == (int("refused" in line), [line])
        assert rows() == wanted, (line, rows())
    judge(place, ["data/a"])
    return len(deliveries)


def full_disks(make):
    """`begin`, and then `intake` or `fetch`, with files limited to a length: what was answered is held, and the next
    command works. Returns how many were tried."""
    contents = {"data/a": os.urandom(20_000), "data/b": b"", "data/c": os.urandom(3 * PIECE),
        "data/d": os.urandom(90_000)}
    tried, seen = list(itertools.product(("intake", "fetch"), range(0, 800_000, 19_997))), set()
    for command, limit in tried:
        place = make(contents, fetched=contents)
        begun = place.run(*place.words("begin"), limit=limit)
        if begun != (0, ["new"]):
            assert begun == (3, ["bag: store"]), begun
            seen.add((command, "no ledger"))
            assert not place.ledger.exists(), limit
            assert place.run(*place.words("begin")) == (0, ["new"])
        status, lines = place.run(*place.words(command), limit=limit)
        taken = [line.removeprefix("taken ") for line in lines if line.startswith("taken ")]
        if lines == ["bag: store"] or "refused" in "".join(lines):
            assert status == 3 and (len(lines) == 1 or len(lines) == len(contents)), lines
            assert lines[len(taken) :] in ([f"refused {path}: store" for path in list(contents)[len(taken) :]],
                ["bag: store"]), lines
            seen.add((command, "full"))
        else:
            assert status == 0 and taken == list(contents), lines
            seen.add((command, "all"))
        judge(place, taken)
        missing = [f"manifest-sha256.txt: missing: {path}" for path in contents if path not in taken]
        wanted = (1, [*missing, "not complete"]) if missing else (0, ["valid"])
        assert place.run(*place.words("audit")) == wanted, (limit, wanted)
        assert place.run(*place.words(command))[0] == 0
        assert place.run(*place.words("report")) == (0, ["valid"])
        shutil.rmtree(place.work)
    assert seen == set(itertools.product(("intake", "fetch"), ("no ledger", "full", "all"))), seen
    return len(tried)


def main(program):
    with tempfile.TemporaryDirectory() as folder:
        number = itertools.count()
        make = lambda contents, fetched=(): Place(os.path.abspath(program), pathlib.Path(folder) / str(next(number)),
            contents, fetched)
        kinds = no_ledgers, damaged, changed, each_after_each, read_back, counted_rows, many_items, full_disks
        none, damages, changes, orders, files, rows, items, disks = (kind(make) for kind in kinds)
        no_second_ledger(make)
        beside_others(make)
    print(
        f"{none} that are not ledgers, {damages} damaged, {changes} changed, {orders} orders,"
        f" {files} files read by sqlite3,"
        f" {rows} deliveries whose rows were counted, {items} payload files in one ledger, {disks} full disks"
    )


if __name__ == "__main__":
    main(*sys.argv[1:])
