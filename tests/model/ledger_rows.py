"""What a ledger in a file holds, as sqlite3 reads it, by section 18 of docs/FORMAT.md."""
import pathlib
import shutil
import sqlite3
import tempfile

PIECE = 65_536
# The tables of format 1, and those of format 2 in a new ledger and in one that was moved.
FIRST, SECOND = ["item", "meta", "tag", "transfer"], ["held", "meta", "piece", "tag", "transfer"]
MOVED = sorted({*FIRST, *SECOND})
OWNERS = {"tag": ("transfer", "transfer"), "item": ("transfer", "transfer"), "held": ("transfer", "transfer"),
    "piece": ("item", "held")}


def found(database):
    """What is held in the ledger by sqlite3, which reads a copy; None if there are no tables. Each row belongs to
    something."""
    # The first page of a new database is written with another first octet, which sqlite3 doesn't accept, and that octet
    # comes last.
    if database.read_bytes()[:16] == b"\0QLite format 3\0":
        assert database.stat().st_size <= 4_096
        return None
    with tempfile.TemporaryDirectory(dir=database.parent) as folder:
        copy = pathlib.Path(folder) / "copy"
        for end in ("", "-wal"):
            if pathlib.Path(f"{database}{end}").exists():
                shutil.copy(f"{database}{end}", f"{copy}{end}")
        opened = sqlite3.connect(copy)
        try:
            return rows(lambda text, *fields: opened.execute(text, fields).fetchall())
        finally:
            opened.close()


def rows(ask):
    assert ask("PRAGMA integrity_check") == [("ok",)] and ask("PRAGMA foreign_key_check") == []
    tables = sorted(name for (name,) in ask("SELECT name FROM sqlite_schema WHERE type = 'table'"))
    if not tables:
        return None
    [(name, number)] = ask("SELECT k, v FROM meta")
    assert name == "bag-ledger" and (number, tables) in [(1, FIRST), (2, SECOND), (2, MOVED)], (number, tables)
    assert tables != MOVED or ask("SELECT * FROM item") == []
    for table, (column, owner) in OWNERS.items():
        if table in tables:
            assert ask(f"SELECT count(*) FROM {table} WHERE {column} NOT IN (SELECT id FROM {owner})") == [(0,)], table
    ledger = {}
    for transfer, name in ask("SELECT id, name FROM transfer"):
        tags = {path.encode(): body for path, body in ask("SELECT path, body FROM tag WHERE transfer = ?", transfer)}
        ledger[name.encode()] = tags, {}
        if number == 1:
            ledger[name.encode()][1].update((path.encode(), body)
                for path, body in ask("SELECT path, body FROM item WHERE transfer = ?", transfer))
            continue
        for item, path, size in ask("SELECT id, path, size FROM held WHERE transfer = ?", transfer):
            ledger[name.encode()][1][path.encode()] = content(ask, item, size)
    return ledger


def content(ask, item, size):
    """The octets of a payload file. Its pieces are numbered from 0, and are full except for the last."""
    pieces = ask("SELECT n, body FROM piece WHERE item = ? ORDER BY n", item)
    octets = b"".join(body for _, body in pieces)
    assert len(octets) == size, (item, size)
    assert pieces == [(n, octets[at : at + PIECE]) for n, at in enumerate(range(0, size, PIECE))], item
    return octets
