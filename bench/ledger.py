"""Ledgers as sqlite3 (Python's, using its C library) writes them, with the program's tables, transactions and settings of durability:
bench/intake.py and bench/opening.py compare with them. Each payload file is put in its own transaction, and no digest is computed.
"""

import sqlite3

from check import DECLARATION

TABLES = """
CREATE TABLE meta (k TEXT NOT NULL PRIMARY KEY, v INTEGER NOT NULL) STRICT;
CREATE TABLE transfer (id INTEGER PRIMARY KEY, name TEXT NOT NULL UNIQUE) STRICT;
CREATE TABLE tag (transfer INTEGER NOT NULL REFERENCES transfer(id), path TEXT NOT NULL, body BLOB NOT NULL,
    PRIMARY KEY (transfer, path)) STRICT;
CREATE TABLE held (id INTEGER PRIMARY KEY, transfer INTEGER NOT NULL REFERENCES transfer(id), path TEXT NOT NULL,
    size INTEGER NOT NULL, UNIQUE (transfer, path)) STRICT;
CREATE TABLE piece (item INTEGER NOT NULL REFERENCES held(id), n INTEGER NOT NULL, body BLOB NOT NULL,
    PRIMARY KEY (item, n)) STRICT;
INSERT INTO meta VALUES ('bag-ledger', 2);
"""


def opened(database, manifest):
    """Makes a ledger with one transfer, using sqlite3."""
    ledger = sqlite3.connect(database, isolation_level=None)
    for setting in ("journal_mode = WAL", "synchronous = FULL", "foreign_keys = ON"):
        ledger.execute(f"PRAGMA {setting}")
    ledger.executescript(TABLES)
    ledger.execute("BEGIN")
    ledger.execute("INSERT INTO transfer (name) VALUES ('bench')")
    for path, body in (("bagit.txt", DECLARATION), ("manifest-sha256.txt", manifest)):
        ledger.execute("INSERT INTO tag VALUES (1, ?, ?)", (path, body))
    ledger.execute("COMMIT")
    return ledger


def put(ledger, path, pieces):
    """Puts a payload file in one transaction."""
    ledger.execute("BEGIN")
    [(transfer,)] = ledger.execute("SELECT id FROM transfer WHERE name = 'bench'").fetchall()
    ledger.execute("SELECT id FROM held WHERE transfer = ? AND path = ?", (transfer, path)).fetchall()
    item = ledger.execute("INSERT INTO held (transfer, path, size) VALUES (?, ?, 0)", (transfer, path)).lastrowid
    size = 0
    for number, piece in enumerate(pieces):
        size += len(piece)
        ledger.execute("INSERT INTO piece VALUES (?, ?, ?)", (item, number, piece))
    ledger.execute("UPDATE held SET size = ? WHERE id = ?", (size, item))
    ledger.execute("COMMIT")
