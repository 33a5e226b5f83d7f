"""Ledgers in files, as sqlite3 writes and changes them."""
import contextlib
import hashlib
import pathlib
import sqlite3
import subprocess
import sys

PIECE = 65_536
DECLARATION = b"BagIt-Version: 1.0\nTag-File-Character-Encoding: UTF-8\n"


def blocks():
    """The texts of the tables of both formats, as FORMAT.md has them, but for blanks: those of format 2, and then that
    of format 1."""
    text = (pathlib.Path(__file__).parent.parent.parent / "docs/FORMAT.md").read_text(encoding="utf-8")
    found = [block.partition("```")[0] for block in text.split("```sql\n")[1:]]
    return [["CREATE TABLE " + " ".join(part.split()) for part in block.split("CREATE TABLE ")[1:]] for block in found]


SECOND, ITEM = blocks()
FIRST = SECOND[:3] + ITEM
TABLES = sorted(SECOND)
SMALL = {"data/a.txt": b"abc", "data/e.txt": b""}
# Makes a ledger of format 2 one of format 1.
TO_FIRST = """CREATE TABLE item (transfer INTEGER NOT NULL REFERENCES transfer(id), path TEXT NOT NULL, size INTEGER NOT NULL,
    body BLOB NOT NULL, PRIMARY KEY (transfer, path)) STRICT;
    INSERT INTO item SELECT transfer, path, size, coalesce((SELECT joined(body) FROM (SELECT body FROM piece WHERE item = held.id
    ORDER BY n)), x'')
    FROM held; DROP TABLE piece; DROP TABLE held; UPDATE meta SET v = 1"""
LOCK = """
import sqlite3, sys
other = sqlite3.connect(sys.argv[1], isolation_level=None)
for text in ("PRAGMA locking_mode = EXCLUSIVE", "BEGIN EXCLUSIVE", "SELECT * FROM meta"):
    other.execute(text).fetchall()
print("locked", flush=True)
sys.stdin.read()
"""


def tags_of(files):
    lines = "".join(f"{hashlib.sha256(octets).hexdigest()}  {path.replace('%', '%25')}\n"
        for path, octets in files.items())
    return {"bagit.txt": DECLARATION, "manifest-sha256.txt": lines.encode()}


def write_first(file, transfers, unlisted=None):
    """A ledger of format 1 with these payload files in each transfer, all listed, and in `unlisted` those that are not
    held."""
    with contextlib.closing(sqlite3.connect(file)) as database:
        for text in FIRST:
            database.execute(text)
        database.execute("INSERT INTO meta (k, v) VALUES ('bag-ledger', 1)")
        for name, files in transfers.items():
            transfer = database.execute("INSERT INTO transfer (name) VALUES (?)", [name]).lastrowid
            for path, body in tags_of({**files, **(unlisted or {}).get(name, {})}).items():
                database.execute("INSERT INTO tag (transfer, path, body) VALUES (?, ?, ?)", (transfer, path, body))
            for path, octets in files.items():
                database.execute("INSERT INTO item (transfer, path, size, body) VALUES (?, ?, ?, ?)",
                    (transfer, path, len(octets), octets))
        database.commit()


def change(file, text):
    """Changes the ledger. The change is in the file and not in its log."""
    with contextlib.closing(sqlite3.connect(file)) as database:
        database.executescript(text)
        database.execute("PRAGMA wal_checkpoint(TRUNCATE)")


class Joined:
    """Octets in sequence, for SQL."""

    def __init__(self):
        self.octets = b""

    def step(self, octets):
        self.octets += octets

    def finalize(self):
        return self.octets


def alter(ledger, text):
    """Changes the ledger as far as its tables allow it; that rows have owners isn't asked."""
    database = sqlite3.connect(ledger)
    database.execute("PRAGMA foreign_keys = OFF")
    database.create_aggregate("joined", 1, Joined)
    try:
        database.executescript(text)
    except sqlite3.IntegrityError:
        pass
    database.close()


def in_the_log(ledger, database, text):
    """Has sqlite3 change this database, and makes the ledger a copy of it, with the log as it is before the database is
    closed."""
    opened = sqlite3.connect(database)
    opened.executescript("PRAGMA wal_autocheckpoint = 0")
    opened.executescript(text)
    opened.commit()
    copies = [(pathlib.Path(f"{database}{end}").read_bytes(), f"{ledger}{end}") for end in ("", "-wal")]
    opened.close()
    for end in ("", "-wal", "-shm"):
        pathlib.Path(f"{database}{end}").unlink(missing_ok=True)
    for octets, name in copies:
        pathlib.Path(name).write_bytes(octets)


@contextlib.contextmanager
def locked(file):
    """Another program has the ledger open. It is a process of its own: if this one read and closed the file, it would
    lose its locks."""
    words = [sys.executable, "-c", LOCK, file]
    with subprocess.Popen(words, stdin=subprocess.PIPE, stdout=subprocess.PIPE, text=True) as other:
        assert other.stdout.readline() == "locked\n"
        yield
        other.stdin.close()
