#!/usr/bin/env python3
"""long_items.py PROGRAM [COUNT]: ledgers with long payload files, of several pieces each.

sqlite3 writes each ledger as docs/FORMAT.md says. It is opened; then some of its payload files are damaged, each in one
of several ways, and the first of them by path must be told. At the end it prints how much was tried.
"""
import collections
import contextlib
import hashlib
import pathlib
import random
import sqlite3
import sys
import tempfile

from ledger_files import DECLARATION, PIECE, TABLES
from running import run

# One piece and more, with ends within, at and behind a block of 64 octets.
SIZES = [PIECE + 1, PIECE + 63, PIECE + 64, PIECE + 65, 2 * PIECE - 1, 2 * PIECE, 2 * PIECE + 1, 3 * PIECE,
    3 * PIECE + 4_000, 5 * PIECE + 77]
SHORT = [0, 1, 100, PIECE - 1, PIECE]
ALGORITHMS = [["md5"], ["sha1"], ["sha256"], ["md5", "sha256"], ["md5", "sha1", "sha256"], ["sha512"],
    ["sha256", "sha512"]]


def pieces_of(octets):
    return [octets[at:at + PIECE] for at in range(0, len(octets), PIECE)]


def write(file, contents, algorithms):
    """A ledger of format 2 with one transfer, t1, that has these payload files, whose numbers don't go by their
    paths."""
    with contextlib.closing(sqlite3.connect(file)) as database:
        for text in TABLES:
            database.execute(text)
        database.execute("INSERT INTO meta (k, v) VALUES ('bag-ledger', 2)")
        transfer = database.execute("INSERT INTO transfer (name) VALUES ('t1')").lastrowid
        tags = {"bagit.txt": DECLARATION}
        for name in algorithms:
            lines = [f"{hashlib.new(name, octets).hexdigest()}  {path}\n" for path, octets in contents.items()]
            tags[f"manifest-{name}.txt"] = "".join(lines).encode()
        for path, body in tags.items():
            database.execute("INSERT INTO tag (transfer, path, body) VALUES (?, ?, ?)", (transfer, path, body))
        for path, octets in sorted(contents.items(), key=lambda entry: hashlib.md5(entry[0].encode()).digest()):
            added = database.execute("INSERT INTO held (transfer, path, size) VALUES (?, ?, ?)",
                (transfer, path, len(octets)))
            rows = [(added.lastrowid, n, piece) for n, piece in enumerate(pieces_of(octets))]
            database.executemany("INSERT INTO piece (item, n, body) VALUES (?, ?, ?)", rows)
        database.commit()


def flipped(octets, at):
    return octets[:at] + bytes([octets[at] ^ 1]) + octets[at + 1:]


def change_piece(database, item, n, body):
    database.execute("UPDATE piece SET body = ? WHERE item = ? AND n = ?", (body, item, n))


# The ways in which a payload file of more than one piece is damaged.
WAYS = {
    "the first octet": lambda d, item, parts: change_piece(d, item, 0, flipped(parts[0], 0)),
    "the last octet": lambda d, item, parts: change_piece(d, item, len(parts) - 1,
        flipped(parts[-1], len(parts[-1]) - 1)),
    "no last piece": lambda d, item, parts: d.execute("DELETE FROM piece WHERE item = ? AND n = ?",
        (item, len(parts) - 1)),
    "no first piece": lambda d, item, parts: d.execute("DELETE FROM piece WHERE item = ? AND n = 0", (item,)),
    "a piece more": lambda d, item, parts: d.execute("INSERT INTO piece (item, n, body) VALUES (?, ?, x'00')",
        (item, len(parts))),
    "a piece far behind": lambda d, item, parts: d.execute("INSERT INTO piece (item, n, body) VALUES (?, 99, x'')",
        (item,)),
    "a shorter piece": lambda d, item, parts: change_piece(d, item, 0, parts[0][:-1]),
    "a longer piece": lambda d, item, parts: change_piece(d, item, len(parts) - 1, parts[-1] + b"\0"),
    "a smaller size": lambda d, item, parts: d.execute("UPDATE held SET size = size - 1 WHERE id = ?", (item,)),
    "a greater size": lambda d, item, parts: d.execute("UPDATE held SET size = size + 1 WHERE id = ?", (item,)),
    "a size past the limit": lambda d, item, parts: d.execute("UPDATE held SET size = 1 << 40 WHERE id = ?", (item,)),
    "another path": lambda d, item, parts: d.execute("UPDATE held SET path = path || 'x' WHERE id = ?", (item,)),
    "pieces of another": lambda d, item, parts: d.execute(
        "UPDATE piece SET body = zeroblob(length(body)) WHERE item = ?", (item,)),
}


def damage(file, paths, ways):
    """Damages the payload files at these paths, each in one way. Returns the first path by which one is damaged."""
    first = []
    with contextlib.closing(sqlite3.connect(file)) as database:
        for path, way in zip(paths, ways):
            (item,) = database.execute("SELECT id FROM held WHERE path = ?", (path,)).fetchone()
            parts = [body for (body,) in database.execute("SELECT body FROM piece WHERE item = ? ORDER BY n", (item,))]
            WAYS[way](database, item, parts)
            first.append(path + ("x" if way == "another path" else ""))
        database.commit()
    return min(first, key=str.encode)


def list_names(program, file):
    ran = run([program, "list", file], timeout=300)
    return ran.returncode, ran.stdout.decode(), ran.stderr.decode()


def main(program, count):
    chance = random.Random(8493)
    done = collections.Counter()
    with tempfile.TemporaryDirectory() as work:
        for number in range(count):
            file = pathlib.Path(work) / f"ledger {number}"
            sizes = [chance.choice(SIZES if chance.random() < 0.75 else SHORT) for _ in range(chance.randint(2, 10))]
            contents = {f"data/{chr(97 + k)}": chance.randbytes(size) for k, size in enumerate(sizes)}
            write(file, contents, chance.choice(ALGORITHMS))
            assert list_names(program, file) == (0, "t1\n", ""), (number, sizes, list_names(program, file))
            done["opened"] += 1
            long = [path for path, octets in contents.items() if len(octets) > PIECE]
            if long:
                paths = chance.sample(long, chance.randint(1, min(3, len(long))))
                ways = [chance.choice(list(WAYS)) for _ in paths]
                first = damage(file, paths, ways)
                told = list_names(program, file)
                assert told == (3, f"bag: damaged t1 {first}\n", ""), (number, sizes, paths, ways, first, told)
                done["damaged"] += 1
    print(f"{done['opened']} opened, {done['damaged']} damaged")


if __name__ == "__main__":
    main(sys.argv[1], int(sys.argv[2]) if len(sys.argv) > 2 else 60)
