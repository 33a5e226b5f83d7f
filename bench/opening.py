#!/usr/bin/env python3
"""The times of opening ledgers and of audits, compared with a check of a bag with the same payload files; and the peak memory.

Each row is a ledger with so many payload files of one length, which sqlite3 writes, and the bag of its transfer. `bag list` opens the
ledger, and so reads and hashes all of it; `bag audit` opens it, and then reads and hashes all of it again. The three take turns, by
default for three rounds, and the least time of each counts.

    bench/opening.py [ROUNDS]
"""

import hashlib
import pathlib
import shutil
import subprocess
import sys
import tempfile

from check import DECLARATION, PIECE, PROGRAM, TOP, run
from ledger import opened, put

LEDGERS = ((20_000, 2_048), (10_000, 20_000), (4_096, 65_536), (4_096, 65_537), (4, 64 << 20), (1, 256 << 20))


def write(number, length, database, bag):
    """Makes a ledger with so many payload files of this length, and the bag of its transfer."""
    paths = [f"data/folder/{place}.txt" for place in range(number)]
    content = bytes(length)
    digest = hashlib.sha256(content).hexdigest()
    manifest = "".join(f"{digest}  {path}\n" for path in paths).encode()
    (bag / "data/folder").mkdir(parents=True)
    (bag / "bagit.txt").write_bytes(DECLARATION)
    (bag / "manifest-sha256.txt").write_bytes(manifest)
    ledger = opened(database, manifest)
    ledger.execute("PRAGMA synchronous = OFF")
    for path in paths:
        (bag / path).write_bytes(content)
        put(ledger, path, (content[start : start + PIECE] for start in range(0, length, PIECE)))
    ledger.close()


def row(number, length, work, rounds):
    database, bag = work / "ledger", work / "bag"
    write(number, length, database, bag)
    commands = {"check": ["check", bag], "opening": ["list", database], "audit": ["audit", database, "bench"]}
    times, peak = {}, 0
    for _ in range(rounds):
        for word, words in commands.items():
            seconds, memory = run([[PROGRAM, *words]], work)
            times[word] = min(seconds, times.get(word, seconds))
            peak = max(memory, peak)
    database.unlink()
    shutil.rmtree(bag)
    print(
        f"{number:>6} of {length:<10} {times['check']:>6.2f} {times['opening']:>8.2f} {times['audit']:>6.2f}"
        f" {times['opening'] / times['check']:>14.2f} {times['audit'] / times['opening']:>14.2f} {peak / 1024:>9.0f}",
        flush=True,
    )


def main(rounds=3):
    subprocess.run([TOP / "build"], check=True)
    print(f"{'payload files':<20} {'check':>6} {'opening':>8} {'audit':>6} {'opening/check':>14} {'audit/opening':>14} {'peak MiB':>9}")
    with tempfile.TemporaryDirectory() as folder:
        for number, length in LEDGERS:
            row(number, length, pathlib.Path(folder), rounds)


if __name__ == "__main__":
    main(*map(int, sys.argv[1:]))
