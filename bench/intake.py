#!/usr/bin/env python3
"""The times of receiving a bag into a ledger on disk and of exporting it, compared with what a user could do instead: `cp -r` and the
digests by coreutils, and the same rows written by sqlite3 (Python's, using its C library) with the digests by coreutils. Then the
time and the peak memory of each command on a ledger, by what it holds.

Each row is a payload. All of them take turns, by default for three rounds, and the least time of each counts. `cp` doesn't wait until
the data is on the disk; the ledgers do, once for each payload file. Memory is the greatest resident set. SMALLER divides the octets
or the number of files of each payload.

    bench/intake.py [ROUNDS [SMALLER]]
"""

import pathlib
import shutil
import subprocess
import sys
import tempfile

from check import MEBIBYTE, PIECE, PROGRAM, TOP, make, run
from ledger import opened, put

NAME = "bench"


def sqlite3_receives(bag, database):
    """Puts each payload file that the manifest lists, each in its own transaction."""
    bag = pathlib.Path(bag)
    manifest = (bag / "manifest-sha256.txt").read_bytes()
    ledger = opened(database, manifest)
    for line in manifest.decode().splitlines():
        path = line.split("  ", 1)[1]
        with open(bag / path, "rb") as octets:
            put(ledger, path, iter(lambda: octets.read(PIECE), b""))
    ledger.close()


def gone(*files):
    for file in files:
        for found in file.parent.glob(f"{file.name}*"):
            shutil.rmtree(found) if found.is_dir() else found.unlink()


def least(rounds, ways, work):
    """The least time of each way and its greatest memory. A way is commands, and what they leave, which is removed after each round."""
    times, peaks = {}, {}
    for _ in range(rounds):
        for name, (before, commands, left) in ways.items():
            for words in before:
                run([words], work)
            seconds, memory = run(commands, work)
            times[name] = min(seconds, times.get(name, seconds))
            peaks[name] = max(memory, peaks.get(name, 0))
            gone(*left)
    return times, peaks


def transfer(name, sizes, folders, rounds, work):
    """A row of intake and one of export."""
    bag, ledger, kept, copy, out = (work / place for place in ("bag", "ledger", "kept", "copy", "out"))
    make(bag, sizes, folders, ["sha256"])
    begin = [PROGRAM, "begin", ledger, NAME, bag]
    copied = [["cp", "-r", bag, copy], ["sh", "-c", 'cd "$1" && exec sha256sum --check --quiet manifest-sha256.txt', "sh", copy]]
    summed = ["sh", "-c", 'cd "$1" && exec sha256sum --check --quiet manifest-sha256.txt', "sh", bag]
    run([[PROGRAM, "begin", kept, NAME, bag], [PROGRAM, "intake", kept, NAME, bag]], work)
    ways = {
        "intake": ([begin], [[PROGRAM, "intake", ledger, NAME, bag]], [ledger]),
        "copied": ([], copied, [copy]),
        "sqlite3": ([], [[sys.executable, __file__, "receive", bag, ledger], summed], [ledger]),
        "export": ([], [[PROGRAM, "export", kept, NAME, out]], [out]),
    }
    times, peaks = least(rounds, ways, work)
    print(
        f"{'intake ' + name:<16} {times['intake']:>8.2f} {times['copied']:>8.2f} {times['sqlite3']:>8.2f}"
        f" {times['intake'] / times['copied']:>6.2f} {times['intake'] / times['sqlite3']:>8.2f} {peaks['intake'] / 1024:>8.1f}",
        flush=True,
    )
    print(
        f"{'export ' + name:<16} {times['export']:>8.2f} {times['copied']:>8.2f} {'':>8}"
        f" {times['export'] / times['copied']:>6.2f} {'':>8} {peaks['export'] / 1024:>8.1f}",
        flush=True,
    )
    gone(bag, kept)


def commands(mebibytes, work):
    """A row for each command on a ledger that holds this much, in files of 1 MiB."""
    bag, ledger, out = work / "bag", work / "ledger", work / "out"
    make(bag, [MEBIBYTE] * mebibytes, 1, ["sha256"])
    (bag / "fetch.txt").write_text("http://example.org/ - data/000/000000\n", encoding="ascii")
    words = {
        "begin": [NAME, bag],
        "intake": [NAME, bag],
        "list": [],
        "report": [NAME],
        "audit": [NAME],
        "fetch": [NAME, bag],
        "intake again": [NAME, bag],
        "export": [NAME, out],
    }
    for name, rest in words.items():
        seconds, memory = run([[PROGRAM, name.split()[0], ledger, *rest]], work)
        print(f"{mebibytes:>8} {name:<14} {seconds:>8.2f} {memory / 1024:>8.1f}", flush=True)
    gone(bag, ledger, out)


def main(rounds=3, smaller=1):
    subprocess.run([TOP / "build"], check=True)
    with tempfile.TemporaryDirectory() as folder:
        work = pathlib.Path(folder)
        print(f"{'payload':<16} {'bag':>8} {'cp, sum':>8} {'sqlite3':>8} {'ratio':>6} {'/sqlite3':>8} {'peak MiB':>8}")
        transfer("large", [(1 << 30) // smaller], 1, rounds, work)
        transfer("small", [2048] * (20_000 // smaller), 200, rounds, work)
        print(f"\n{'held MiB':>8} {'command':<14} {'seconds':>8} {'peak MiB':>8}")
        for mebibytes in (64, 256, 1024):
            commands(max(mebibytes // smaller, 1), work)


if __name__ == "__main__":
    match sys.argv[1:]:
        case ["receive", bag, database]:
            sqlite3_receives(bag, database)
        case words:
            main(*map(int, words))
