#!/usr/bin/env python3
"""The times of moving ledgers of format 1 to format 2, compared with a copy of the file and the digests of what it holds; the peak
memory; and how large the file and its log are.

Each row is a ledger with so many payload files of one length, which sqlite3 writes. `bag list` moves it, and then opens it once more.
The copy is made by `cp` and followed by the digest function alone on as many octets. The two take turns, by default for three rounds,
and the least time of each counts.

    bench/migrating.py [ROUNDS]
"""

import pathlib
import shutil
import subprocess
import sys
import tempfile

from check import DIGESTS, PIECE, PROGRAM, TOP, run

sys.path.append(str(TOP / "tests/lib"))
from ledger_files import write_first  # noqa: E402

LEDGERS = ((20_000, 2_048), (4_096, 65_536), (16, 16 << 20), (64, 16 << 20))


def row(number, length, work, rounds):
    first, moved, copied = work / "first", work / "moved", work / "copied"
    write_first(first, {"bench": {f"data/folder/{place}.bin": bytes(length) for place in range(number)}})
    times, peaks = {}, {}
    for _ in range(rounds):
        shutil.copy(first, moved)
        commands = {
            "moving": [[PROGRAM, "list", moved]],
            "opening": [[PROGRAM, "list", moved]],
            "copy": [["cp", first, copied], [DIGESTS, "sha256", str(number * length // PIECE)]],
        }
        for who, words in commands.items():
            seconds, memory = run(words, work)
            times[who] = min(seconds, times.get(who, seconds))
            peaks[who] = max(memory, peaks.get(who, 0))
    print(
        f"{number:>6} of {length:<9} {times['moving']:>7.2f} {times['opening']:>8.2f} {times['copy']:>7.2f}"
        f" {times['moving'] / times['copy']:>6.2f} {peaks['moving'] / 1024:>9.0f} {moved.stat().st_size / first.stat().st_size:>6.2f}",
        flush=True,
    )
    for file in (first, moved, copied):
        file.unlink()


def main(rounds=3):
    subprocess.run([TOP / "build"], check=True)
    # Without arguments the driver ends with status 64.
    subprocess.run(["rt", "run"], cwd=TOP / "crates/bag_driver", stdin=subprocess.DEVNULL, stdout=sys.stderr)
    print(f"{'payload files':<19} {'moving':>7} {'opening':>8} {'copy':>7} {'ratio':>6} {'peak MiB':>9} {'larger':>6}")
    with tempfile.TemporaryDirectory() as folder:
        for number, length in LEDGERS:
            row(number, length, pathlib.Path(folder), rounds)


if __name__ == "__main__":
    main(*map(int, sys.argv[1:]))
