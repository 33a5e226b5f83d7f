#!/usr/bin/env python3
"""The times of `bag make` compared with those of copying the same folder with `cp -r` and computing the digests of the copy with
coreutils, and its peak memory.

Each row is a payload. The two take turns, by default for three rounds, and the least time of each counts. Neither waits until the data
is on the disk. Memory is the greatest resident set.

With NAME only the rows are printed whose name contains it.

    bench/make.py [ROUNDS [NAME]]
"""

import pathlib
import shutil
import subprocess
import sys
import tempfile

from check import MEBIBYTE, PIECE, PROGRAM, TOP, payload, run

ALGORITHMS = ["md5"], ["sha1"], ["sha256"], ["md5", "sha256"]
PAYLOADS = (
    ("large", [1024 * MEBIBYTE], 1),
    ("256 MiB", [256 * MEBIBYTE] * 4, 1),
    ("100 MiB", [100 * MEBIBYTE] * 8, 1),
    ("5 MiB", [5 * MEBIBYTE] * 60, 1),
    ("1 and 1,000", [256 * MEBIBYTE] + [2048] * 1000, 1),
    ("64 KiB", [PIECE] * 20_000, 200),
    ("2 KiB", [2048] * 20_000, 200),
)


def row(name, sizes, folders, algorithms, rounds, work):
    source, copied, made = work / "data", work / "copied", work / "made"
    paths = [path.relative_to(source) for path in payload(work, sizes, folders)]
    (work / "paths").write_bytes(b"".join(bytes(path) + b"\0" for path in paths))
    copy = [["cp", "-r", source, copied]]
    for algorithm in algorithms:
        digests = f'cd "$1" && xargs -0 {algorithm}sum <"$2" >"$3"'
        copy.append(["sh", "-c", digests, "sh", copied, work / "paths", work / f"manifest-{algorithm}.txt"])
    ours, theirs, peak = [], [], 0
    for _ in range(rounds):
        seconds, memory = run([[PROGRAM, "make", source, made, *algorithms]], work)
        ours.append(seconds)
        peak = max(peak, memory)
        shutil.rmtree(made)
        theirs.append(run(copy, work)[0])
        shutil.rmtree(copied)
    print(
        f"{name:<20} {min(ours):>9.2f} {min(theirs):>10.2f} {min(ours) / min(theirs):>6.2f} {peak / 1024:>8.1f}",
        flush=True,
    )
    shutil.rmtree(source)


def main():
    rounds = int(sys.argv[1]) if len(sys.argv) > 1 else 3
    chosen = sys.argv[2] if len(sys.argv) > 2 else ""
    subprocess.run([TOP / "build"], check=True)
    print(f"{'payload':<20} {'bag make':>9} {'cp and sum':>10} {'ratio':>6} {'peak MiB':>8}")
    with tempfile.TemporaryDirectory() as folder:
        work = pathlib.Path(folder)
        for payload_name, sizes, folders in PAYLOADS:
            for algorithms in ALGORITHMS:
                name = f"{payload_name} {' '.join(algorithms)}"
                if chosen in name:
                    row(name, sizes, folders, algorithms, rounds, work)


if __name__ == "__main__":
    main()
