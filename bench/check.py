#!/usr/bin/env python3
"""The times of `bag check` compared with those of coreutils and of the digest functions alone, and its peak memory.

Each row is a bag. The commands take turns, by default for three rounds, and the least time of each counts. `digests` is the time that
the digest functions take for the payload's octets in memory, without reading a file. Memory is the greatest resident set.

With NAME only the rows are printed whose name contains it.

    bench/check.py [ROUNDS [NAME]]
"""

import hashlib
import os
import pathlib
import shutil
import subprocess
import sys
import tempfile
import time

TOP = pathlib.Path(__file__).resolve().parent.parent
PROGRAM = TOP / "crates/bag_program/out/bag_program"
DIGESTS = TOP / "crates/bag_driver/out/bag_driver"
DECLARATION = b"BagIt-Version: 1.0\nTag-File-Character-Encoding: UTF-8\n"
PIECE = 65_536
MEBIBYTE = 1 << 20


def payload(bag, sizes, folders):
    """Writes a file of each size, spread over this many folders, and returns their paths."""
    block = os.urandom(MEBIBYTE)
    paths = []
    for number, size in enumerate(sizes):
        path = bag / f"data/{number % folders:03}/{number:06}"
        path.parent.mkdir(parents=True, exist_ok=True)
        with open(path, "wb") as file:
            for _ in range(size // MEBIBYTE):
                file.write(block)
            file.write(block[: size % MEBIBYTE])
        paths.append(path)
    return paths


def make(bag, sizes, folders, algorithms):
    paths = payload(bag, sizes, folders)
    (bag / "bagit.txt").write_bytes(DECLARATION)
    for name in algorithms:
        with open(bag / f"manifest-{name}.txt", "w") as manifest:
            for path in sorted(paths):
                with open(path, "rb") as file:
                    digest = hashlib.file_digest(file, name).hexdigest()
                manifest.write(f"{digest}  {path.relative_to(bag)}\n")


def run(commands, folder):
    """The seconds that the commands take in sequence, and the greatest resident set of any of them in KiB."""
    peak = 0
    started = time.monotonic()
    for words in commands:
        # GNU time forks from a small process of its own, so that the memory is the command's alone.
        told = subprocess.run(
            ["/usr/bin/time", "--format", "%M", *words],
            cwd=folder,
            stdout=subprocess.DEVNULL,
            stderr=subprocess.PIPE,
            check=True,
        )
        peak = max(peak, int(told.stderr.split()[-1]))
    return time.monotonic() - started, peak


def row(name, sizes, folders, algorithms, rounds, work):
    bag = work / name
    make(bag, sizes, folders, algorithms)
    pieces = str(-(-sum(sizes) // PIECE))
    ours = [[PROGRAM, "check", bag]]
    theirs = [[f"{alg}sum", "--check", "--quiet", f"manifest-{alg}.txt"] for alg in algorithms]
    digests = [[DIGESTS, alg, pieces] for alg in algorithms]
    times = {"ours": [], "theirs": [], "digests": []}
    peak = 0
    for _ in range(rounds):
        for who, commands in (("ours", ours), ("theirs", theirs), ("digests", digests)):
            seconds, memory = run(commands, bag)
            times[who].append(seconds)
            if who == "ours":
                peak = max(peak, memory)
    best = {who: min(seconds) for who, seconds in times.items()}
    manifests = sum((bag / f"manifest-{alg}.txt").stat().st_size for alg in algorithms)
    print(
        f"{name:<14} {best['ours']:>9.2f} {best['theirs']:>9.2f} {best['digests']:>8.2f}"
        f" {best['ours'] / best['theirs']:>10.2f} {best['ours'] / best['digests']:>8.2f}"
        f" {peak / 1024:>8.1f} {(peak * 1024 - manifests) / len(sizes):>10.0f}",
        flush=True,
    )
    shutil.rmtree(bag)


def rows():
    """The name of each row, the sizes of its files, in how many folders they are, and the algorithms of its manifests."""
    for algorithm in ("md5", "sha1", "sha256", "sha512"):
        yield f"large {algorithm}", [1 << 30], 1, [algorithm]
    yield "1 to 20 MiB", [size * MEBIBYTE for size in range(1, 21)] * 10, 1, ["sha256"]
    for algorithm in ("md5", "sha1", "sha256"):
        yield f"5 MiB {algorithm}", [5 * MEBIBYTE] * 60, 1, [algorithm]
        yield f"100 MiB {algorithm}", [100 * MEBIBYTE] * 8, 1, [algorithm]
        yield f"256 MiB {algorithm}", [256 * MEBIBYTE] * 4, 1, [algorithm]
    yield "1 and 1,000", [256 * MEBIBYTE] + [2048] * 1_000, 10, ["sha256"]
    for algorithm in ("md5", "sha1", "sha256"):
        yield f"64 KiB {algorithm}", [PIECE] * 20_000, 200, [algorithm]
        yield f"2 KiB {algorithm}", [2048] * 20_000, 200, [algorithm]
    yield "empty sha256", [0] * 100_000, 200, ["sha256"]
    yield "one folder", [0] * 100_000, 1, ["sha256"]
    yield "four manifests", [1 << 28], 1, ["md5", "sha1", "sha256", "sha512"]


def main(rounds="3", wanted=""):
    subprocess.run([TOP / "build"], check=True)
    # The first use of the driver may build it.
    subprocess.run(["rt", "run"], cwd=TOP / "crates/bag_driver", stdin=subprocess.DEVNULL, stdout=subprocess.DEVNULL)
    print(f"{'bag':<14} {'bag check':>9} {'coreutils':>9} {'digests':>8} {'/coreutils':>10} {'/digests':>8} {'peak MiB':>8} {'octets/file':>10}")
    with tempfile.TemporaryDirectory() as folder:
        for name, sizes, folders, algorithms in rows():
            if wanted in name:
                row(name, sizes, folders, algorithms, int(rounds), pathlib.Path(folder))


if __name__ == "__main__":
    main(*sys.argv[1:])
