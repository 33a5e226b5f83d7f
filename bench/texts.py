#!/usr/bin/env python3
"""The peak memory and the time of `bag check` for large tag files, without a payload.

Each row is a bag of one large tag file and without `data/`, so that the check ends after its tag files. With more than one PROGRAM
they take turns, and there is a line for each. Memory is the greatest resident set, and the least of all rounds counts, as of the times.

    bench/texts.py [ROUNDS [PROGRAM ..]]
"""

import os
import pathlib
import subprocess
import sys
import tempfile
import time

TOP = pathlib.Path(__file__).resolve().parent.parent
PROGRAM = TOP / "crates/bag_program/out/bag_program"
DECLARATION = b"BagIt-Version: 1.0\nTag-File-Character-Encoding: UTF-8\n"
LARGEST = 1 << 24


def path(number, length):
    return b"data/" + b"%08d" % number + b"n" * (length - 13)


def rows():
    """The name of each row, the tag file and its octets."""
    yield "manifest, 100,000 lines", b"manifest-md5.txt", b"".join(b"0" * 32 + b"  " + path(i, 130) + b"\n" for i in range(100_000))
    yield "fetch.txt, 100,000 lines", b"fetch.txt", b"".join(b"a:b - " + path(i, 150) + b"\n" for i in range(100_000))
    yield "bag-info.txt, one line", b"bag-info.txt", b"Note: ".ljust(LARGEST, b"x")
    yield "manifest, one line", b"manifest-md5.txt", b"x" * LARGEST


def run(program, folder):
    """The seconds that a check takes, and its greatest resident set in KiB."""
    started = time.monotonic()
    # GNU time forks from a small process of its own, so that the memory is the command's alone.
    told = subprocess.run(
        ["/usr/bin/time", "--format", "%M", program, "check", folder],
        stdout=subprocess.DEVNULL,
        stderr=subprocess.PIPE,
        check=False,
    )
    return time.monotonic() - started, int(told.stderr.split()[-1])


def main(rounds="5", *programs):
    programs = programs or (PROGRAM,)
    if programs == (PROGRAM,):
        subprocess.run([TOP / "build"], check=True)
    print(f"{'tag file':<26} {'MiB':>6} {'seconds':>8} {'peak MiB':>9}")
    with tempfile.TemporaryDirectory() as folder:
        for row, name, octets in rows():
            bag = pathlib.Path(folder) / row
            bag.mkdir()
            (bag / "bagit.txt").write_bytes(DECLARATION)
            (bag / os.fsdecode(name)).write_bytes(octets)
            found = {program: [] for program in programs}
            for _ in range(int(rounds)):
                for program in programs:
                    found[program].append(run(program, bag))
            for runs in found.values():
                seconds, memory = map(min, zip(*runs))
                print(f"{row:<26} {len(octets) / (1 << 20):>6.1f} {seconds:>8.3f} {memory / 1024:>9.1f}", flush=True)


if __name__ == "__main__":
    main(*sys.argv[1:])
