#!/usr/bin/env python3
"""How many instructions the program takes, compared with another one, such as an older version: what a change costs where times
differ by more than that from run to run.

Each row is a command, once with standard error in a file and once on a terminal. Valgrind counts. `git show COMMIT:release/bag.gz |
gunzip` gives the program of a version.

    bench/instructions.py OTHER [PROGRAM]
"""

import pathlib
import re
import shutil
import subprocess
import sys
import tempfile

from check import PROGRAM, payload


def counted(program, words, work, on_terminal):
    count = ["valgrind", "--tool=callgrind", "--callgrind-out-file=/dev/null", f"--log-file={work}/log", program, *words]
    if on_terminal:
        subprocess.run(["script", "-qec", " ".join(map(str, count)), "/dev/null"], stdout=subprocess.DEVNULL, check=True)
    else:
        subprocess.run(count, stdin=subprocess.DEVNULL, capture_output=True, check=True)
    return int(re.search(r"Collected : (\d+)", (work / "log").read_text())[1])


def rows(program, size, files, work):
    """The instructions of each command on a bag of so many files, by its name."""
    bag, ledger = work / "bag", work / "ledger"
    payload(work, [size] * files, 20)
    counts = {}
    for word, words, made in (
        ("make", ["make", work / "data", bag, "sha256"], bag),
        ("check", ["check", bag], None),
        ("intake", ["intake", ledger, "t", bag], ledger),
        ("list", ["list", ledger], None),
        ("audit", ["audit", ledger, "t"], None),
    ):
        for on_terminal in (False, True):
            if made is ledger:
                ledger.unlink(missing_ok=True)
                subprocess.run([program, "begin", ledger, "t", bag], stdout=subprocess.DEVNULL, check=True)
            elif made:
                shutil.rmtree(made, ignore_errors=True)
            counts[word, on_terminal] = counted(program, words, work, on_terminal)
    return counts


def main():
    programs = [pathlib.Path(word).resolve() for word in sys.argv[1:]] or sys.exit(__doc__)
    programs = (programs + [PROGRAM])[:2]
    print(f"{'work':<22} {'file':>8} {'terminal':>8}")
    for name, size, files in (("500 of 64 KiB", 1 << 16, 500), ("5000 of 2 KiB", 2048, 5000)):
        counts = []
        for program in programs:
            with tempfile.TemporaryDirectory() as folder:
                counts.append(rows(program, size, files, pathlib.Path(folder)))
        for word in ("make", "check", "intake", "list", "audit"):
            ratios = [counts[1][word, on] / counts[0][word, on] for on in (False, True)]
            print(f"{word + ' ' + name:<22} {ratios[0]:>8.4f} {ratios[1]:>8.4f}", flush=True)


if __name__ == "__main__":
    main()
