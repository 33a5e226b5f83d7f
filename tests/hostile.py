#!/usr/bin/env python3
"""hostile.py KIND PROGRAM: bags, each with the lines and the status that docs/FORMAT.md requires: the small ones of
tests/data/small_bags.py, or the hostile ones of tests/data/hostile_bags.py.
"""
import os
import shutil
import sys
import tempfile

import hostile_bags
import small_bags
from running import is_answered, run

KINDS = {"small": small_bags.FAMILIES, "hostile": hostile_bags.FAMILIES}


def write(folder, files):
    for path, octets in files.items():
        name = os.path.join(os.fsencode(folder), path)
        if octets is None:
            os.makedirs(name)
            continue
        os.makedirs(os.path.dirname(name), exist_ok=True)
        with open(name, "wb") as file:
            file.write(octets)


def main(kind, program):
    """Runs the program on each bag. Returns the status 0 if there are bags and all answers are as expected."""
    tried, failed = 0, 0
    for cases in KINDS[kind]:
        for name, files, (lines, status) in cases():
            tried += 1
            folder = tempfile.mkdtemp()
            write(folder, files)
            ran = run([program, "check", folder], timeout=100)
            if not is_answered(ran, lines, status):
                failed += 1
                print(f"{name}: status {ran.returncode}: {ran.stdout + ran.stderr} instead of status {status}: {lines}")
            shutil.rmtree(folder)
    print(f"{tried} {kind} bags: {failed} answered differently")
    return 1 if failed or not tried else 0


if __name__ == "__main__":
    sys.exit(main(*sys.argv[1:]))
