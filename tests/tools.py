#!/usr/bin/env python3
"""tools.py PROGRAM SEED NUMBER: makes NUMBER small bags, whole and damaged, of versions 1.0 and 0.97 in turn, and
compares the output and the status of `PROGRAM check` for each with tests/model/reference.py. The same seed makes the
same bags. A bag that is judged differently is kept and its name is printed.
"""
import os
import shutil
import sys
import tempfile

import reference
from random_bags import VERSIONS, made, shape, shapes
from running import is_answered, run


def main(program, seed, number):
    counts = {(line, version): 0 for line in shapes() for version in VERSIONS}
    work = tempfile.mkdtemp()
    folder = os.path.join(work, "bag")
    judged = 0
    for i in range(number):
        bag = made(seed, i)
        bag.write(os.fsencode(folder))
        lines, status = reference.check(os.fsencode(folder))
        ran = run([program, "check", folder])
        if not is_answered(ran, lines, status):
            print(f"bag {i} of seed {seed}, kept as {folder}:")
            print(f"the program ({ran.returncode}):\n{(ran.stdout + ran.stderr).decode(errors='replace')}")
            print(f"the reference ({status}):", *lines, sep="\n")
            return 1
        judged += 1
        for line in lines:
            kind = shape(line), bag.version
            counts[kind] = counts.get(kind, 0) + 1
        shutil.rmtree(folder)
    os.rmdir(work)
    never = [f"never printed for a bag of {version.decode()}: {line}" for (line, version), count in counts.items()
        if count == 0]
    print("\n".join([f"{judged} bags: all judged alike"] + never))
    return 1 if never or judged == 0 else 0


if __name__ == "__main__":
    sys.exit(main(sys.argv[1], sys.argv[2], int(sys.argv[3])))
