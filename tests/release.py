#!/usr/bin/env python3
"""release.py FOLDER: prints the digest of the sources of the repository in FOLDER.

It is computed as docs/WORKING.md says, in the part 'Releases', without the scripts at the top. No name may have a line
feed or a backslash.
"""
import hashlib
import pathlib
import sys


def main(folder):
    top = pathlib.Path(folder)
    lines = (top / "crates.txt").read_text(encoding="utf-8").splitlines()
    crates = [line.split(":")[0] for line in lines if line and not line.startswith("#")]
    names = [b"crates.txt"]
    for crate in crates[: crates.index("bag_program") + 1]:
        for part in ("src", "specs", "proofs"):
            if not crate.endswith("_tests"):
                below = (top / "crates" / crate / part).rglob("*")
                names += [bytes(file.relative_to(top)) for file in below if not file.is_dir()]
    digest = hashlib.sha256()
    for name in sorted(names):
        content = (top / name.decode("utf-8", "surrogateescape")).read_bytes()
        digest.update(hashlib.sha256(content).hexdigest().encode("ascii") + b"  " + name + b"\n")
    print(digest.hexdigest())


if __name__ == "__main__":
    main(*sys.argv[1:])
