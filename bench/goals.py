#!/usr/bin/env python3
"""goals.py [CRATE..]: what costs most to prove, by default in all crates of which a check has kept something.

The kit keeps how many steps its prover took for each goal, in out/incremental. Prints, in millions of steps, the dearest goals
that have no answer (`search`), the dearest answers and lemmas (`answers`), the dearest calls (`calls`: the types that a call is
made at have to meet what the callee asks for), and the dearest functions. A million steps took about a second of a processor of
2.5 GHz. Nothing is proved: run `rt check` before. What becomes of dropped values is not counted.

Last it prints which parts of functions took longest, in seconds between the times at which the kit wrote them. These hold if the
check was made with `--jobs 1`, and had nothing to begin with. `Tie` are the calls, `Lts` is what the kit makes of the code.
"""
import collections
import pathlib
import re
import sys

TOP = pathlib.Path(__file__).resolve().parent.parent / "crates"
SHOWN = 25
# What the kit makes of a function: the goals without an answer, the answers, and the calls.
KINDS = {"Proof": "search", "Answers": "answers", "Invariants": "answers", "Tie": "calls"}
RECORD = re.compile(r"Rattle-\w+-proofs\.(?:(.+)\.)?(\w+)\.decls\.oantt")
# Each goal ends with the steps that it took, in three phases, of which the first takes most of the time.
GOAL = re.compile(r'"name":"([^"]*)"(?:(?!"name":).)*?"steps":\[(\d+),', re.DOTALL)


def goals(crate):
    """Each goal of the crate: its kind, its function or file of lemmas, its name and its steps."""
    for file in (TOP / crate).glob("out/incremental/*/records/*.decls.oantt"):
        module, last = RECORD.fullmatch(file.name).groups() if RECORD.fullmatch(file.name) else (None, "")
        # A file of lemmas stands in no function.
        kind, place = (KINDS.get(last), module) if module else ("answers", last)
        if kind:
            for name, steps in GOAL.findall(file.read_bytes().decode("latin-1")):
                yield kind, f"{crate}::{place.replace('.', '::')}", name, int(steps)


def waits(crate):
    """The seconds that went by before the kit wrote each part of a function, and the part."""
    files = [(file.stat().st_mtime, file) for file in (TOP / crate).glob("out/incremental/*/*.oantt")]
    written = sorted((time, file.stem.removeprefix(f"Rattle-{crate}-proofs.")) for time, file in files)
    return [(time - before, f"{crate}::{part}") for (before, _), (time, part) in zip(written, written[1:])]


def main(*crates):
    crates = crates or sorted(folder.name for folder in TOP.iterdir())
    found = [goal for crate in crates for goal in goals(crate)]
    # The kit still keeps how a goal was found that was given an answer later.
    answered = {(place, name) for kind, place, name, _ in found if kind == "answers"}
    found = [goal for goal in found if goal[0] != "search" or goal[1:3] not in answered]
    functions, kinds = collections.Counter(), collections.Counter()
    for kind, place, _, steps in found:
        functions[place] += steps
        kinds[kind] += steps
    for kind, whole in kinds.most_common():
        print(f"{whole / 1e6:7.0f}  {kind}, and most of it:")
        for _, place, name, steps in sorted((goal for goal in found if goal[0] == kind), key=lambda goal: -goal[3])[:SHOWN]:
            print(f"{steps / 1e6:11.1f}  {place} {name}")
    print("         functions and files of lemmas:")
    for place, steps in functions.most_common(SHOWN):
        print(f"{steps / 1e6:11.1f}  {place}")
    print("         seconds before a part was written:")
    for seconds, part in sorted((wait for crate in crates for wait in waits(crate)), reverse=True)[:SHOWN]:
        print(f"{seconds:11.1f}  {part}")


if __name__ == "__main__":
    main(*sys.argv[1:])
