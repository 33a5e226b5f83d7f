#!/usr/bin/env python3
"""exports.py PROGRAM: exports that break off, and files that come into their way. At the end it prints how many of each
were tried.

An export writes the tag files by path, and then the payload files by path. So where a file can't grow past a limit,
there are all files before the first that is longer, whole, and the front of that one.
"""
import os
import pathlib
import random
import shutil
import signal
import subprocess
import sys
import tempfile
import time

from places import Place

PAYLOAD = ["data/Z", "data/a b", "data/a!", "data/a.txt", "data/a/x", "data/a0", "data/b", "data/\u00e9", "data/\u20ac",
    "data/\U0001f600"]
# The order in which the transfer is filled: neither that of the paths nor that of the sizes.
SIZES = [40_000, 9_000, 70_000, 3, 120_000, 65_536, 0, 200_000, 5, 90_000]


def filled(make, contents, notes=()):
    """A ledger whose payload files came one by one, in falling order, with these other tag files."""
    place = make(contents)
    for name, octets in notes:
        (place.bag / name).parent.mkdir(exist_ok=True)
        (place.bag / name).write_bytes(octets)
        place.tags[name] = octets
    assert place.run(*place.words("begin")) == (0, ["new"])
    for path in sorted(contents, key=os.fsencode, reverse=True):
        one = place.work / "one"
        (one / path).parent.mkdir(parents=True)
        (one / path).write_bytes(contents[path])
        assert place.run("intake", place.ledger, "t1", one) == (0, [f"taken {path}"])
        shutil.rmtree(one)
    return place


def cut_off(make):
    """Exports with each limit of a file that makes a difference. Returns how many there were."""
    rng = random.Random(1)
    contents = {path: rng.randbytes(size) for path, size in zip(PAYLOAD, SIZES)}
    place = filled(make, contents,
        [("notes/z", rng.randbytes(50_000)), ("a note", rng.randbytes(30_000)), ("zz", b"zz")])
    files = [(path, group[path]) for group in (place.tags, contents) for path in sorted(group, key=os.fsencode)]
    # With a smaller limit the ledger can't be opened.
    limits = sorted({len(octets) - 1 for _, octets in files if len(octets) > 20_000} | {10**6})
    for limit in limits:
        words = place.words("export")
        answer = place.run(*words, limit=limit)
        front = next((place for place, (_, octets) in enumerate(files) if len(octets) > limit), len(files))
        assert answer == ((0, [f"exported {len(files)} files"]) if front == len(files) else (3, ["bag: files"])), (
            limit, answer)
        wanted = {path: octets[:limit] for path, octets in files[: front + 1]}
        assert there(words[-1]) == wanted, (limit, front, sorted(there(words[-1])))
        shutil.rmtree(words[-1])
    return len(limits)


def there(folder):
    return {str(file.relative_to(folder)): file.read_bytes() for file in folder.rglob("*") if file.is_file()}


def in_the_way(make):
    """While an export writes a long file, another program makes a file or a directory where the next one is to be: it
    stays. Returns how many were tried."""
    place = filled(make, {"data/a": bytes(20_000_000), "data/z": b"abc"})
    things = [lambda path: path.write_bytes(b""), lambda path: path.write_bytes(b"of another program"),
              pathlib.Path.mkdir,
              lambda path: path.symlink_to("../bagit.txt"), lambda path: path.symlink_to("new")]
    for put in things:
        for _ in range(9):
            words = place.words("export")
            if put_in_the_way(place, words, words[-1] / "data/z", put):
                break
        else:
            raise AssertionError("the export was always too fast")
    return len(things)


def put_in_the_way(place, words, path, put):
    """Puts something at the path of a payload file that isn't there yet, and lets the export go on. False if it came
    too late."""
    with subprocess.Popen([place.program, *words], stdout=subprocess.PIPE, stderr=subprocess.PIPE) as ran:
        while not (path.parent / "a").exists() and ran.poll() is None:
            time.sleep(0.0005)
        ran.send_signal(signal.SIGSTOP)
        os.waitid(os.P_PID, ran.pid, os.WSTOPPED | os.WEXITED | os.WNOWAIT)
        is_early = not path.exists() and ran.poll() is None
        if is_early:
            put(path)
            before = (path.lstat().st_mode, path.is_file() and path.read_bytes())
        ran.send_signal(signal.SIGCONT)
        printed, said = ran.communicate(timeout=60)
        if is_early:
            assert (ran.returncode, printed) == (3, b"bag: files\n"), ran
            assert said.startswith(b"bag: " + os.fsencode(path) + b": "), said
            assert (path.lstat().st_mode, path.is_file() and path.read_bytes()) == before
            assert not (path.parent / "new").exists()
    shutil.rmtree(words[-1])
    return is_early


def main(program):
    with tempfile.TemporaryDirectory() as work:
        places = (pathlib.Path(work) / str(number) for number in range(10**6))
        make = lambda contents: Place(os.path.abspath(program), next(places), contents)
        print(f"{cut_off(make)} limits, {in_the_way(make)} in the way")


if __name__ == "__main__":
    main(*sys.argv[1:])
