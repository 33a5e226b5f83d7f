#!/usr/bin/env python3
"""left_logs.py PROGRAM: ledgers whose log is still next to them, because a command was killed or its log couldn't be
copied into the database. What the log has was answered, so no command may lose it, whatever it answers itself.

A command is held up, without any waiting for a time to pass, by an output that is a full pipe: it stops before its
first line. At the end it prints how much was tried.
"""
import os
import pathlib
import resource
import shutil
import sqlite3
import sys
import tempfile

from damaged_ledgers import DAMAGES
from ledger_files import PIECE, SMALL, in_the_log
from places import ALL, HeldUp, Place
from running import run


def folder(place, name, files):
    """A folder with these payload files."""
    for path, octets in files.items():
        (place.work / name / path).parent.mkdir(parents=True, exist_ok=True)
        (place.work / name / path).write_bytes(octets)
    return place.work / name


def killed(make, contents=None):
    """A ledger whose intake was killed: it holds all of its payload files, and has its log."""
    place = make(contents or SMALL)
    assert place.run(*place.words("begin")) == (0, ["new"])
    HeldUp(place.program, *place.words("intake")).kill()
    assert log_of(place.ledger).stat().st_size > 0
    return place


def log_of(ledger):
    return pathlib.Path(f"{ledger}-wal")


def held(ledger):
    """The paths of what the first transfer holds, in copies of the database and its log, as sqlite3 reads them."""
    with tempfile.TemporaryDirectory() as place:
        for end in ("", "-wal"):
            if pathlib.Path(f"{ledger}{end}").exists():
                shutil.copy(f"{ledger}{end}", f"{place}/copy{end}")
        database = sqlite3.connect(f"{place}/copy")
        paths = [path for (path,) in database.execute("SELECT path FROM held ORDER BY path")]
        database.close()
    return paths


def each_folder_is_answered(make):
    """The lines of a folder are printed before the next folder is read."""
    place = make({"data/a": b"first", "data/b": b"second"})
    first, second = folder(place, "one", {"data/a": b"first"}), folder(place, "two", {"data/b": b"other"})
    assert place.run(*place.words("begin")) == (0, ["new"])
    ran = HeldUp(place.program, "intake", place.ledger, "t1", first, second)
    assert held(place.ledger) == ["data/a"]
    (second / "data/b").write_bytes(b"second")
    assert ran.go_on() == (0, ["taken data/a", "taken data/b"])
    assert place.run(*place.words("report")) == (0, ["valid"])


def a_log_is_used(make):
    """What a killed command answered is held by the next one, which copies the log into the database and removes it."""
    for command in ALL:
        place = killed(make, {"data/a": b"abc", "data/b": os.urandom(3 * PIECE + 17)})
        answer = place.run(*place.words(command))
        wanted = {"begin": ["again"], "intake": ["repeated data/a", "repeated data/b"], "list": ["t1"], "fetch": [],
                  "export": ["exported 4 files"]}
        assert answer == (0, wanted.get(command, ["valid"])), (command, answer)
        assert [file.name for file in place.ledger.parent.iterdir()] == ["ledger"], command
        alone = place.work / "alone"
        shutil.copy(place.ledger, alone)
        assert place.run("audit", alone, "t1") == (0, ["valid"])
    return len(ALL)


def a_refused_ledger_keeps_its_log(make):
    """A ledger with a log that is damaged, or open in another program, stays as it was, octet for octet."""
    place = make(SMALL)
    assert place.run(*place.words("begin")) == (0, ["new"])
    ran = HeldUp(place.program, *place.words("intake"))
    place.refuses("bag: store")
    assert log_of(place.ledger).stat().st_size > 0
    assert ran.go_on() == (0, ["taken data/a.txt", "taken data/e.txt"])
    for damage, line in DAMAGES:
        place = damaged_in_the_log(killed(make), damage)
        place.refuses(line)
        assert log_of(place.ledger).stat().st_size > 0
    # All of a ledger is in its log, and its file is empty or gone: no command touches the log, and none makes a file.
    # With its first page the file is whole again.
    emptied = killed(make)
    in_the_log(emptied.ledger, emptied.ledger, "PRAGMA journal_mode = WAL; VACUUM")
    first = emptied.ledger.read_bytes()[:4_096]
    emptied.ledger.write_bytes(b"")
    emptied.refuses("bag: store")
    emptied.ledger.unlink()
    emptied.refuses("bag: store")
    emptied.ledger.write_bytes(first)
    assert emptied.run(*emptied.words("audit")) == (0, ["valid"])
    # If an octet is left of the file, it is opened with its log.
    cut = killed(make)
    in_the_log(cut.ledger, cut.ledger, "PRAGMA journal_mode = WAL; VACUUM")
    cut.ledger.write_bytes(b"S")
    assert cut.run(*cut.words("audit")) == (0, ["valid"])
    # The store marks the end of a log that another program wrote, so it isn't compared octet by octet.
    other = make(SMALL)
    in_the_log(other.ledger, other.ledger,
        "PRAGMA journal_mode = WAL; CREATE TABLE meta (k TEXT, v TEXT); INSERT INTO meta VALUES ('k', 'v')")
    for command in ALL:
        assert other.run(*other.words(command)) == (3, ["bag: not a ledger"]), command
        assert log_of(other.ledger).stat().st_size > 0, command
    assert other.sql("SELECT * FROM meta") == [("k", "v")]
    return len(DAMAGES) + 4


def damaged_in_the_log(place, damage):
    """Has sqlite3 change the ledger. The log keeps the change, and what was in it."""
    ledger = place.work / "changed"
    for end in ("", "-wal"):
        shutil.copy(f"{place.ledger}{end}", f"{ledger}{end}")
    in_the_log(place.ledger, ledger, damage)
    return place


def little_memory_loses_no_log(make):
    """With too little memory to open the ledger the log stays as it was; with more it is used, also if the work then
    wants for memory. Returns how many limits there were."""
    place = killed(make, {"data/a": os.urandom(300_000)})
    files = [(file, file.read_bytes()) for file in place.ledger.parent.iterdir()]
    seen, limits = set(), range(2_000, 64_000, 1_000)
    for limit in limits:
        limited = lambda: resource.setrlimit(resource.RLIMIT_AS, (limit * 1024, limit * 1024))
        ran = run([place.program, *place.words("audit")], preexec_fn=limited)
        if ran.stdout == b"bag: memory\n" or ran.returncode not in (0, 1, 3):
            seen.add("memory" if ran.stdout else "not started")
            if {file: file.read_bytes() for file in place.ledger.parent.iterdir()} == dict(files):
                continue
            assert ran.stdout and list(place.ledger.parent.iterdir()) == [place.ledger], limit
            assert place.run(*place.words("audit")) == (0, ["valid"]), limit
            for file, octets in files:
                file.write_bytes(octets)
            continue
        assert (ran.returncode, ran.stdout) == (0, b"valid\n"), (limit, ran)
        seen.add("valid")
        for file, octets in files:
            file.write_bytes(octets)
    assert {"memory", "valid"} <= seen, seen
    return len(limits)


def each_log_has_its_own_salts(make):
    """The salts in the header of a log, by which SQLite tells its pages from those of an older log, are drawn anew for
    each."""
    salts = [log_of(killed(make).ledger).read_bytes()[16:24] for _ in range(2)]
    assert salts[0] != salts[1], salts


def a_log_is_named_after_its_file(make):
    """A ledger that is named by a link has its log next to its file, where it is found under each name. Returns how
    many names there were."""
    names = ["at/ledger", "link", "far/link", "far/again", "far/../link"]
    for first, then in zip(names, [*names[1:], names[0]]):
        place = make(SMALL)
        (place.work / "far").mkdir()
        (place.work / "link").symlink_to("at/ledger")
        (place.work / "far/link").symlink_to(place.ledger)
        (place.work / "far/again").symlink_to("../link")
        assert place.run(*place.words("begin")) == (0, ["new"])
        HeldUp(place.program, "intake", place.work / first, "t1", place.bag).kill()
        assert sorted(file.name for file in place.ledger.parent.iterdir()) == ["ledger", "ledger-wal"], first
        assert not list(place.work.glob("*-wal")) and not list(place.work.glob("far/*-wal")), first
        assert place.run("audit", place.work / then, "t1") == (0, ["valid"]), (first, then)
        assert [file.name for file in place.ledger.parent.iterdir()] == ["ledger"], (first, then)
    return len(names)


def a_log_that_cannot_be_copied_stays(make):
    """If the database can't be written when it is closed, the log stays, and the next command finds what was answered.
    Returns how many limits there were."""
    contents = {"data/a": os.urandom(400_000), "data/b": b"abc"}
    stayed, limits = 0, range(5_000, 600_000, 35_000)
    for limit in limits:
        place = make(contents)
        place.run(*place.words("begin"))
        large, small = (folder(place, path[5:], {path: octets}) for path, octets in contents.items())
        assert place.run("intake", place.ledger, "t1", large) == (0, ["taken data/a"])
        answer = place.run("intake", place.ledger, "t1", small, limit=limit)
        assert answer in ((0, ["taken data/b"]), (3, ["refused data/b: store"]), (3, ["bag: store"])), (limit, answer)
        has_log = log_of(place.ledger).exists()
        assert has_log or answer[0] == 3 or held(place.ledger) == ["data/a", "data/b"], (limit, answer)
        stayed += has_log and answer[0] == 0
        wanted = (0, ["valid"]) if answer[0] == 0 else (1, ["manifest-sha256.txt: missing: data/b", "not complete"])
        assert place.run(*place.words("audit")) == wanted, (limit, answer)
        assert [file.name for file in place.ledger.parent.iterdir()] == ["ledger"], limit
    assert stayed, "the log was always copied"
    return len(limits)


def main(program):
    with tempfile.TemporaryDirectory() as work:
        places = (pathlib.Path(work) / str(number) for number in range(10**6))
        make = lambda contents: Place(os.path.abspath(program), next(places), contents)
        each_folder_is_answered(make)
        each_log_has_its_own_salts(make)
        used, refused = a_log_is_used(make), a_refused_ledger_keeps_its_log(make)
        names = a_log_is_named_after_its_file(make)
        little, full = little_memory_loses_no_log(make), a_log_that_cannot_be_copied_stays(make)
    print(f"{used} logs used, {refused} refused ledgers with a log, {names} names, {little} limits of memory,"
          f" {full} of a file")


if __name__ == "__main__":
    main(*sys.argv[1:])
