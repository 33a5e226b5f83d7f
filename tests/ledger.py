#!/usr/bin/env python3
"""ledger.py DRIVER TRIED: stops work on a ledger before each call of each of the two files of its database, and judges
what is left. What was tried is written to TRIED.

The driver is run as `DRIVER stop FILE CALLS HOW SEED DATABASE`. It opens the ledger in the database or makes one,
answers the events on standard input (tests/deliveries.py describes them), and closes it. FILE (`log` or `database`)
accepts CALLS calls and fails from then on. Then the driver leaves in DATABASE, and in the log next to it, what a stop
at this moment leaves: if HOW is `cut`, as after a power cut, only what a sync had reached, and if it is `killed` all
that was written. It prints `opened` or why it isn't, the answers, and `closed` or `not closed`. SEED is a number for
the log.

The work opens three transfers, and puts payload files by readers, in runs, from couriers and from suppliers. Its steps
are that the ledger is made, that a transfer is opened, and each delivery. After a stop sqlite3 reads what is left, file
by file and octet by octet. tests/model/reference_receiver.py says what there is after each step: it must be what there
was after the last step that was answered, or after the next one. Then the same work is given again, without a stop;
each answer is that of the second program, and all transfers are valid, also if they are audited. In the same way the
opening of ledgers that were closed, killed or cut off is stopped, which must leave them as they were; and the opening
of a ledger of format 1, which must leave it in the one format or in the other.
"""
import itertools
import pathlib
import random
import shutil
import sqlite3
import sys
import tempfile

from events import answered, run_driver, steps, tag_files
from ledger_files import PIECE, write_first
from ledger_rows import found
from reference_receiver import Receiver, known, ledger_of

NAMES = [b"first", b"second", b"third"]
# How far apart the stops of the opening of a larger ledger are, in calls.
STRIDE = 17


def work():
    """The events."""
    rng = random.Random(1)
    large = (b"data/a", rng.randbytes(2 * PIECE + 1))
    small = [(b"data/%d" % n, rng.randbytes(size))
        for n, size in enumerate([0, 1, 2_048, 2_048, 5_000, PIECE, 70_000, 0, 300, 9])]
    others = [(b"data/a", b"other"), ("data/\u00e9\n%".encode(), b"")]
    spelled = [(path.replace(b"%", b"%25").replace(b"\n", b"%0A"), octets) for path, octets in others]
    first = tag_files([large, *small], (b"notes/odd", rng.randbytes(PIECE + 1)), (b"empty", b""))
    fetched = [(b"data/f", rng.randbytes(70_000)), (b"data/g", b"g")]
    fetch = b"".join(b"http://example.org/ - %s\n" % path for path, _ in fetched)
    fields = lambda files: [field for file in files for field in file]
    return [
        ("begin", b"first", *fields(first)),
        ("break", b"first", large[0], large[1][: 2 * PIECE]),
        ("read", b"first", *large),
        ("run", b"first", *fields([*small, small[2], (b"data/1", b"x")])),
        ("begin", b"second", *fields(tag_files(spelled))),
        ("bring-first", b"second", *fields([(b"data/a", b"oth"), *others])),
        ("begin", b"third", *fields(tag_files(fetched, (b"fetch.txt", fetch)))),
        ("fetch", b"third", b"data/f", b"f", *fetched[1]),
        ("fetch", b"third", *fetched[0]),
        ("report", b"first"),
        ("audit", b"second"),
        ("names",),
    ]


def again(driver, database, left, events):
    """Does the whole work once more with no stop: each answer is right, and in the end everything is held."""
    more = [*events, *((word, name) for word in ("report", "audit") for name in NAMES)]
    receiver = known(left)
    wanted = list(steps(receiver, more))
    printed = run_driver(driver, database, more)
    assert answered(more, printed, wanted) == 1 + len(wanted) and printed[-1] == "closed", printed
    assert printed[-7:-1] == ["valid"] * 6, printed
    assert found(database) == ledger_of(receiver)


def stop_work(driver, folder, events, tried, kept):
    """Stops the work at each call. Adds what some stops leave to `kept`."""
    wanted = list(steps(Receiver(), events))
    states = [None, {}, *(ledger for _, ledger in wanted)]
    for file, how in itertools.product(("log", "database"), ("cut", "killed")):
        for calls in itertools.count():
            database = folder / f"{file} {calls} {how}"
            printed = run_driver(driver, database, events, (file, calls, how))
            number = answered(events, printed, wanted)
            left = found(database)
            assert left in states[number : number + 2], (file, calls, how, number, left and left.keys())
            tried["stops"] += 1
            tried["more"] += left != states[number]
            if (file, how) == ("log", "killed") and (calls % 48 == 5 or printed[-1] == "closed"):
                keep(database, kept, left)
            again(driver, database, left, events)
            remove(database)
            if printed[-1] == "closed":
                break
            tried["closings"] += number == len(states) - 1
        assert number == len(states) - 1 and left == states[-1]


def keep(database, kept, left):
    """Keeps a copy of the ledger."""
    start = database.with_name(f"start {len(kept)}")
    copy(database, start)
    kept.append((start, left))


def copy(database, to):
    for end in ("", "-wal"):
        shutil.copy(f"{database}{end}", f"{to}{end}")


def remove(database):
    for end in ("", "-wal"):
        pathlib.Path(f"{database}{end}").unlink()


def stop_openings(driver, folder, kept, tried):
    """Stops the opening and closing of the first ledger at each call, and of the others at some. It leaves what there
    was; without tables a ledger may be made."""
    events = [("names",), ("audit", b"first"), ("audit", b"second")]
    for place, (start, left) in enumerate(kept):
        wanted = list(steps(known(left), events))
        for file, how in itertools.product(("log", "database"), ("cut", "killed")):
            for calls in itertools.count(place, STRIDE if place else 1):
                database = folder / "opened"
                copy(start, database)
                printed = run_driver(driver, database, events, (file, calls, how))
                number = answered(events, printed, wanted)
                after = found(database)
                assert after == left or (left is None and after == {} and number <= 1) or (left is None and number), (
                    start, file, calls, how)
                tried["openings"] += 1
                whole = run_driver(driver, database, events)
                assert answered(events, whole, wanted) == 1 + len(wanted) and whole[-1] == "closed", (
                    start, file, calls, how, whole)
                assert found(database) == (left or {}), (start, file, calls, how)
                remove(database)
                if printed[-1] == "closed":
                    break


def number_of_format(database):
    """The number of the format of a ledger; its log, if there is one, is read with it."""
    with tempfile.TemporaryDirectory(dir=database.parent) as folder:
        copy(database, pathlib.Path(folder) / "copy")
        opened = sqlite3.connect(pathlib.Path(folder) / "copy")
        try:
            return opened.execute("SELECT v FROM meta").fetchone()[0]
        finally:
            opened.close()


def stop_moves(driver, folder, tried):
    """Stops the opening of a ledger of format 1 at each call."""
    rng = random.Random(5)
    files = {"data/0": b"", "data/1": b"x", "data/2": rng.randbytes(PIECE), "data/3": rng.randbytes(2 * PIECE + 1)}
    start = folder / "format 1"
    write_first(start, {"first": files, "second": {"data/a": b"a"}})
    pathlib.Path(f"{start}-wal").touch()
    events = [("names",), ("audit", b"first"), ("audit", b"second")]
    held = found(start)
    wanted = list(steps(known(held), events))
    for file, how in itertools.product(("log", "database"), ("cut", "killed")):
        formats = set()
        for calls in itertools.count():
            database = folder / "moved"
            copy(start, database)
            printed = run_driver(driver, database, events, (file, calls, how))
            number = answered(events, printed, wanted)
            assert found(database) == held, (file, calls, how)
            formats.add(number_of_format(database))
            assert not number or number_of_format(database) == 2, (file, calls, how)
            tried["moves"] += 1
            whole = run_driver(driver, database, events)
            assert answered(events, whole, wanted) == 1 + len(wanted) and whole[-1] == "closed", (
                file, calls, how, whole)
            assert found(database) == held and number_of_format(database) == 2, (file, calls, how)
            remove(database)
            if printed[-1] == "closed":
                break
        assert formats == {1, 2}, (file, how, formats)


def count_rows(driver, folder):
    """Readers and couriers that fail, one after another, and the rows of payload files and of pieces after each.
    Returns how many."""
    octets = random.Random(2).randbytes(2 * PIECE + 1)
    changed = octets[:-1] + bytes([octets[-1] ^ 1])
    files = tag_files([(b"data/a", octets), (b"data/b", b"b")])
    cases = [
        (("begin", b"t", *files[0], *files[1]), "new", (0, 0)),
        (("break", b"t", b"data/a", octets[: 2 * PIECE]), "refused: reader", (0, 0)),
        (("break", b"t", b"data/a", octets), "refused: reader", (0, 0)),
        (("read", b"t", b"data/a", changed), "refused: digest sha256", (0, 0)),
        (("bring-first", b"t", b"data/b", b"b"), "refused: reader | done", (0, 0)),
        (("bring-end", b"t"), "courier", (0, 0)),
        (("read", b"t", b"data/a", octets), "taken", (1, 3)),
        (("read", b"t", b"data/a", octets), "repeated", (1, 3)),
        (("read", b"t", b"data/a", changed), "refused: digest sha256", (1, 3)),
        (("break", b"t", b"data/a", octets[:1]), "refused: reader", (1, 3)),
        (("bring-end", b"t", b"data/b", b"x", b"data/b", b"b"), "refused: digest sha256 | taken | courier", (2, 4)),
    ]
    database = folder / "rows"
    for event, text, wanted in cases:
        printed = run_driver(driver, database, [event])
        assert printed == ["opened", text, "closed"], (event[0], printed)
        opened = sqlite3.connect(database)
        rows = tuple(opened.execute(f"SELECT count(*) FROM {table}").fetchone()[0] for table in ("held", "piece"))
        opened.close()
        assert rows == wanted, (event[0], text, rows)
    return len(cases)


def main(driver, tried_file):
    tried, kept = dict.fromkeys(["stops", "more", "closings", "openings", "moves"], 0), []
    with tempfile.TemporaryDirectory() as folder:
        rows = count_rows(driver, pathlib.Path(folder))
        stop_work(driver, pathlib.Path(folder), work(), tried, kept)
        stop_openings(driver, pathlib.Path(folder), kept, tried)
        stop_moves(driver, pathlib.Path(folder), tried)
    assert tried["more"] and tried["closings"], tried
    assert any(left is None for _, left in kept) and any(left and len(left) == len(NAMES) for _, left in kept), [left
        and len(left) for _, left in kept]
    with open(tried_file, "w", encoding="ascii") as out:
        print(
            f"{tried['stops']} stops of the work, {tried['closings']} of them while it was closed,"
            f" and after {tried['more']} a step is held that wasn't answered;"
            f" {tried['openings']} stops while one of {len(kept)} ledgers was opened or closed;"
            f" {tried['moves']} while one of format 1 was opened;"
            f" {rows} counts of rows",
            file=out,
        )


if __name__ == "__main__":
    main(*sys.argv[1:])
