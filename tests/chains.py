#!/usr/bin/env python3
"""chains.py PROGRAM DRIVER TRIED [STRIDE]: what happens to a bag from its beginning to its end, each as one chain. What
was tried is written to TRIED.

A bag that is written with holes. The driver writes it (tests/new_bags.py describes how), its tag files open a transfer,
and its payload files come in some order, repeated, damaged and late. The holes are filled by deliveries, or by `fetch`
from a folder. Then the bag is valid, it is exported, and the export is compared with what was written, file by file,
and is judged by `check` and by coreutils. In between the work stops: the driver at every STRIDEth call (17) of each
file of the database (tests/ledger.py describes how), and the program by a kill between two folders.

A ledger that is released and adopted again, three times in a row, with deliveries to two transfers before, in between
and after. Each time both transfers are reported, audited and exported.

Both happen over a keeper in memory, over a database in memory, and over databases in files; in memory nothing is
fetched or exported. What is written is that of tests/model/reference_writer.py. Each answer is that of
tests/model/reference_receiver.py and tests/model/reference_commands.py, and sqlite3 reads what a ledger in a file
holds.
"""
import itertools
import os
import pathlib
import random
import shutil
import sys
import tempfile

import written_bags
from compared import Ledger, damaged
from events import answer, answered, run_driver, steps, with_files
from ledger_files import PIECE
from ledger_rows import found
from reference_receiver import Receiver, known
from reference_writer import ALGORITHMS, Order, verdict
from running import ask, line

NAMES = [b"first", b"second"]


class Bag:
    """A bag that the driver wrote: its tag files, the payload files that were written, and those that are holes."""

    def __init__(self, driver, folder, order):
        self.order = order
        printed, status, said = written_bags.written([("", order)], [driver, "calls", "map"])
        with printed:
            assert (status, said) == (0, b""), (status, said)
            assert written_bags.difference([("the bag", order)], printed) is None
            printed.seek(0)
            parts = printed.read().split("\n")[-2].split(" | ")
        files = dict(map(bytes.fromhex, text.split(" ")) for text in parts[2:])
        self.tags = {path: octets for path, octets in files.items() if not path.startswith(b"data/")}
        self.sent = {path: octets for path, octets in files.items() if path not in self.tags}
        self.holes = {path: order.payload[path] for path, _ in order.holes}
        self.whole = {**self.tags, **order.payload}
        self.folder, self.supplier = put(folder / "written", files), put(folder / "supplier", self.holes)
        # What a report says as long as the holes, and nothing else, are missing.
        self.lines_with_holes = verdict(order)[0]

    def begin(self, name):
        return with_files("begin", name, self.tags.items())


def put(folder, files):
    assert written_bags.put(os.fsencode(folder), files), folder
    return folder


def contents(seed):
    rng = random.Random(seed)
    return {
        "data/a": rng.randbytes(2 * PIECE + 1), "data/empty": b"", "data/100%": rng.randbytes(PIECE),
        "data/\u00e9 'x\"": rng.randbytes(PIECE - 1), "data/deep/er": b"abc", "data/deep/est": b"abc",
        "data/z": rng.randbytes(PIECE + 1), "data/zero": b""}


def orders_with_holes():
    """One hole, and more of them."""
    more = ["data/zero", "data/100%", "data/a", "data/deep/er"]
    for algorithms, paths in ((["sha256"], ["data/z"]), (ALGORITHMS, more)):
        holes = [(path, f"http://example.org/{place}") for place, path in enumerate(paths)]
        yield Order(contents(1), algorithms, [("Contact-Name", "Ada\nBen"), ("A", "")], holes)


def whole_orders():
    """Two without holes, which have the same paths and mostly other contents."""
    for seed, algorithms in ((2, ["sha256"]), (3, ["md5", "sha512"])):
        yield Order(contents(seed), algorithms)


def arrival(bag, name, seed):
    """The events of a transfer, until all that was written has come, in some order."""
    late, twice, *others = random.Random(seed).sample(list(bag.sent.items()), len(bag.sent))
    wrong = twice[0], damaged(twice[1])
    return [
        bag.begin(name),
        ("report", name),
        ("read", name, *wrong),
        with_files("run", name, [twice, others[0], twice, wrong, (b"data/none", b""), *others[1:]]),
        ("break", name, *late),
        ("report", name),
        with_files("bring-first", name, [late, others[0], late]),
        ("report", name),
    ]


def filling(name, holes):
    """The events that fill these holes: each comes damaged first, and is repeated."""
    for place, (path, octets) in enumerate(holes):
        yield ("deliver", name, path, damaged(octets))
        yield (("deliver", "read")[place % 2], name, path, octets)
        yield ("deliver", name, path, octets)


def in_memory(driver, events, tried):
    """Has both keepers in memory answer a list. Returns the answers, which are those of the second program."""
    receiver = Receiver()
    wanted = [answer(receiver, *one) for one in events]
    for keeper in ("map", "sqlite"):
        ran = ask([driver, "calls", keeper], map(line, [("start",), *events]))
        assert ran.stdout.decode().split("\n") == ["started", *wanted, ""], (keeper, ran.stdout, wanted)
        assert not ran.stderr and ran.returncode == 0, (keeper, ran)
        tried["lists"] += 1
    return wanted


def holes_in_memory(driver, bag, tried):
    """The chain as far as it goes in memory: to the audit."""
    name = NAMES[0]
    come = arrival(bag, name, 2)
    events = [*come, ("reopen",), *filling(name, bag.holes.items()), ("reopen",), ("report", name), ("audit", name)]
    wanted = in_memory(driver, events, tried)
    assert wanted[len(come) - 1] == " | ".join(bag.lines_with_holes), wanted
    assert wanted[-2:] == ["valid", "valid"], wanted


def fill_by_fetch(ledger, name, bag, folder, tried):
    """Gives all that was written once more, and fetches what is missing from folders. In the first one is damaged."""
    ledger.run("begin", name, bag.folder)
    ledger.run("intake", name, bag.folder)
    left = [path for path in bag.holes if path not in ledger.receiver().transfers[name].held]
    if len(left) == len(bag.holes):
        assert ledger.run("report", name) == bag.lines_with_holes
    if left:
        wrong = put(folder / "damaged", {**bag.holes, left[-1]: damaged(bag.holes[left[-1]])})
        assert ledger.run("fetch", name, wrong)[-1].startswith("refused data/")
        assert ledger.run("report", name)[-1] == "not complete"
        assert ledger.run("fetch", name, bag.supplier)[-1].startswith("taken data/")
        shutil.rmtree(wrong)
        tried["fetched"] += 1
    assert ledger.run("fetch", name, bag.supplier) == []
    ledger.judge()
    ledger.finish(name, bag, folder / "export", tried)


def holes_in_files(program, driver, bag, folder, stride, tried):
    """The driver fills all holes but the first, and is stopped. The program goes on with what is left."""
    name = NAMES[0]
    come = arrival(bag, name, 3)
    events = [*come, *filling(name, list(bag.holes.items())[1:])]
    wanted = list(steps(Receiver(), events))
    assert list(steps(Receiver(), come))[-1][0] == " | ".join(bag.lines_with_holes)
    states = [None, {}, *(ledger for _, ledger in wanted)]
    for place, (file, how) in enumerate(itertools.product(("log", "database"), ("cut", "killed"))):
        for calls in itertools.count(place, stride):
            database = folder / "ledger"
            printed = run_driver(driver, database, events, (file, calls, how))
            number = answered(events, printed, wanted)
            left = found(database)
            assert left in states[number : number + 2], (file, calls, how, number)
            fill_by_fetch(Ledger(program, database, known(left)), name, bag, folder, tried)
            tried["stops"] += 1
            for one in folder.glob("ledger*"):
                one.unlink()
            if printed[-1] == "closed":
                break
        assert left == states[-1], (file, how)


def holes_by_the_program(program, bag, folder, tried):
    """The program alone, killed between two folders and once all was fetched."""
    name, ledger = NAMES[0], Ledger(program, folder / "ledger", Receiver())
    first, *others, last = bag.sent.items()
    some = put(folder / "some", dict([(first[0], damaged(first[1])), *others[:3]]))
    more = put(folder / "more", dict([first, *others[1:]]))
    late = put(folder / "late", dict([last]))
    assert ledger.run("begin", name, bag.folder) == ["new"]
    ledger.kill("intake", name, some, more)
    ledger.run("report", name)
    ledger.kill("intake", name, more, some, late)
    assert ledger.run("begin", name, bag.folder) == ["again"]
    ledger.run("intake", name, late, some)
    assert ledger.run("report", name) == bag.lines_with_holes
    ledger.run("intake", name, bag.folder)
    ledger.export(name, folder / "with holes", tried)
    assert ledger.compare([b"check", os.fsencode(folder / "with holes")]).lines == bag.lines_with_holes
    ledger.kill("fetch", name, bag.supplier)
    ledger.finish(name, bag, folder / "export", tried)
    ledger.file.unlink()
    tried["kills"] += 3


def rounds(whole):
    """Four lists of events on two transfers with these bags: one before each of three releases, and one after them. The
    second transfer is opened only after the first release. The last list delivers everything."""
    for place in range(4):
        yield [one for name, bag in whole.items() for one in one_round(bag, name, place)]


def one_round(bag, name, place):
    files = sorted(bag.sent.items())
    some, other = files[place::4], files[place - 1]
    return [
        *([bag.begin(name)] if place > 0 or name == NAMES[0] else []),
        ("deliver", name, some[0][0], damaged(some[0][1])),
        with_files("run", name, some if place < 3 else files),
        ("break", name, *other),
        with_files("run", name, [some[-1], (b"data/none", b"x")]),
        ("report", name),
        ("audit", name),
        ("names",),
    ]


def released_in_memory(driver, whole, tried):
    """The ledger is released and adopted after each list, and then three times with nothing in between."""
    views = [(word, name) for name in whole for word in ("report", "audit")]
    events = [one for some in rounds(whole) for one in [*some, ("reopen",), *views]]
    wanted = in_memory(driver, [*events, *[("reopen",)] * 3, *views], tried)
    assert wanted[-4:] == ["valid"] * 4 and wanted.count("opened") == 7, wanted


def released_in_files(program, driver, whole, folder, tried):
    """The driver closes the database after each list. Before the next it is opened only to be adopted, and by commands
    of the program, of which one delivers."""
    receiver, database = Receiver(), folder / "ledger"
    ledger = Ledger(program, database, receiver)
    for place, events in enumerate(rounds(whole)):
        wanted = [answer(receiver, *one) for one in events]
        assert run_driver(driver, database, events) == ["opened", *wanted, "closed"], (place, wanted)
        assert run_driver(driver, database, []) == ["opened", "closed"], place
        ledger.judge()
        tried["adopted"] += 1
        ledger.run("list")
        for name in receiver.names():
            files, end = sorted(whole[name].sent.items()), f"{place} {name.decode()}"
            some = dict([(files[0][0], damaged(files[0][1])), files[place + 1]])
            ledger.run("intake", name, put(folder / f"some {end}", some))
            ledger.run("report", name)
            ledger.run("audit", name)
            ledger.export(name, folder / f"export {end}", tried)
    for name, bag in whole.items():
        ledger.finish(name, bag, folder / "export", tried)
    ledger.judge()


def main(program, driver, tried_file, stride="17"):
    program, driver = map(os.path.abspath, (program, driver))
    tried = dict.fromkeys(["lists", "stops", "fetched", "kills", "adopted", "exports", "digests"], 0)
    with tempfile.TemporaryDirectory() as folder:
        place = lambda name: pathlib.Path(tempfile.mkdtemp(prefix=name, dir=folder))
        holed = [Bag(driver, place("bag"), order) for order in orders_with_holes()]
        whole = {name: Bag(driver, place("bag"), order) for name, order in zip(NAMES, whole_orders())}
        for bag in holed:
            holes_in_memory(driver, bag, tried)
            holes_by_the_program(program, bag, place("killed"), tried)
        holes_in_files(program, driver, holed[1], place("stopped"), int(stride), tried)
        released_in_memory(driver, whole, tried)
        released_in_files(program, driver, whole, place("released"), tried)
    assert all(tried.values()), tried
    with open(tried_file, "w", encoding="ascii") as out:
        print(
            f"{tried['lists']} lists in memory; {tried['stops']} stops, and after {tried['fetched']} a hole was filled"
            f" from a folder; {tried['kills']} kills; a ledger adopted {tried['adopted']} times between deliveries;"
            f" {tried['exports']} exports, in which coreutils found {tried['digests']} listed digests",
            file=out,
        )


if __name__ == "__main__":
    main(*sys.argv[1:])
