#!/usr/bin/env python3
"""random_ledgers.py PROGRAM DRIVER [SECONDS [SEED [TRIED [NUMBER..]]]]: makes random ledgers in files, and has the
program open them. `list`, `report` and `audit` must answer as tests/model/reference_commands.py does, so no ledger may
be refused, and sqlite3 reads what each ledger holds, octet by octet.

It makes ledgers until SECONDS (60) have passed, but not less than 40, and writes the seed and what was tried to TRIED,
or to standard output. If it fails, it prints the seed and the number of the ledger as well. With NUMBER.. only these
ledgers are made.

A ledger has up to three transfers, and one in 40 has 300. Their names and paths have characters of every kind, and
their files are empty, have a piece, a part of one, or several. Payload files come in any order, damaged, repeated,
unlisted, and from readers that fail. Most ledgers are made by the driver, in up to three sittings, some of which are
stopped at a call of a file of the database (tests/ledger.py describes how). The others are made by commands of the
program, some of which are killed once the log of the ledger has grown. A ledger is opened after each sitting, and after
some commands.
"""
import collections
import concurrent.futures
import contextlib
import itertools
import os
import pathlib
import random
import shutil
import subprocess
import sys
import tempfile
import time

import reference_commands
import written_bags
from compared import Ledger, damaged
from events import NEVER, answered, run_driver, steps
from explaining import is_explained
from ledger_rows import found
from random_transfers import Transfer
from reference_receiver import known, ledger_of

LEAST, TRANSFERS = 40, 300
VIEWED, WORKERS = 2, 4
WHAT = ["ledgers", "transfers", "pieces", "openings", "sittings", "stops", "commands", "kills"]
UNLISTED = b"data/none\n", b"x"


def deliveries(rng, transfer):
    """Events with most of the payload files of a transfer, and with others."""
    files = rng.sample(transfer.files, max(0, len(transfer.files) - rng.randrange(2)))
    again = rng.choices(transfer.files, k=rng.randrange(3)) if files else []
    wrong = [(path, damaged(octets)) for path, octets in rng.sample(transfer.files, min(2, len(transfer.files)))]
    for other in [*again, *rng.sample([*wrong, UNLISTED], rng.randrange(len(wrong) + 2))]:
        files.insert(rng.randrange(len(files) + 1), other)
    while files:
        word = rng.choice(["deliver", "read", "break", "run", "run", "bring-first"])
        number = rng.randrange(1, 1 + len(files)) if word in ("run", "bring-first") else 1
        yield transfer.event(word, [files.pop() for _ in range(number)])


def sittings(rng, transfers):
    """The events of each sitting."""
    begin = lambda one: one.event("begin", rng.sample(one.tags, len(one.tags)))
    events = [event for one in transfers for event in [begin(one), *deliveries(rng, one)]]
    views = [*(("report", one.name) for one in transfers[:1]), ("names",)]
    places = [0, *sorted(rng.randrange(len(events) + 1) for _ in range(rng.randrange(3))), len(events)]
    return [events[start:end] + views for start, end in itertools.pairwise(places)]


class Home:
    """A folder with a ledger, and what this has to hold: `left`, which is None if there are no tables."""

    def __init__(self, program, driver, folder, rng, tried):
        self.program, self.driver, self.folder, self.rng, self.tried = program, driver, folder, rng, tried
        self.file = folder / "ledger"
        self.holds(None)

    def holds(self, left):
        """From now on the ledger has to hold this."""
        self.left, self.ledger = left, Ledger(self.program, self.file, known(left))

    def sit(self, events):
        """The driver does this, and may be stopped."""
        wanted = list(steps(known(self.left), events))
        states = [self.left, self.left or {}, *(ledger for _, ledger in wanted)]
        stop = "log", NEVER, "killed"
        if self.rng.randrange(3) == 0:
            calls = self.rng.randrange(8 + 4 * len(wanted))
            stop = self.rng.choice(["log", "database"]), calls, self.rng.choice(["cut", "killed"])
        printed = run_driver(self.driver, self.file, events, stop)
        number = answered(events, printed, wanted)
        is_closed = printed[-1] == "closed"
        left = found(self.file)
        assert is_closed or stop[1] != NEVER, printed
        assert left in ([states[-1]] if is_closed else states[number : number + 2]), (stop, number)
        self.tried["sittings"] += 1
        self.tried["stops"] += not is_closed
        self.holds(left)

    def open(self):
        """The ledger is opened by each command that views it."""
        if self.left is None:
            return
        names = self.rng.sample(sorted(self.left), min(VIEWED, len(self.left)))
        self.ledger.run("list")
        for name in names:
            for command in ("report", "audit"):
                self.ledger.run(command, name)
        self.tried["openings"] += 1 + 2 * len(names)
        self.ledger.judge()

    def command(self, words, states):
        """A command that writes, which may be killed. It may then hold what it held before, or one of `states`."""
        if self.left is None and words[0] != b"begin":
            return
        self.tried["commands"] += 1
        if self.rng.randrange(4):
            self.ledger.compare(words)
            self.left = ledger_of(self.ledger.receiver())
            return
        self.kill(words)
        left = found(self.file) if self.file.exists() else None
        assert left in [self.left, *states], words
        self.holds(left)

    def kill(self, words):
        """Kills the command once the log has a random number of octets, if it comes to that."""
        octets = self.rng.choice([1, 5_000, 30_000, 100_000, 300_000])
        with subprocess.Popen([self.program, *words], stdout=subprocess.PIPE, stderr=subprocess.PIPE) as ran:
            until = time.monotonic() + 120
            while ran.poll() is None and time.monotonic() < until:
                with contextlib.suppress(FileNotFoundError):
                    if os.stat(f"{self.file}-wal").st_size >= octets:
                        break
            ran.kill()
            printed, said = ran.communicate()
        assert is_explained(printed.decode().splitlines(), ran.returncode, said), (words, said)
        self.tried["kills"] += ran.returncode < 0


def fits(path):
    """Whether a folder may have a file with this path."""
    return all(len(part) <= 255 for part in path.split(b"/")) and len(path) <= written_bags.LONGEST_IN_FOLDER - 200


def put(folder, files):
    """Those of the files that a folder may have."""
    assert written_bags.put(os.fsencode(folder), {path: octets for path, octets in files if fits(path)})
    return folder


def by_commands(home, transfer, number):
    """The program opens a transfer, and takes in folders with most of its files and with others."""
    rng, name = home.rng, transfer.name
    tags = put(home.folder / f"tags {number}", transfer.tags)
    folders = []
    for place in range(rng.randrange(1, 4)):
        files = dict(rng.sample(transfer.files, rng.randrange(len(transfer.files) + 1)))
        for path in rng.sample(list(files), min(rng.randrange(2), len(files))):
            files[path] = damaged(files[path])
        more = [UNLISTED] if rng.randrange(2) else []
        folders.append(put(home.folder / f"files {number} {place}", [*files.items(), *more]))
    for some in folders, folders[::-1]:
        begun = {name: ({path: octets for path, octets in transfer.tags if fits(path)}, {}), **(home.left or {})}
        home.command(home.ledger.words("begin", name, tags), [{}, begun] if home.left is None else [begun])
        home.command(home.ledger.words("intake", name, *some), list(taken(known(home.left), name, some)))
        home.open()
    for folder in tags, *folders:
        shutil.rmtree(folder)


def taken(receiver, name, folders):
    """What is held after each delivery."""
    for folder in folders:
        bag = reference_commands.tree(os.fsencode(folder))
        for path in bag.payload:
            receiver.deliver(name, path, bag.octets(path))
            yield ledger_of(receiver)


def make(program, driver, seed, number):
    """Makes the ledger of this number, and returns what was tried."""
    rng, tried = random.Random(f"{seed} {number}"), collections.Counter(ledgers=1)
    many = number % LEAST == LEAST - 1
    transfers = [Transfer(rng, many, 30 if many else 4) for _ in range(TRANSFERS if many else rng.randrange(4))]
    transfers = list({one.name: one for one in transfers}.values())
    with tempfile.TemporaryDirectory() as folder:
        home = Home(program, driver, pathlib.Path(folder), rng, tried)
        if many or not transfers or rng.randrange(3):
            for events in sittings(rng, transfers):
                home.sit(events)
                home.open()
        else:
            for place, one in enumerate(transfers):
                by_commands(home, one, place)
    for _, held in (home.left or {}).values():
        tried["transfers"] += 1
        tried["pieces"] += sum(len(octets) > 65_535 for octets in held.values())
    return tried


def made(program, driver, seed, numbers):
    """Makes the ledgers of these numbers, several at a time, and returns what was tried."""
    tried, running = collections.Counter(), {}
    with concurrent.futures.ThreadPoolExecutor(WORKERS) as pool:
        for number in itertools.chain(numbers, [None] * WORKERS):
            if number is None or len(running) == WORKERS:
                for ended in concurrent.futures.wait(running, return_when=concurrent.futures.FIRST_COMPLETED).done:
                    told = f"ledger {running.pop(ended)} with the seed {seed}:"
                    if ended.exception():
                        print(told, file=sys.stderr)
                    tried += ended.result()
            if number is not None:
                running[pool.submit(make, program, driver, seed, number)] = number
    return tried


def main(program, driver, seconds="60", seed="", tried_file="/dev/stdout", *numbers):
    program, driver = map(os.path.abspath, (program, driver))
    seed, until = seed or str(random.SystemRandom().randrange(1 << 32)), time.monotonic() + int(seconds)
    more = itertools.takewhile(lambda number: number < LEAST or time.monotonic() < until, itertools.count())
    tried = made(program, driver, seed, map(int, numbers) if numbers else more)
    assert numbers or all(tried[what] for what in WHAT), tried
    with open(tried_file, "w", encoding="ascii") as out:
        print(
            f"seed {seed}: {tried['ledgers']} ledgers with {tried['transfers']} transfers and {tried['pieces']} files"
            f" of a piece or more, opened {tried['openings']} times, after {tried['sittings']} sittings, of which"
            f" {tried['stops']} were stopped, and {tried['commands']} commands, of which {tried['kills']} were killed",
            file=out,
        )


if __name__ == "__main__":
    main(*sys.argv[1:])
