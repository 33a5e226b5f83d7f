#!/usr/bin/env python3
"""kills.py PROGRAM [KILLS [SEED [TRIED]]]: runs commands on ledgers, one after another in any order, and kills them at
random moments.

After each kill the next command must work, and must find everything that was answered before the kill (a line that was
read, or a command that had ended), and of the killed command the first of its deliveries. In the end everything is
delivered to each ledger, and the exported bag is the one that was delivered. Commands are killed after a random time,
once the log of the ledger has grown by a random number of octets, or after a random number of lines. At least a third
of all kills must fall among the deliveries, so that some of them are held and some are not, and of a hundred and more
at least one before there is a ledger. It ends after KILLS kills (150) or some more, and writes the seed and what was
tried to TRIED, or to standard output. If it fails, it prints the seed as well.
"""
import contextlib
import hashlib
import itertools
import os
import pathlib
import random
import shutil
import signal
import sqlite3
import subprocess
import sys
import tempfile
import time

from explaining import is_explained
from ledger_files import DECLARATION

NAMES = ["first", "second"]
FILES, LONGEST = 24, 300_000
STEPS_OF_A_LEDGER = 20


class Bag:
    """The bag of a transfer, and folders with parts of it: whole, damaged, with files that it doesn't list, with one
    file, and a supplier's."""

    def __init__(self, rng, folder):
        self.contents = {f"data/{number:02}": rng.randbytes(rng.choice([0, 1, 65_536, rng.randrange(LONGEST)]))
            for number in range(FILES)}
        self.fetched = rng.sample(sorted(self.contents), 6)
        lines = "".join(f"{hashlib.sha256(octets).hexdigest()}  {path}\n" for path, octets in self.contents.items())
        fetch = "".join(f"http://example.org/ - {path}\n" for path in self.fetched)
        self.tags = {"bagit.txt": DECLARATION, "manifest-sha256.txt": lines.encode(), "fetch.txt": fetch.encode()}
        self.whole = folder / "whole"
        write(self.whole, {**self.tags, **self.contents})
        self.parts = [self.part(rng, folder / f"part{number}") for number in range(4)] + [(self.whole, self.contents)]
        self.singles = [(folder / f"single{path[5:]}", {path: octets}) for path, octets in self.contents.items()]
        for single, files in self.singles:
            write(single, files)

    def part(self, rng, folder):
        items = {path: self.contents[path] for path in rng.sample(sorted(self.contents), FILES // 2)}
        damaged = rng.choice(sorted(items))
        items[damaged] += b"x"
        items["data/unlisted"] = b"x"
        write(folder, items)
        return folder, items


def write(folder, files):
    for path, octets in files.items():
        (folder / path).parent.mkdir(parents=True, exist_ok=True)
        (folder / path).write_bytes(octets)


class Ledger:
    """A ledger, and what it must hold: its tables, and for each open transfer the paths of the payload files."""

    def __init__(self, program, rng, folder, bags, tried):
        self.program, self.rng, self.folder, self.bags, self.tried = program, rng, folder, bags, tried
        self.file, self.tables, self.held, self.exports = folder / "ledger", False, {}, itertools.count()

    def run(self, words, until=None):
        """The status (None if it was killed) and the whole lines that were read. It is killed once `until` has
        returned, with what it has read."""
        with subprocess.Popen([self.program, *words], bufsize=0, stdout=subprocess.PIPE, stderr=subprocess.PIPE) as ran:
            begun = b""
            if until is not None:
                begun = until(ran)
                ran.kill()
            printed, said = ran.communicate(timeout=60)
            printed = begun + printed
        self.tried["commands"] += 1
        killed = ran.returncode == -signal.SIGKILL
        self.tried["kills"] += killed
        assert killed or printed.endswith(b"\n") or not printed, (words, printed)
        lines = printed.decode().split("\n")[:-1]
        assert killed or is_explained(lines, ran.returncode, said), (words, said)
        return None if killed else ran.returncode, lines

    def words(self, command):
        """A command with random arguments, and the answers to its deliveries: for each a path, or none, and a line."""
        name = self.rng.choice(NAMES)
        bag = self.bags[name]
        words, lines, status = [command, self.file, name], [], 0
        if command == "list":
            words = words[:2]
        if command == "begin":
            words.append(bag.whole)
        if command == "export":
            words.append(self.folder / f"export{next(self.exports)}")
        if command == "fetch":
            words.append(bag.whole)
            deliveries = [(path, bag.contents[path]) for path in bag.fetched if path not in self.held.get(name, ())]
        if command == "intake":
            parts = self.rng.choices(bag.parts, k=self.rng.randrange(1, 4))
            if self.rng.randrange(3):
                parts = self.rng.sample(bag.singles, self.rng.randrange(8, FILES + 1))
            words += [folder for folder, _ in parts]
            deliveries = [(path, items[path]) for _, items in parts for path in sorted(items)]
        if command in ("intake", "fetch"):
            lines = self.answers(name, command, deliveries)
            status = max([int("refused" in line) for _, line in lines], default=0)
        return name, words, lines, status

    def answers(self, name, command, deliveries):
        """The answer to each delivery: the path that is held from then on, if any, and the line."""
        if name not in self.held:
            return [(None, f"refused {path}: no transfer") for path, _ in deliveries] if command == "intake" else []
        lines, held = [], set(self.held[name])
        for path, octets in deliveries:
            if self.bags[name].contents.get(path) == octets:
                lines.append((path, f"{'repeated' if path in held else 'taken'} {path}"))
                held.add(path)
            else:
                cause = "digest sha256" if path in self.bags[name].contents else "not listed"
                lines.append((None, f"refused {path}: {cause}"))
        return lines

    def expected(self, command, name, lines, status):
        """The status and the lines of a command that isn't killed."""
        if not self.tables:
            return (0, ["new"]) if command == "begin" else (3, ["bag: not a ledger"])
        if command == "list":
            return 0, sorted(self.held)
        if command == "begin":
            return 0, ["again" if name in self.held else "new"]
        if command == "intake":
            return status, [line for _, line in lines]
        if name not in self.held:
            return 1, ["bag: no transfer"]
        if command in ("report", "audit"):
            missing = [f"manifest-sha256.txt: missing: {path}" for path in sorted(self.bags[name].contents)
                if path not in self.held[name]]
            return (1, [*missing, "not complete"]) if missing else (0, ["valid"])
        if command == "export":
            return 0, [f"exported {len(self.bags[name].tags) + len(self.held[name])} files"]
        return status, [line for _, line in lines]

    def answered(self, command, name, lines):
        """What is held after a command that isn't killed."""
        if command == "begin":
            self.tables = True
            self.held.setdefault(name, set())
        if command in ("intake", "fetch") and name in self.held:
            self.held[name] |= {path for path, _ in lines if path}

    def goods(self, name, lines):
        """The paths that these answers add to the transfer, in order."""
        return list(dict.fromkeys(path for path, _ in lines if path and path not in self.held[name]))

    def log_grows(self, octets):
        """Waits until the log has grown by this many octets, or the command has ended."""

        def wait(ran):
            least = None
            while ran.poll() is None:
                with contextlib.suppress(FileNotFoundError):
                    size = os.stat(f"{self.file}-wal").st_size
                    least = size if least is None else min(least, size)
                    if size - least >= octets:
                        break
            return b""

        return wait

    def moment(self, command, name, lines, times):
        """When the command is killed, if it is: mostly where it takes in something."""
        goods = self.goods(name, lines) if name in self.held else []
        is_first = command == "begin" and not self.tables
        if self.rng.randrange(6) < (1 if len(goods) > 2 else 3 if is_first else 5):
            return None
        way = self.rng.randrange(8)
        if len(goods) > 2 and way > 1:
            number = self.rng.randrange(1, 1 + len(lines) // 2)
            return lambda ran: b"".join(ran.stdout.readline() for _ in range(number))
        if len(goods) > 2 and way:
            octets = sum(len(self.bags[name].contents[path]) for path in goods)
            return self.log_grows(self.rng.randrange(octets + 1))
        if command not in times:
            return None
        seconds = self.rng.uniform(0, 1.2 * times[command])
        return lambda ran: time.sleep(seconds) or b""

    def step(self, times):
        """Runs a random command, which may be killed once it is known how long it takes, and then looks at what the
        ledger holds."""
        command = self.rng.choice(["begin", "begin", *["intake"] * 8, "fetch", "report", "audit", "export", "list"])
        if not self.held and self.rng.randrange(2):
            command = "begin"
        name, words, lines, status = self.words(command)
        wanted = self.expected(command, name, lines, status)
        until = self.moment(command, name, lines, times)
        began = time.monotonic()
        ended, printed = self.run(words, until)
        if ended is not None:
            assert (ended, printed) == wanted, (words, ended, printed, wanted)
            took = time.monotonic() - began
            times[command] = 0.8 * times.get(command, took) + 0.2 * took
            self.answered(command, name, lines)
            if command == "export" and ended == 0:
                self.judge_export(words[-1], name)
        else:
            assert printed == wanted[1][: len(printed)], (words, printed, wanted)
            self.after_a_kill(command, name, lines, printed)

    def after_a_kill(self, command, name, lines, printed):
        """Finds what the ledger holds after a kill, by one of several ways, and judges it."""
        tables, found = self.rng.choice([self.by_reports, self.by_audits, self.by_tables, self.by_exports])()
        before = self.held
        if not tables:
            assert not self.tables and not (command == "begin" and printed), (command, before, printed)
            self.tried["no ledger"] += command == "begin"
            return
        due = before
        if command == "begin" and (name in found or printed):
            due = {**before, name: before.get(name, set())}
        if command in ("intake", "fetch") and name in before:
            goods = self.goods(name, lines)
            number = len(found[name] - before[name])
            due = {**before, name: before[name] | set(goods[:number])}
            answered = {path for path, _ in lines[: len(printed)] if path}
            assert answered <= found[name], ("lost", answered - found[name])
            self.tried["part"] += 0 < number < len(goods)
        assert found == due and (self.tables or command == "begin"), (command, name, found, due)
        self.tables, self.held = tables, found

    def by_reports(self, command="report"):
        """Whether there are tables of a ledger, and which paths each transfer holds, that is, which aren't missing."""
        status, names = self.run(["list", self.file])
        if status == 3:
            assert names == ["bag: not a ledger"], names
            return False, {}
        assert status == 0, (status, names)
        found = {}
        for name in names:
            lines = self.run([command, self.file, name])[1]
            lacking = {line.removeprefix("manifest-sha256.txt: missing: ") for line in lines[:-1]}
            assert lacking <= set(self.bags[name].contents) and lines[-1] == ("not complete" if lacking
                else "valid"), lines
            found[name] = set(self.bags[name].contents) - lacking
        return True, found

    def by_audits(self):
        return self.by_reports("audit")

    def by_tables(self):
        """The same, with sqlite3 on copies of the database and its log; each row is judged."""
        copy = self.folder / "copy"
        for end in ("", "-wal"):
            if pathlib.Path(f"{self.file}{end}").exists():
                shutil.copy(f"{self.file}{end}", f"{copy}{end}")
        database = sqlite3.connect(copy)
        ask = lambda text: database.execute(text).fetchall()
        tables, found = None, {}
        with contextlib.suppress(sqlite3.DatabaseError):
            tables = ask("SELECT name FROM sqlite_schema")
        if tables:
            assert ask("PRAGMA integrity_check") == [("ok",)] and ask("PRAGMA foreign_key_check") == []
            assert ask("SELECT k, v FROM meta") == [("bag-ledger", 2)]
            for transfer, name in ask("SELECT id, name FROM transfer"):
                assert dict(ask(f"SELECT path, body FROM tag WHERE transfer = {transfer}")) == self.bags[name].tags
                found[name] = set()
                for item, path, size in ask(f"SELECT id, path, size FROM held WHERE transfer = {transfer}"):
                    octets = b"".join(body for (body,) in ask(f"SELECT body FROM piece WHERE item = {item} ORDER BY n"))
                    assert octets == self.bags[name].contents[path] and size == len(octets), path
                    found[name].add(path)
        database.close()
        for file in self.folder.glob("copy*"):
            file.unlink()
        # A first page that was about to be written is no database to sqlite3. Then the program tells whether anything
        # was held.
        return self.by_reports() if tables is None else (bool(tables), found)

    def by_exports(self):
        """The same, by exporting each transfer."""
        tables, found = self.by_reports()
        for name in found:
            folder = self.folder / f"export{next(self.exports)}"
            assert self.run(["export", self.file, name, folder]) == (0, [f"exported {3 + len(found[name])} files"])
            self.judge_export(folder, name, found[name])
        return tables, found

    def judge_export(self, folder, name, held=None):
        held = self.held[name] if held is None else held
        files = {str(file.relative_to(folder)): file.read_bytes() for file in folder.rglob("*") if file.is_file()}
        bag = self.bags[name]
        assert files == {**bag.tags, **{path: bag.contents[path] for path in held}}, (folder, held)
        shutil.rmtree(folder)

    def is_full(self):
        """Whether all payload files of all transfers are held."""
        return len(self.held) == len(NAMES) and all(len(held) == FILES for held in self.held.values())

    def finish(self):
        """Delivers everything, and compares the export with what was delivered."""
        for name, bag in self.bags.items():
            assert self.run(["begin", self.file, name, bag.whole])[0] == 0
            status, lines = self.run(["intake", self.file, name, bag.whole])
            held = self.held.get(name, set())
            assert (status, lines) == (0,
                [f"{'repeated' if path in held else 'taken'} {path}" for path in sorted(bag.contents)]), lines
            for command in ("report", "audit"):
                assert self.run([command, self.file, name]) == (0, ["valid"])
            out = self.folder / "out"
            assert self.run(["export", self.file, name, out]) == (0, [f"exported {3 + FILES} files"])
            assert self.run(["check", out]) == (0, ["valid"])
            self.judge_export(out, name, set(bag.contents))


def is_enough(tried, kills):
    """Whether so many kills were tried, among them enough of each kind."""
    return tried["kills"] >= kills and 3 * tried["part"] >= tried["kills"] and (tried["no ledger"] > 0 or kills < 100)


def main(program, kills="150", seed=None, tried_file="/dev/stdout"):
    seed = seed or str(random.SystemRandom().randrange(1 << 32))
    rng, tried = random.Random(seed), dict.fromkeys(["commands", "kills", "ledgers", "part", "no ledger"], 0)
    times = {}
    try:
        with tempfile.TemporaryDirectory() as folder:
            bags = {name: Bag(rng, pathlib.Path(folder) / name) for name in NAMES}
            while not is_enough(tried, int(kills)):
                assert tried["kills"] < 2 * int(kills), tried
                tried["ledgers"] += 1
                home = pathlib.Path(folder) / f"{tried['ledgers']}"
                home.mkdir()
                ledger = Ledger(os.path.abspath(program), rng, home, bags, tried)
                for _ in range(STEPS_OF_A_LEDGER):
                    if not ledger.is_full():
                        ledger.step(times)
                ledger.finish()
                shutil.rmtree(home)
        assert tried["part"], tried
    except BaseException:
        print(f"with the seed {seed}:", file=sys.stderr)
        raise
    with open(tried_file, "w", encoding="ascii") as out:
        print(
            f"seed {seed}: {tried['kills']} kills of {tried['commands']} commands on {tried['ledgers']} ledgers;"
            f" after {tried['part']} a part of the deliveries was held,"
            f" and after {tried['no ledger']} there was no ledger yet",
            file=out,
        )


if __name__ == "__main__":
    main(*sys.argv[1:])
