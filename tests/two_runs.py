#!/usr/bin/env python3
"""two_runs.py PROGRAM [TRIED]: two commands on one ledger at the same moment.

In most cases one command is stopped after one of its system calls on the ledger, the other runs from its start to its
end meanwhile, and then the first goes on: once for each such call, so that no place has to be known. Nothing waits for
a time to pass. In the other cases two commands are started together, many times.

What was answered must be held afterwards, as a third command tells it, and nothing else except what a command that
failed or was killed was asked to do. A command in which nothing failed gives its usual answer, or says that the ledger
is open in another program; then it has done nothing. At the end the ledger can still be worked on. What was tried is
written to TRIED, or to standard output. A kind of which nothing was tried is a failure.
"""
import collections
import concurrent.futures
import hashlib
import os
import pathlib
import re
import shutil
import signal
import subprocess
import sys
import tempfile

from explaining import is_explained
from ledger_files import DECLARATION

PAYLOAD = {f"data/{folder}{number}": f"{folder}{number}\n".encode() * length
           for folder in "ab" for number, length in enumerate([1, 0, 30_000])}
PAIRS = 50
STORE = (3, ["bag: store"])
CALL = re.compile(r"\d+ +([a-z0-9_]+)\(")
# How system calls on the files of a ledger fail.
ERRORS = {"openat": "EMFILE", "pread64": "EIO", "pwrite64": "ENOSPC", "fsync": "EIO", "fdatasync": "EIO",
          "ftruncate": "EIO", "fcntl": "ENOLCK", "statx": "EIO", "fstat": "EIO", "newfstatat": "EIO", "lseek": "EIO",
          "unlink": "EACCES", "unlinkat": "EACCES", "readlink": "EIO"}
# What changes no file and tells nothing of one.
MEMORY = {"execve", "brk", "mmap", "munmap", "mremap"}


class Otherwise(Exception):
    """The commands did together what they may not do."""


class Run:
    """A command and its answer. It is `doubtful` if something failed in it, or if it was killed: then it may have done
    what it was asked without an answer."""

    def __init__(self, words, ended, printed, doubtful):
        self.words, self.status, self.doubtful = words, ended, doubtful
        self.lines = printed.decode().split("\n")[:-1]

    def __repr__(self):
        words = " ".join(os.path.basename(word) for word in self.words)
        return f"{words}: {self.lines} ({self.status})"


class Command:
    """What a command is asked, and what fails in it: a call of the system (its name, its number and how), or each that
    makes a file longer than so many blocks of 512 octets."""

    def __init__(self, *words, fault=None, blocks=None):
        self.words, self.fault, self.blocks = words, fault, blocks

    def __repr__(self):
        failing = [*(self.fault or ()), *(() if self.blocks is None else (self.blocks, "blocks"))]
        return " ".join([*self.words, *map(str, failing)])


class Place:
    """A folder with a ledger and nothing else, and the folders that all commands share."""

    def __init__(self, tried, state=None):
        self.program, self.shared = tried.program, tried.shared
        self.folder = pathlib.Path(tempfile.mkdtemp(dir=tried.work))
        self.ledger = self.folder / "ledger"
        if state:
            shutil.copy(tried.shared / state, self.ledger)

    def arguments(self, command):
        command, *rest = command.words
        name = [word for word in rest[:1] if command != "list"]
        return [command, str(self.ledger), *name, *(str(self.shared / word) for word in rest[1:])]

    def start(self, command, stop=None, trace=None):
        """Starts a command, under strace if a call of it fails, if it is to be stopped, or if it is traced."""
        words = [self.program, *self.arguments(command)]
        injected = ["{0}:{2}:when={1}".format(*command.fault)] if command.fault else []
        injected += [f"{stop[0]}:signal=SIGSTOP:when={stop[1]}"] if stop else []
        if injected or trace is not None:
            names = "all" if trace is not None and not stop else ",".join(word.split(":")[0] for word in injected)
            injected = [part for word in injected for part in ("-e", f"inject={word}")]
            trace = os.open(os.devnull, os.O_WRONLY) if trace is None else trace
            options = ["-f", "-y", "-s", "0", "-o", f"/proc/self/fd/{trace}", "-e", f"trace={names}", *injected]
            words = ["strace", *options, *words]
        if command.blocks is not None:
            words = ["sh", "-c", 'trap "" XFSZ; ulimit -f "$0"; exec "$@"', str(command.blocks), *words]
        handed = [] if trace is None else [trace]
        files = {"stdin": subprocess.DEVNULL, "stdout": subprocess.PIPE, "stderr": subprocess.PIPE, "pass_fds": handed}
        ran = subprocess.Popen(words, **files)
        for file in handed:
            os.close(file)
        return ran

    def end(self, command, ran):
        printed, said = ran.communicate(timeout=120)
        # A command that is killed under strace kills strace.
        killed = ran.returncode == -signal.SIGKILL
        if not killed and not is_explained(printed.decode().splitlines(), ran.returncode, said):
            raise Otherwise(f"{command}: {said}")
        doubtful = command.fault is not None or command.blocks is not None
        return Run(self.arguments(command), None if killed else ran.returncode, printed, doubtful)

    def run(self, command):
        return self.end(command, self.start(command))

    def traced(self, command):
        """Runs a command, and returns its calls: of each its name, its number among those with it, and its text."""
        reading, writing = os.pipe()
        ran = self.start(command, trace=writing)
        numbers, calls = collections.Counter(), []
        with open(reading, encoding="utf-8", errors="replace") as file:
            for line in file:
                name = CALL.match(line)
                if name:
                    numbers[name[1]] += 1
                    calls.append((name[1], numbers[name[1]], line))
        self.end(command, ran)
        return calls

    def meanwhile(self, command, stop, others):
        """Runs a command that is stopped after this call, and the others while it is."""
        with Stopped(self, command, stop) as stopped:
            return [*map(self.run, others), stopped.go_on()]

    def overlapping(self, first, stop_of_first, second, stop_of_second, others):
        """Runs two commands that are stopped after these calls, of which the first is started and ends before the
        other. Then runs the others."""
        with Stopped(self, first, stop_of_first) as stopped, Stopped(self, second, stop_of_second) as other:
            return [stopped.go_on(), other.go_on(), *map(self.run, others)]

    def judge(self, answers):
        """What was answered is held, and nothing else except what is doubtful; the ledger can be worked on."""
        due, may = self.due(answers), self.asked(answers)
        for run in answers:
            if not run.doubtful and (run.status, run.lines) not in [STORE, *self.usual(run, due)]:
                raise Otherwise(f"{run} among {answers}")
        found = self.held()
        lost = due - found
        if lost:
            raise Otherwise(f"lost {sorted(map(' '.join, lost))}: {answers}")
        if found - due - may:
            raise Otherwise(f"nobody answered {sorted(map(' '.join, found - due))}: {answers}")
        then = self.run(Command("begin", "last", "tags"))
        if (then.status, then.lines) != (0, ["new"]):
            raise Otherwise(f"{then} after {answers}")
        if os.listdir(self.folder) != ["ledger"]:
            raise Otherwise(f"there are {os.listdir(self.folder)} after {answers}")
        shutil.rmtree(self.folder)

    def due(self, answers):
        """The transfers, and the payload files of transfers, that were answered."""
        due = set()
        for run in answers:
            command, _, *names = run.words
            if command == "begin" and run.lines in (["new"], ["again"]):
                due.add((names[0],))
            if command == "intake":
                due |= {(names[0], line.split()[1]) for line in run.lines if line.startswith(("taken ", "repeated "))}
        return due

    def usual(self, run, due):
        """The answers of a command that finds the ledger open in no other program, if these are held in the end."""
        command, _, name, *folders = run.words
        paths = self.paths(folders)
        if command == "begin":
            return [(0, ["new"]) if name.islower() else (1, ["refused: name"])]
        if command == "report":
            missing = [f"manifest-sha256.txt: missing: {path}" for path in sorted(PAYLOAD)]
            return [(0, ["valid"]), *[(1, [*lines, "not complete"]) for lines in (missing, missing[3:])]]
        refused = [(3, ["bag: not a ledger"]), (1, [f"refused {path}: no transfer" for path in paths])]
        return [(0, [f"taken {path}" for path in paths])] if (name,) in due else refused

    def paths(self, folders):
        """The payload files of these folders, as they are delivered."""
        return [path for folder in folders for path in sorted(PAYLOAD) if (pathlib.Path(folder) / path).exists()]

    def asked(self, answers):
        """What may be held, although it wasn't answered."""
        may = set()
        for run in answers:
            command, _, *names = run.words
            if run.doubtful and command == "begin":
                may.add((names[0],))
            if run.doubtful and command == "intake":
                may |= {(names[0], path) for path in self.paths(names[1:])}
        return may

    def held(self):
        """What the ledger holds: its transfers, and their payload files that a report doesn't miss."""
        listed = self.run(Command("list"))
        if (listed.status, listed.lines) == (3, ["bag: not a ledger"]):
            return set()
        if listed.status != 0:
            raise Otherwise(f"{listed}")
        found = set()
        for name in listed.lines:
            lines = self.run(Command("report", name)).lines
            missing = {line.removeprefix("manifest-sha256.txt: missing: ") for line in lines[:-1]}
            if not missing <= PAYLOAD.keys() or lines[-1:] != ["not complete" if missing else "valid"]:
                raise Otherwise(f"report of {name}: {lines}")
            found |= {(name,)} | {(name, path) for path in PAYLOAD.keys() - missing}
        return found


class Stopped:
    """A command that is stopped after one of its calls."""

    def __init__(self, place, command, stop):
        reading, writing = os.pipe()
        self.place, self.command = place, command
        self.ran = place.start(command, stop=stop, trace=writing)
        self.trace = open(reading, encoding="utf-8", errors="replace")
        told = next((line for line in self.trace if line.endswith("--- stopped by SIGSTOP ---\n")), None)
        if told is None:
            raise Otherwise(f"{place.end(command, self.ran)} was not stopped at {stop}")
        self.pid = int(told.split()[0])

    def go_on(self):
        os.kill(self.pid, signal.SIGCONT)
        self.trace.read()
        return self.place.end(self.command, self.ran)

    def __enter__(self):
        return self

    def __exit__(self, *raised):
        if self.ran.poll() is None:
            os.kill(self.pid, signal.SIGKILL)
            self.ran.communicate()
        self.trace.close()


class Tried:
    """What was tried, and what failed."""

    def __init__(self, program, work):
        self.program, self.work, self.shared = program, work / "places", work / "shared"
        self.work.mkdir()
        self.counts, self.faults = collections.Counter(), []
        digests = "".join(f"{hashlib.sha256(octets).hexdigest()}  {path}\n" for path, octets in PAYLOAD.items())
        write(self.shared / "tags", {"bagit.txt": DECLARATION, "manifest-sha256.txt": digests.encode()})
        for folder in "ab":
            write(self.shared / folder, {path: octets for path, octets in PAYLOAD.items() if path[5] == folder})
        place = Place(self)
        self.begun = [place.run(Command("begin", "t1", "tags"))]
        assert (self.begun[0].status, self.begun[0].lines) == (0, ["new"]), self.begun
        shutil.copy(place.ledger, self.shared / "begun")

    def each(self, kind, cases):
        """Judges each of these cases, each a state of the ledger and a function of the place, two at a time."""

        def judge(case):
            state, work = case
            place = Place(self, state)
            before = self.begun if state else []
            try:
                place.judge([*before, *work(place)])
            except Otherwise as otherwise:
                return str(otherwise)
            return None

        self.counts[kind] += 0
        with concurrent.futures.ThreadPoolExecutor(2) as workers:
            for fault in workers.map(judge, cases):
                self.counts[kind] += 1
                self.faults += [f"{kind}: {fault}"] if fault else []

    def stopped(self, kind, state, command, others, before=(), by_name=False):
        """Stops a command after each of its calls on the ledger, or of those by its names and on locks, while others
        run."""

        def case(stop):
            return state, lambda place: [*map(place.run, before), *place.meanwhile(command, stop, others)]

        # strace makes a call fail or stops at it, not both.
        failing = command.fault[:1] if command.fault else ()
        calls = self.calls(state, command, before, by_name)
        self.each(kind, [case(call[:2]) for call in calls if call[0] not in failing])

    def overlapping(self, kind, first, second, others):
        """Stops a command after each of its calls by name, and another, which is started then, after each of its."""

        def case(*stops):
            return None, lambda place: place.overlapping(first, stops[0], second, stops[1], others)

        for stop in self.calls(None, first, by_name=True):
            place = Place(self)
            with Stopped(place, first, stop[:2]):
                calls = self.on_ledger(place, place.traced(second), by_name=True)
            self.each(kind, [case(stop[:2], call[:2]) for call in calls])

    def calls(self, state, command, before=(), by_name=False):
        """The calls of a command that runs alone after those before."""
        place = Place(self, state)
        for first in before:
            place.run(first)
        return self.on_ledger(place, place.traced(command), by_name)

    def on_ledger(self, place, calls, by_name):
        """Those of the calls that are on the ledger, or on its names or on a lock, and first the one before these."""
        calls = [call for call in calls if call[0] not in MEMORY]
        told = []
        for number, (name, _, text) in enumerate(calls):
            if f'"{place.ledger}' in text or (str(place.ledger) in text and (not by_name or name == "fcntl")):
                told.append(number)
        return [calls[number] for number in [told[0] - 1, *told]]


def write(folder, files):
    for path, octets in files.items():
        (folder / path).parent.mkdir(parents=True, exist_ok=True)
        (folder / path).write_bytes(octets)


BEGIN, INTAKE = Command("begin", "t1", "tags"), Command("intake", "t1", "a")
REFUSED = Command("begin", "T1", "tags")
OTHER = Command("begin", "t2", "tags")


def killed_intake(tried):
    """An intake that is killed when it has printed that it took the files of the first folder, and has those of the
    second: the log has them all."""
    command = Command("intake", "t1", "a", "b")
    calls = Place(tried, "begun").traced(command)
    writes = [number for name, number, text in calls if name == "write" and re.match(r"\d+ +write\(1\b", text)]
    assert len(writes) == 2, writes
    return Command(*command.words, fault=("write", writes[1], "signal=SIGKILL"))


def failures(tried, state, command, most):
    """The same command with one failing call on the ledger, for at most so many of its calls, spread over all."""
    # If the first call on the ledger failed, there would be no others.
    calls = [(name, number) for name, number, _ in tried.calls(state, command)[2:] if name in ERRORS]
    spread = calls[:: max(1, -(-len(calls) // most))]
    return [Command(*command.words, fault=(name, number, f"error={ERRORS[name]}")) for name, number in spread]


def begins(tried):
    """A ledger that is made and given up, or that cannot be made, while the other makes it and takes in files, and the
    other way round."""
    tried.stopped("a refused begin is stopped", None, REFUSED, [BEGIN, INTAKE])
    tried.stopped("a refused begin is stopped", None, REFUSED, [BEGIN, killed_intake(tried)], by_name=True)
    tried.stopped("a begin is stopped while another is refused", None, BEGIN, [REFUSED], by_name=True)
    tried.stopped("an intake is stopped while a begin is refused", None, INTAKE, [REFUSED], [BEGIN], by_name=True)
    for blocks in (0, 1, 40):
        full = Command(*OTHER.words, blocks=blocks)
        tried.stopped("a begin on a full disk is stopped", None, full, [BEGIN, INTAKE], by_name=True)
        tried.stopped("a begin is stopped while another finds a full disk", None, BEGIN, [full], by_name=True)
    for failing in failures(tried, None, OTHER, 8):
        tried.stopped("a begin that fails is stopped", None, failing, [BEGIN, INTAKE], by_name=True)
    tried.overlapping("two begins are stopped, and one is refused", REFUSED, BEGIN, [INTAKE])


def logs(tried):
    """A ledger without a log, in which a command is killed while another, which fails, has looked at it."""
    killed = killed_intake(tried)
    for command in (Command("report", "t1"), OTHER):
        tried.stopped("a command is stopped while an intake is killed", "begun", command, [killed], by_name=True)
        for failing in failures(tried, "begun", command, 5):
            kind = "a command that fails is stopped while an intake is killed"
            tried.stopped(kind, "begun", failing, [killed], by_name=True)


def renamed(tried):
    """Another ledger gets the name while a command opens the one that had it: nothing is told of either, and the new
    one isn't touched."""
    other = Place(tried, "begun")
    taken = other.run(Command("intake", "t1", "b"))
    shutil.move(other.ledger, tried.shared / "other")

    def case(command, stop):
        def work(place):
            with Stopped(place, command, stop) as stopped:
                put = place.folder / "put"
                shutil.copy(tried.shared / "other", put)
                os.replace(put, place.ledger)
                answer = stopped.go_on()
            if (answer.status, answer.lines) != STORE:
                raise Otherwise(f"{answer} of a ledger that lost its name after {stop}")
            if place.ledger.read_bytes() != (tried.shared / "other").read_bytes():
                raise Otherwise(f"{command} changed the ledger that got the name after {stop}")
            return [taken, answer]

        return "begun", work

    for command in (Command("report", "t1"), INTAKE, OTHER):
        calls = tried.calls("begun", command, by_name=True)
        first = next(number for number, call in enumerate(calls) if call[0] == "openat" and 'ledger"' in call[2])
        log = next(number for number, call in enumerate(calls) if call[0] == "openat" and 'ledger-wal"' in call[2])
        tried.each("another ledger gets the name", [case(command, call[:2]) for call in calls[first:log]])


def pairs(tried):
    """Two commands that are started together."""

    def together(first, second):
        def work(place):
            started = [(command, place.start(command)) for command in (first, second)]
            return [place.end(command, ran) for command, ran in started]

        return work

    tried.each("two intakes at once", [("begun", together(INTAKE, Command("intake", "t1", "b")))] * PAIRS)
    tried.each("two begins at once", [(None, together(BEGIN, OTHER))] * PAIRS)


def main(program, tried_file="/dev/stdout"):
    # Each command waits for the disk many times, which says nothing here.
    memory = "/dev/shm" if os.access("/dev/shm", os.W_OK) else None
    with tempfile.TemporaryDirectory(dir=memory) as folder:
        tried = Tried(os.path.abspath(program), pathlib.Path(folder))
        for work in (begins, logs, renamed, pairs):
            work(tried)
    print(*tried.faults, sep="\n", end="\n" if tried.faults else "")
    counts = "".join(f"{number} {kind}\n" for kind, number in tried.counts.items())
    with open(tried_file, "w", encoding="ascii") as out:
        print(f"{counts}{sum(tried.counts.values())} interleavings, {len(tried.faults)} faults", file=out)
    return int(bool(tried.faults) or not all(tried.counts.values()))


if __name__ == "__main__":
    sys.exit(main(*sys.argv[1:]))
