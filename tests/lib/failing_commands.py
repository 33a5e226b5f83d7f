#!/usr/bin/env python3
"""failing_commands.py PROGRAM MOST allocations LIBRARY, or failing_commands.py PROGRAM MOST calls: runs each command on
a ledger with one failing memory allocation, or with one failing system call, once for each of them (for at most MOST of
one command, spread over all, and for the last allocations of a new ledger; 0 for all).

After each run the answer is the normal one, or it names what failed. What was answered is held, as sqlite3 reads it,
and nothing else except what failed. Then the same command and a report, with nothing failing, answer as
tests/model/reference_commands.py does for what is held. At the end it prints how many commands were run and how often
one failed.
"""
import collections
import copy
import os
import re
import shutil
import sys
import tempfile

import reference
import reference_commands
import written_bags
from explaining import is_explained
from ledger_files import DECLARATION, TO_FIRST, alter
from reference_commands import Commands, read_ledger
from reference_writer import manifest
from running import is_answered, run

# A path that is longer than most names, for which there must be room before it is looked up.
LONG = b"folder/" * 200 + b"file"
PAYLOAD = {b"data/a.txt": b"abc", b"data/e.txt": b"", b"data/" + LONG: b"xyz", b"data/k/big": b"0123456789" * 7000,
           b"data/z%": b"a line\n"}
FETCH = (b"http://example.org/e 0 data/e.txt\nhttp://example.org/l 3 data/" + LONG +
         b"\nhttp://example.org/k - data/k/big\nhttp://example.org/z - data/z%25\n")
TAGS = {b"bagit.txt": DECLARATION, b"bag-info.txt": b"Payload-Oxum: 70013.5\n", b"fetch.txt": FETCH,
        b"manifest-md5.txt": manifest("md5", PAYLOAD),
        b"manifest-sha256.txt": manifest("sha256", PAYLOAD)}
TAGS[b"tagmanifest-sha256.txt"] = manifest("sha256", TAGS)
OTHER_TAGS = {b"bagit.txt": DECLARATION, b"manifest-sha256.txt": manifest("sha256", {b"data/a.txt": b"abc"})}
FOLDERS = {
    "sender": TAGS,
    "whole": {**TAGS, **PAYLOAD},
    "other": OTHER_TAGS,
    "first": {b"data/a.txt": b"abc", b"data/k/big": PAYLOAD[b"data/k/big"], b"data/more": b"",
        b"data/z%": b"another line\n"},
    "second": {b"data/a.txt": b"abc", b"data/e.txt": b"", b"data/" + LONG: b"xyz", b"data/z%": PAYLOAD[b"data/z%"]},
    "supplier": {b"data/e.txt": b"", b"data/" + LONG: b"xyz", b"data/z%": b"another line\n"},
    "letters": {b"a.txt": b"abc", LONG: b"xyz", b"k/x": b"defgh", b"k0": b""},
}
# The ledgers, by the commands that make them. One more, `old`, is `half` in format 1.
LEDGERS = {
    "begun": [["begin", "t1", "sender"]],
    "half": [["begin", "t1", "sender"], ["intake", "t1", "first"]],
    "full": [["begin", "t1", "sender"], ["intake", "t1", "first", "second"], ["begin", "t2", "other"]],
}
# The commands, each with the ledger that it finds. The folder that it makes is `out`.
CASES = [
    (None, "begin ledger t1 ../sender"), (None, "begin ledger t1 ../first"), ("full", "begin ledger t3 ../whole"),
    ("full", "begin ledger t1 ../sender"), ("full", "begin ledger t1 ../other"),
    ("begun", "intake ledger t1 ../first ../second"), ("full", "intake ledger t1 ../second"),
    ("full", "intake ledger t9 ../second"), ("half", "report ledger t1"), ("full", "report ledger t1"),
    ("half", "audit ledger t1"), ("full", "audit ledger t1"), ("half", "fetch ledger t1 ../supplier"),
    ("begun", "fetch ledger t1 ../whole"), ("full", "export ledger t1 out"), ("full", "export ledger t9 out"),
    ("full", "list ledger"), (None, "list ledger"), ("old", "list ledger"), ("old", "audit ledger t1"),
    (None, "make ../letters out sha256 md5"), (None, "make ../letters out sha224"), (None, "check ../whole"),
]
# How system calls fail. `brk` is left out: the system never returns an error for it, and the C library would take one
# for an address.
ERRORS = {
    "openat": ["EACCES", "EMFILE"], "read": ["EIO"], "pread64": ["EIO"], "write": ["ENOSPC"],
    "pwrite64": ["ENOSPC", "EIO"], "fsync": ["EIO"], "fdatasync": ["EIO"], "ftruncate": ["EIO"], "unlink": ["EACCES"],
    "unlinkat": ["EACCES"], "rmdir": ["EACCES"], "mkdir": ["EACCES"], "mkdirat": ["EACCES"], "fcntl": ["EIO"],
    "statx": ["EIO"], "fstat": ["EIO"], "newfstatat": ["EIO"], "lseek": ["EIO"], "getdents64": ["EIO"],
    "close": ["EIO"], "mmap": ["ENOMEM"], "mremap": ["ENOMEM"], "getrandom": ["EIO"], "readlink": ["EIO"],
    "readlinkat": ["EIO"], "fchmod": ["EPERM"], "fchown": ["EPERM"], "fadvise64": ["EINVAL"]}
# How many of the last allocations fail in any case.
LAST = 60
CALL = re.compile(r"([a-z0-9_]+)\(")


class Otherwise(Exception):
    """A command did something that it may not do."""


def prepare(program):
    """Makes the folders and ledgers that the commands find, in the current folder."""
    for name, files in FOLDERS.items():
        assert written_bags.put(os.fsencode(name), files)
        if not any(path.startswith(b"data/") for path in files):
            os.rmdir(os.path.join(name, "data"))
    for name, commands in LEDGERS.items():
        for command, transfer, *folders in commands:
            ran = run([program, command, name, transfer, *folders])
            assert ran.returncode in (0, 1) and not ran.stderr, ran
    reference_commands.copy_ledger("half", "old")
    alter("old", TO_FIRST)
    os.mkdir("run")
    os.chdir("run")


class Case:
    """A command, the transfers that it finds, and its answer if nothing fails."""

    def __init__(self, program, ledger, words):
        self.program, self.ledger, self.words, self.faults = program, ledger, words.encode().split(), []
        self.start()
        self.commands = Commands()
        self.wanted = self.commands.answer(self.words)
        self.found = read_ledger("ledger") if ledger else None
        self.left = next(iter(self.commands.receivers.values()), None)
        ran = self.run([], {})
        if (ran.returncode, ran.stdout) != (self.wanted.status, text_of(self.wanted.lines)):
            raise Otherwise(f"with nothing failing: {ran} instead of {self.wanted[:2]}")
        self.judge_left("nothing", self.wanted.lines, ran.returncode)

    def start(self):
        """Restores the state before the command."""
        for name in os.listdir("."):
            shutil.rmtree(name) if os.path.isdir(name) else os.unlink(name)
        if self.ledger:
            reference_commands.copy_ledger(f"../{self.ledger}", "ledger")

    def run(self, before, variables):
        words = [*before, self.program, *self.words]
        return run(words, env={**os.environ, **variables})

    def judge(self, ran, failed):
        """Judges the result of a run in which this failed, an allocation or the text of a call, and what follows."""
        lines = ran.stdout.decode().split("\n")
        if lines.pop() or ran.returncode not in (3, self.wanted.status):
            raise Otherwise(f"{ran}")
        # What can't be written to standard error is lost, and so may be what was to follow it. A name that is told there
        # takes memory.
        is_lost = (failed.startswith("write(2, ") or ran.returncode == 3 and failed.startswith("write(")
                   or is_memory(failed) and not ran.stderr)
        if not is_explained(lines, ran.returncode, ran.stderr) and not is_lost:
            raise Otherwise(f"{ran}")
        is_whole = (lines, ran.returncode) == (self.wanted.lines, self.wanted.status)
        is_unwritten = failed.startswith("write(1, ") and lines == self.wanted.lines[:len(lines)]
        if is_whole or is_unwritten:
            self.judge_left(failed, self.wanted.lines, ran.returncode)
        elif ran.returncode != 3:
            raise Otherwise(f"{ran}")
        else:
            self.judge_refusal(failed, lines)
            self.judge_left(failed, lines, ran.returncode)
        self.judge_next()

    def judge_refusal(self, failed, lines):
        """The output says what failed: in a single line, or for one payload file among others, which `replayed`
        judges."""
        words = ["memory"] if is_memory(failed) else ["files", "store", "not a ledger"]
        if lines not in [["bag: " + word] for word in words] and not (lines
            and lines[0].startswith(("taken ", "repeated ", "refused "))):
            raise Otherwise(f"{lines}")

    def judge_left(self, failed, lines, status):
        """Judges what exists after the command."""
        names = set(os.listdir("."))
        self.judge_made(names, lines == self.wanted.lines, failed)
        begins = self.words[0] == b"begin" and status == 0
        is_due = self.ledger or begins or self.is_unseen(names, failed, lines) or (
            "ledger" in names and lines in (["bag: store"], ["bag: memory"])
            and (self.is_unopened(names) or self.is_left_by_failure()))
        wanted = {"ledger"} if is_due else set()
        if names - {"out", "ledger-wal" if wanted else "out"} != wanted and not failed.startswith("unlink"):
            raise Otherwise(f"{lines}: there are {names}")
        if self.ledger:
            self.judge_held(failed, lines)

    def is_unseen(self, names, failed, lines):
        """Whether a refused `begin` leaves a ledger without a transfer, since the failure kept it from seeing that
        there is none, or from removing it; or, if it could not bring to the disk that its log is removed, a database
        without tables."""
        is_refused = self.words[0] == b"begin" and self.wanted.status != 0 and lines == self.wanted.lines
        is_left = is_refused and failed != "nothing" and "ledger" in names
        return is_left and (self.is_without_transfer() or failed.startswith("fsync(")
            and reference_commands.is_without_tables("ledger"))

    def is_without_transfer(self):
        """Whether the ledger is one without a transfer: it stays if the failure kept `begin` from seeing that there is
        none."""
        try:
            return not read_ledger("ledger").transfers
        except reference.End:
            return False

    def is_left_by_failure(self):
        """The same after a failure of the store, which may also have kept the transfer that was to be opened."""
        try:
            return self.is_without_transfer() or held(read_ledger("ledger")) == held(self.left)
        except reference.End:
            return False

    def is_unopened(self, names):
        """Whether the ledger to be made is an empty file: a program that couldn't open a file doesn't know that no
        other program uses it, and leaves it."""
        return all(os.path.getsize(name) == 0 for name in names)

    def judge_made(self, names, is_done, failed):
        """The new folder holds its files, or the fronts of some; it is given up if it would be empty."""
        is_made = is_done and self.wanted.made is not None
        whole, needed = ({}, set()) if self.wanted.made is None else reference_commands.folder_of(self.wanted.made)
        files, directories = reference_commands.found_in(b"out") if "out" in names else ({}, set())
        if is_made and (files, directories) != (whole, needed):
            raise Otherwise(f"{files.keys()} in {directories} is made")
        is_front = all(whole[path].startswith(octets) for path, octets in files.items() if path in whole)
        is_kept = "out" not in names or directories or failed.startswith("rmdir")
        if not is_front or files.keys() - whole.keys() or directories - needed or not is_kept:
            raise Otherwise(f"{files.keys()} in {directories} is left")

    def judge_held(self, failed, lines):
        """What was answered is held, and nothing else except what failed."""
        now = held(read_ledger("ledger"))
        if lines == self.wanted.lines:
            may_be = [held(self.left)]
        elif self.words[0] in (b"intake", b"fetch"):
            may_be = self.replayed(failed, lines)
        else:
            may_be = [held(self.found), held(self.left)]
        if now not in may_be:
            raise Otherwise(f"{lines}: what is held is none of {len(may_be)}")

    def replayed(self, failed, lines):
        """What may be held after these lines: what they answer and, if the store failed, also what it failed to
        store."""
        receiver, rest, doubtful = copy.deepcopy(self.found), list(lines), []
        causes = ["memory"] if is_memory(failed) else ["store", "reader", "supplier"]
        for path, deliver in self.attempts(receiver):
            if not rest or rest[0].startswith("bag: "):
                break
            line = rest.pop(0)
            if line in [f"refused {reference_commands.printed(path)}: {cause}" for cause in causes]:
                after = copy.deepcopy(receiver)
                deliver(after)
                doubtful += [held(after)] if line.endswith("store") and not doubtful else []
            elif line != deliver(receiver):
                raise Otherwise(f"{lines}: {line}")
        # A run that ends early is reported in one more line.
        ends = [[], lines, ["bag: memory" if is_memory(failed) else "bag: files"]]
        if rest not in ends or sum(line.endswith("memory") for line in lines) > 1:
            raise Otherwise(f"{lines}")
        return [held(receiver), *doubtful]

    def attempts(self, receiver):
        """Each path that is reached, and the folder that delivers it."""
        command, (_, name, *folders) = reference_commands.request(self.words)
        if command == "intake":
            for bag in map(reference.Folder, folders):
                for path in bag.payload:
                    yield path, lambda to, path=path, bag=bag: reference_commands.deliver(to, name, path,
                        bag.octets(path))
            return
        for path in receiver.transfers[name].fetch:
            if path not in receiver.transfers[name].held:
                yield path, lambda to, path=path: reference_commands.ask_for(to, name, path, folders[0])

    def judge_next(self):
        """Runs the same command again, with another new folder, and a report."""
        again = [b"again" if word == b"out" else word for word in self.words]
        for words in [again, [b"report", b"ledger", b"t1"]]:
            wanted = Commands().answer(words)
            ran = run([self.program, *words])
            if not is_answered(ran, wanted.lines, wanted.status):
                raise Otherwise(f"then: {ran} instead of {wanted[:2]}")


def text_of(lines):
    return "".join(line + "\n" for line in lines).encode()


def held(receiver):
    return {name: (transfer.tags, transfer.held) for name, transfer in receiver.transfers.items()}


def is_memory(failed):
    """Whether what failed was an allocation of memory."""
    return failed.startswith(("allocation", "mmap(", "mremap("))


def spread(numbers, most):
    """This many of them, or all if that is 0."""
    return numbers if not most else numbers[::max(1, -(-len(numbers) // most))]


def refuse_growths(case, most, library):
    """Returns how many allocations failed."""
    variables = {"LD_PRELOAD": library, "ASKED": "../asked", "REFUSED": "../refused"}
    case.start()
    case.run([], {**variables, "REFUSE": "0"})
    with open("../asked", encoding="ascii") as file:
        asked = int(file.read())
    numbers = set(spread(range(1, asked + 1), most))
    if case.words[0] == b"begin" and not case.ledger:
        # Whether a new ledger stays depends on what is done after the answer, which asks for memory less often.
        numbers.update(range(max(1, asked - LAST), asked + 1))
    for number in sorted(numbers):
        case.start()
        ran = case.run([], {**variables, "REFUSE": str(number)})
        if not os.path.exists("../refused"):
            raise Otherwise(f"allocation {number} was never asked for")
        os.unlink("../refused")
        told(case, f"allocation {number}", ran, "allocation")
    return len(numbers)


def fail_calls(case, most):
    """Returns how many calls failed."""
    case.start()
    all_calls = traced(lambda before: case.run(before, {}))
    of_start = traced(lambda before: run([*before, case.program]))
    failed = 0
    for name, errors in ERRORS.items():
        for number in spread(range(of_start[name] + 1, all_calls[name] + 1), most):
            for error in errors:
                case.start()
                ran = case.run(["strace", "-o", "../trace", "-e", f"inject={name}:error={error}:when={number}"], {})
                with open("../trace", encoding="utf-8", errors="replace") as file:
                    calls = [line for line in file if "(INJECTED)" in line]
                if not calls:
                    raise Otherwise(f"call {number} of {name} was never made")
                told(case, f"{name} {number}: {calls[0]}", ran, calls[0])
                failed += 1
    return failed


def traced(run_after):
    """How many times each system call is made by what is run after these words."""
    run_after(["strace", "-o", "../trace"])
    with open("../trace", encoding="utf-8", errors="replace") as file:
        return collections.Counter(found[1] for found in map(CALL.match, file) if found)


def told(case, what, ran, failed):
    try:
        case.judge(ran, failed)
    except Otherwise as otherwise:
        case.faults.append(f"{b' '.join(case.words).decode()}, on {case.ledger}: {what}: {otherwise}")


def main(program, most, kind, *library):
    program = os.path.abspath(program)
    work = {"allocations": refuse_growths, "calls": fail_calls}[kind]
    failed, faults = 0, []
    libraries = list(map(os.path.abspath, library))
    with tempfile.TemporaryDirectory() as folder:
        os.chdir(folder)
        prepare(program)
        for ledger, words in CASES:
            case = Case(program, ledger, words)
            failed += work(case, int(most), *libraries)
            faults += case.faults
        os.chdir("/")
    print(*faults, f"{len(CASES)} commands, of which {failed} {kind} failed", sep="\n")
    return 1 if faults or not failed else 0


if __name__ == "__main__":
    sys.exit(main(*sys.argv[1:]))
