#!/usr/bin/env python3
"""refusals.py [--all] DRIVER PROGRAM LIBRARY: lists of calls, each a case that docs/FORMAT.md decides
(tests/data/refusal_lists.py), in which one request for memory is refused, the first, the second and so on, by a library
that is loaded before the driver's own (tests/lib/no_memory.c); and in which one call of a device fails, the first, the
second and so on, of its trees, sinks, readers, couriers, suppliers, keepers and writers, by a count in the driver. Each
call of the driver is a line, so that it is known which call met the refusal, and all answers are judged
(tests/model/refused_calls.py). Each list goes on with calls that ask for what is held, before the ledger is opened
again and after it. They are run over a map in memory, over a database in memory and over one in two files in memory,
and over a map whose calls fail. A call of a file fails alone, or it and all that follow until the ledger is opened
again, which leaves what was written or only what a sync had reached; and sqlite3 reads what is left. Of a list over
files that isn't short one of STRIDE calls of the log fails, and one of both files if all fail that follow; these begin
elsewhere in each list. With --all each call fails. In some lists a map once gives something else than it holds; their
answers are compared, and not judged. Then the reading of command lines is refused memory in the same way. It prints how
many runs there were, for each list by keeper, and each answer that no refusal explains.

The driver reads calls from standard input, one per line, and prints a line for each, which ends in ` !` if a call of a
device failed in it. A call is a word, then a name and pairs of a path and octets, each in hex, or `-` if it is empty.
The parts of an answer are joined by ` | `. Each part is `refused: memory` if memory ran out, and `refused: store`,
`reader` or the like if that failed.

    start                    `started`; the ledger is made
    reopen                   `opened`; the ledger is closed, if it is open, and opened, or made if it could not be made
    load DUE FILE            the database in this file is opened as a ledger: `opened`, or `refused: ..`, as DUE says
    left                     `left`, and what the two files of the ledger hold, in hex, with `(N)` for N zeros, once it
                             was left as a program does that stops
    adopt                    a database without tables is opened as a ledger: `refused: not a ledger`
    begin, deliver, read, run, bring, report, audit, names     as in tests/deliveries.py
    fetch NAME FILES         for each line that is asked for its number, the path and the answer; then `done`. The
                             supplier has these files
    export NAME              `exported N`, then `data/` and each file with its octets, in hex
    clear, file, by, element, hole, write     as in tests/new_bags.py
    check, make, begin-to, intake-to, report-to, audit-to, fetch-to, export-to, list-to
                             the commands, on the tree of `file`, and `make` with its paths as names of algorithms: the
                             status, and what is printed in hex; of `make` and `export-to` also the files
    parse TEXT, unescape TEXT VERSION, escape PATH, hex ALG TEXT, digest LIMIT ALG OCTETS, declaration
                             texts and digests
    manifest NAME, metadata, entries              each pair is added, and the text is written
    whole NAME VERSION OCTETS, feed NAME VERSION PIECES      a tag file is read, whole or in pieces; printed as in
                                                             tests/feeds.py
    plan FILES               each tag file is added; then the paths of the plan, and the report if nothing is held
"""
import bisect
import collections
import itertools
import os
import subprocess
import sys
import tempfile

from refusal_lists import lists, stores
from refused_calls import Otherwise, World
from running import line, run

DEVICES = ["tree", "sink", "reader", "courier", "supplier", "writer"]
# The devices of a keeper that fails, and of files: one call of either, or from one call on all of both, which are left
# as they were written, or as they were when a sync had ended.
KEEPER, FILES = ["keeper", "reading"], ["log", "database", "stop", "cut"]
NEVER = 10**6
# More requests for memory may not be made by a list; a longer one is cut in two, down to a single call.
MOST = 1000
# How far apart the calls are that fail of the log, or of both files, in a list over files that isn't short.
STRIDE = 23
# What uses which devices.
USES = {"read": ["reader"], "digest": ["reader"], "bring": ["courier"], "fetch": ["supplier"], "export": ["sink"],
        "write": ["tree", "sink"],
        "check": ["tree", "writer"], "make": ["tree", "sink", "writer"], "begin-to": ["tree", "writer"],
        "intake-to": ["courier", "writer"], "report-to": ["writer"], "audit-to": ["writer"],
        "fetch-to": ["supplier", "writer"], "export-to": ["sink", "writer"], "list-to": ["writer"]}
OF_KEEPERS = ["begin", "deliver", "read", "run", "bring", "report", "audit", "names", "fetch", "export"]
# What reads the pieces of payload files.
OF_PIECES = ["audit", "export", "audit-to", "export-to"]
# What leaves the ledger as it is.
READING = ["report", "audit", "names", "export", "report-to", "audit-to", "list-to", "export-to"]
OF_COMMANDS = [word for word in USES if word.endswith("-to")]
# Words for the program in a folder without any file, with the status and the line; any line if it is None.
WORDS = [([], 64, "bag: check, make, begin, intake, report, audit, fetch, export, list"),
         (["check", "d"], 3, "bag: files"),
         (["intake", "l", "t1", "a", "b"], 3, "bag: not a ledger"), (["check"], 64, ""), (["check", "--help"], 0, None)]


class Runs:
    """Runs lists with refusals, and counts them."""

    def __init__(self, driver, library, folder, is_all):
        self.driver, self.library, self.folder, self.is_all = driver, library, folder, is_all
        # The calls that were refused memory, by keeper, and the number of the list.
        self.words, self.turn = collections.Counter(), 0
        # The calls that read a piece of a payload file which a map holds.
        self.readers = set()
        self.faults, self.counts, self.told = [], collections.Counter(), 0

    def path(self, name):
        return os.path.join(self.folder, name)

    def refusing(self, words, refuse, **options):
        """Runs the words and refuses one request for memory, none if it is 0. Returns how the run ended, and whether
        one was refused."""
        variables = {"LD_PRELOAD": self.library, "REFUSE": str(refuse), "ASKED": self.path("asked"),
            "REFUSED": self.path("refused")}
        ran = run(words, env=variables, **options)
        is_refused = os.path.exists(self.path("refused"))
        if is_refused:
            os.unlink(self.path("refused"))
        return ran, is_refused

    def asked(self):
        with open(self.path("asked"), encoding="ascii") as file:
            return int(file.read())

    def run(self, keeper, broken, most=NEVER):
        """The answers of the driver, and the places of those in which a call of a device failed."""
        return self.answers(keeper, broken, most, {"ASKED": self.path("asked")}, subprocess.PIPE)

    def run_each(self, keeper, broken, first, last):
        """For each of these requests for memory its number and, if it is refused, the same as above. A request that no
        run reaches is told."""
        with tempfile.TemporaryDirectory(dir=self.folder) as folder:
            with open(self.path("printed"), "w+b") as printed:
                self.answers(keeper, broken, NEVER,
                    {"EACH": str(first), "LAST": str(last), "TRIED": f"{folder}/number"}, printed)
            for number in range(first, last + 1):
                tried = f"{folder}/number.{number}"
                if not os.path.exists(tried):
                    raise Otherwise(f"request {number} for memory was never made")
                with open(tried, "rb") as file:
                    yield number, *marked(file.read())

    def answers(self, keeper, broken, most, variables, out):
        with open(self.path("calls"), "rb") as calls:
            ran = subprocess.run([self.driver, "refusals", keeper, str(most), *map(str, broken)], stdin=calls,
                                 stdout=out, stderr=subprocess.PIPE,
                                 env={"LD_PRELOAD": self.library, **variables}, timeout=600, check=False)
        if ran.returncode or ran.stderr:
            raise Otherwise(
                f"the driver ends with {ran.returncode} and says {ran.stderr[-300:]}"
                f" after {(ran.stdout or b'')[-300:]}")
        return marked(ran.stdout or b"")

    def write(self, some):
        """Writes the calls of a list where the driver is given them."""
        with open(self.path("calls"), "w", encoding="ascii") as calls:
            calls.writelines(line(event) + "\n" for event in some.events)

    def all_of(self, some):
        self.write(some)
        for keeper in some.keepers:
            self.attempt(some, keeper, "undisturbed", self.undisturbed)
            self.attempt(some, keeper, "memory", self.refuse_each)
            for device in [*DEVICES, *FILES * (keeper == "files")] if some.broken[1] == 0 else []:
                self.attempt(some, keeper, device, self.fail_each)
        if some.broken[1] == 0 and "map" in some.keepers and ("reopen",) in some.events:
            self.attempt(some, "breaking", "memory", self.refuse_each)
            for device in KEEPER:
                self.attempt(some, "breaking", device, self.fail_each)

    def attempt(self, some, keeper, what, work):
        try:
            work(some, keeper, what)
        except Otherwise as otherwise:
            self.faults.append(f"{some.name}, over {keeper}, {what}: {otherwise}")

    def undisturbed(self, some, keeper, _):
        answers, marks = self.run(keeper, some.broken)
        for event, answer, wanted in zip(some.events, answers, some.wanted):
            if wanted is not None and answer != wanted:
                raise Otherwise(f"{event[0]}: {answer!r} instead of {wanted!r}")
        judge(some, answers, {place: [may_of(some.broken[0])] for place in marks})

    def refuse_each(self, some, keeper, what):
        """Refuses each request for memory of the calls of the range."""
        bounds = []
        for most in range(some.first, some.last + 1):
            self.run(keeper, some.broken, most=most)
            bounds.append(self.asked())
        if bounds[-1] - bounds[0] > MOST and len(bounds) > 2:
            raise Otherwise(f"{bounds[-1] - bounds[0]} requests for memory are more than {MOST}")
        for number, answers, marks in self.run_each(keeper, some.broken, bounds[0] + 1, bounds[-1]):
            place = some.first + bisect.bisect_left(bounds, number) - 1
            word = some.events[place][0]
            self.counts[what, some.name, keeper] += 1
            self.words[word, keeper] += 1
            may = {mark: [may_of(some.broken[0])] for mark in marks}
            may.setdefault(place, []).append(memory_of(keeper, word))
            try:
                self.told += judge(some, answers, may)
            except Otherwise as otherwise:
                raise Otherwise(
                    f"request {number - bounds[0]} of {bounds[-1] - bounds[0]}, in {word}: {otherwise}") from None
        if not self.counts[what, some.name, keeper]:
            raise Otherwise("no request was refused")

    def fail_each(self, some, keeper, device):
        """Lets each call of a device fail."""
        whole, _ = self.run(keeper, some.broken)
        step = STRIDE if device in FILES and device != "database" and not some.is_short and not self.is_all else 1
        for number in range(1 + self.turn % step, NEVER, step):
            answers, marks = self.run(keeper, (device, number))
            if not marks:
                break
            self.counts[device, some.name, keeper] += 1
            try:
                [met] = marks
                if device == "reading":
                    self.readers.add(some.events[met][0])
                if device == "writer" and not octets_in(whole[met]).startswith(octets_in(answers[met])):
                    raise Otherwise(
                        f"{answers[met]!r} has what was not due, or was printed after the write that failed")
                judge(some, answers, {met: [may_of(device)]})
            except Otherwise as otherwise:
                raise Otherwise(f"call {number}, in {some.events[marks[0]][0]}: {otherwise}") from None
        judge(some, answers, {})
        used = OF_KEEPERS if device in [*KEEPER, *FILES] else [word for word, devices in USES.items()
            if device in devices]
        # What is refused may be refused before a device is used, but for that to which the refusal is written.
        going_on = [event[0] for event, wanted in itertools.zip_longest(some.events, some.wanted)
                    if device == "writer" or not is_refusal(wanted or "")]
        if set(used) & set(going_on) and not self.counts[device, some.name, keeper]:
            raise Otherwise("no call failed")

    def given(self, some, keeper, what):
        """A store gives something else than it holds, once."""
        answers, marks = self.run(keeper, some.broken)
        self.counts[what, some.name, keeper] += len(marks)
        for event, answer, wanted in itertools.zip_longest(some.events, answers, some.wanted):
            if answer != wanted:
                raise Otherwise(f"{event[0]}: {answer!r} instead of {wanted!r}")

    def read_words(self, program):
        """The reading of a command line. Nothing but its answer may be printed, or that memory ran out."""
        folder = self.path("empty")
        os.mkdir(folder)
        for words, status, text in WORDS:
            ran, _ = self.refusing([program, *words], 0, cwd=folder)
            whole = ran.returncode, ran.stdout.decode(), ran.stderr.decode()
            if (whole[0] != status or text is not None and whole[1] != (text and text + "\n")
                    or status == 64 and words and not whole[2]):
                self.faults.append(f"{words}: {whole}")
            asked = self.asked()
            for number in range(1, asked + 1):
                ran, is_refused = self.refusing([program, *words], number, cwd=folder)
                told = ran.returncode, ran.stdout.decode(), ran.stderr.decode()
                self.counts["words", " ".join(words), "program"] += is_refused
                # The line that names the ledger or the folder takes memory.
                unexplained = [(*whole[:2], "")] if status == 3 else []
                if told not in [whole, (3, "bag: memory\n", ""), *unexplained] or not is_refused:
                    self.faults.append(f"{words}: request {number} of {asked} for memory: {told}")

    def misread(self):
        """The words of calls that read pieces and should not, or the other way round."""
        return [f"{word}: pieces are read: {word in self.readers}" for word in sorted(self.readers ^ set(OF_PIECES))]

    def unrefused(self):
        """The words of calls on ledgers that no run refused memory, by keeper."""
        opened = [(word, keeper) for word in ("start", "reopen")
            for keeper in ("sqlite", "files")] + [("load", "files")]
        return [f"{word} is refused nothing over {keeper}" for word, keeper in [*opened, *itertools.product(
            [*OF_KEEPERS, *OF_COMMANDS], ("map", "sqlite", "files"))] if not self.words[word, keeper]]

    def number_of(self, what):
        return sum(count for (which, _, _), count in self.counts.items() if which == what)


def marked(printed):
    """The answers that the driver printed, and the places of those in which a call of a device failed."""
    answers = printed.decode().split("\n")[:-1]
    return answers, [place for place, text in enumerate(answers) if text.endswith(" !")]


def octets_in(answer):
    """What a command printed, in hex."""
    return answer.removesuffix(" !").partition(" | ")[0].partition(" ")[2]


def judge(some, answers, may):
    """Judges the answers to a list. `may` has the words of each refusal that was met in a call, by its place. Returns
    whether a refusal was answered."""
    if len(answers) != len(some.events):
        raise Otherwise(f"{len(answers)} answers to {len(some.events)} calls")
    worlds = [World()]
    for place, (event, answer) in enumerate(zip(some.events, answers)):
        if event[0] in ("reopen", "left"):
            worlds = [other for world in worlds for other in world.settled()]
        agreeing, first = [], None
        for world in worlds:
            try:
                world.judge(event, answer.removesuffix(" !"), may.get(place, []))
                agreeing.append(world)
            except Otherwise as otherwise:
                first = first or otherwise
        worlds = agreeing
        if not worlds:
            raise Otherwise(f"call {place}, {event[0]}: {first}")
    return worlds[0].has_refused


def is_refusal(answer):
    """Whether an answer is nothing but a refusal, also one that is printed."""
    status, _, octets = answer.partition(" ")
    return status == "refused:" or octets.startswith((b"bag: ".hex(), b"unknown algorithm ".hex()))


def may_of(device):
    """The words for a failed call of this device."""
    return {"reader": {"reader", "read"}, "courier": {"reader", "courier"}, "supplier": {"reader", "supplier"},
            "sink": {"sink"},
            "tree": {"tree", "files"}, "writer": {"writer"}, **dict.fromkeys([*KEEPER, *FILES], {"store"})}[device]


def memory_of(keeper, word):
    """The words for a refused request. The files of a database, and those of a sink, are in memory: if they can't grow,
    these fail."""
    grows = keeper in ("sqlite", "files") and word not in READING
    return {"memory"} | ({"store"} if grows else set()) | ({"sink"} if "sink" in USES.get(word, []) else set())


def main(driver, program, library, is_all=False):
    with tempfile.TemporaryDirectory() as folder:
        runs, names = Runs(os.path.abspath(driver), os.path.abspath(library), folder, is_all), []
        for some in lists():
            names.append(some.name)
            runs.turn += 1
            runs.all_of(some)
        for some in stores():
            names.append(some.name)
            runs.write(some)
            runs.attempt(some, "breaking", "store", runs.given)
        runs.read_words(os.path.abspath(program))
    runs.faults += runs.unrefused() + runs.misread()
    names = list(dict.fromkeys(names))
    for name in names:
        print(f"{name}: " + ", ".join(f"{count} {what} over {keeper}"
            for (what, which, keeper), count in runs.counts.items() if which == name))
    print(*runs.faults, sep="\n", end="\n" if runs.faults else "")
    kinds = ["memory", "words", "store", *KEEPER, *FILES, *DEVICES]
    failed = ", ".join(f"{runs.number_of(device)} of a {device}" for device in kinds[3:])
    print(f"{len(names)} lists of calls: {runs.number_of('memory')} requests for memory refused,"
          f" of which {runs.told} are told, and calls failed: {failed};"
          f" {runs.number_of('store')} calls of a store gave something else;"
          f" {len(WORDS)} command lines: {runs.number_of('words')} requests refused")
    return 1 if runs.faults or not all(map(runs.number_of, kinds)) else 0


if __name__ == "__main__":
    words = sys.argv[1:]
    sys.exit(main(*words[1:], is_all=True) if words[0] == "--all" else main(*words))
