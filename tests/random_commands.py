#!/usr/bin/env python3
"""random_commands.py PROGRAM COUNT SEED [NUMBER]: makes COUNT runs of 8 to 20 random commands of the program on ledgers
and folders. It compares each line and status with those of tests/model/reference_commands.py, each folder that a
command makes, octet by octet, and after each run each ledger as sqlite3 reads it. The same seed makes the same runs;
with NUMBER only that run is made. A run that differs is reported with its commands, and its folder is kept.
"""
import collections
import os
import random
import re
import shutil
import sqlite3
import sys
import tempfile
import types

import offers
import random_bags
import reference
import reference_commands
from explaining import is_explained
from ledger_files import TO_FIRST, alter
from random_bags import sometimes
from reference_receiver import Receiver
from running import run

GOOD_NAMES = offers.GOOD_NAMES
BAD_NAMES = [name for name in offers.BAD_NAMES if b"\0" not in name]
FOLDER_NAMES = [b"in", b"two words", b"line\nfeed", b"100%", b"\xc3\xa9", b"*", b".hidden", b"-"]
# What is used in place of a folder, or isn't one.
NO_FOLDERS = [b"", b"none", b"none/none", b"text", b"text/none", b"nowhere", b"empty"]
# What is used in place of a ledger, or may become one.
OTHER_LEDGERS = [b"new ledger", b"empty", b"no tables", b"text", b"cut", b"application", b"some folder",
                 b"linked ledger", b"none/ledger",
                 b"text/ledger"]
# The lines by which a ledger is refused.
LEDGERS = ("bag: not a ledger", "bag: damaged", "bag: store")
# What another program may have done to a copy of a ledger. Some of it leaves a ledger.
CHANGES = [
    "UPDATE held SET size = size - 1", "UPDATE held SET size = size + 65536 WHERE id = (SELECT max(id) FROM held)",
    "UPDATE piece SET body = zeroblob(length(body)) WHERE item = (SELECT max(item) FROM piece)",
    "UPDATE piece SET n = n + 1 WHERE item = (SELECT min(item) FROM piece)",
    "INSERT INTO piece SELECT id, 9, x'00' FROM held", "DELETE FROM piece WHERE item = (SELECT min(item) FROM piece)",
    "INSERT INTO piece VALUES (99999, 0, x'00')", "UPDATE held SET path = path || 'x'",
    "UPDATE held SET path = 'note' WHERE id = (SELECT max(id) FROM held)",
    "INSERT INTO held SELECT 99999, max(id), 'data/none', 0 FROM transfer",
    "INSERT INTO held VALUES (99999, 99999, 'data/none', 0)", "DELETE FROM tag WHERE path = 'bagit.txt'",
    "UPDATE tag SET path = 'bag-info.txt' WHERE path = 'bagit.txt'",
    "UPDATE tag SET body = x'00' WHERE transfer = (SELECT max(id) FROM transfer)", "DELETE FROM tag",
    "INSERT INTO tag SELECT max(id), 'data/note', x'00' FROM transfer", "INSERT INTO tag VALUES (99999, 'note', x'00')",
    "DELETE FROM transfer", "DELETE FROM transfer WHERE id = (SELECT max(id) FROM transfer)", *[TO_FIRST] * 4,
    TO_FIRST + "; UPDATE item SET body = zeroblob(length(body))", TO_FIRST + "; UPDATE item SET size = size - 1",
    TO_FIRST + "; INSERT INTO item VALUES (99999, 'data/none', 0, x'')",
    "UPDATE meta SET v = 1", "UPDATE meta SET v = 3",
    "UPDATE meta SET k = 'ledger'", "DELETE FROM meta", "INSERT INTO meta VALUES ('more', 2)", "DROP TABLE piece",
    "DROP TABLE meta", "ALTER TABLE held RENAME COLUMN size TO length",
] + ["VACUUM", "UPDATE held SET id = id + 1000; UPDATE piece SET item = item + 1000",
     "DELETE FROM piece; DELETE FROM held",
     "CREATE TABLE more (x)",
     "UPDATE transfer SET id = id + 7; UPDATE tag SET transfer = transfer + 7; UPDATE held SET transfer = "
     "transfer + 7", "UPDATE transfer SET name = name || '%' || char(10) || ' T'"] * 3


class Otherwise(Exception):
    """The program did something different from what it must do."""


def offered(rng):
    """Tag files and payload files: most open a transfer, and of these half have something to fetch."""
    asks = sometimes(rng, 50)
    while True:
        offer = offers.offered(rng)
        receiver = Receiver()
        opens = receiver.begin(b"t", offer.tags) == "new"
        if not asks or (opens and receiver.transfers[b"t"].fetch):
            return offer


def fits(path):
    """Whether a folder may hold a file with this path."""
    return reference.is_path(path) and all(len(part) <= 200 for part in path.split(b"/")) and len(path) < 2000


def link(target):
    return lambda place: os.symlink(target, place)


class Run:
    """A run in the folder where the process is: what may be sent, and what was done so far."""

    def __init__(self, rng, program):
        self.rng, self.program, self.commands = rng, program, reference_commands.Commands()
        names = rng.sample(GOOD_NAMES, rng.choice([1, 2, 2, 3]))
        self.offers = {name: offered(rng) for name in names}
        self.number, self.done, self.bags, self.kinds = 0, [], [], collections.Counter()
        with open(b"text", "wb") as file:
            file.write(b"a text file, and longer than the header of a database" * 99)
        os.symlink(b"gone", b"nowhere")

    def offer(self):
        return self.rng.choice(list(self.offers.values()))

    # Words.

    def some_name(self):
        if sometimes(self.rng, 8):
            return self.rng.choice(BAD_NAMES + GOOD_NAMES)
        return self.rng.choice(list(self.offers))

    def some_ledger(self):
        if not sometimes(self.rng, 20):
            return b"ledger"
        if sometimes(self.rng, 65) and os.path.isfile(b"ledger"):
            return self.changed_ledger()
        ledger = self.rng.choice(OTHER_LEDGERS)
        if not os.path.lexists(ledger):
            self.put_ledger(ledger)
        return ledger

    def put_ledger(self, ledger):
        if ledger == b"empty":
            open(ledger, "xb").close()
        elif ledger == b"some folder":
            os.mkdir(ledger)
        elif ledger == b"linked ledger" and os.path.isfile(b"ledger"):
            os.symlink(b"ledger", ledger)
        elif ledger == b"cut" and os.path.isfile(b"ledger"):
            with open(b"ledger", "rb") as whole, open(ledger, "xb") as part:
                part.write(whole.read(self.rng.choice([1, 99, 5000])))
        elif ledger in (b"no tables", b"application"):
            tables = "CREATE TABLE meta (k TEXT, v TEXT); CREATE TABLE held (id INTEGER PRIMARY KEY, what TEXT)"
            alter(ledger, tables + ("; DROP TABLE meta; DROP TABLE held" if ledger == b"no tables" else ""))

    def changed_ledger(self):
        """A copy of the ledger that another program has changed."""
        self.number += 1
        copy = b"copy %d" % self.number
        reference_commands.copy_ledger("ledger", copy.decode())
        alter(copy, self.rng.choice(CHANGES))
        return copy

    def new_name(self):
        self.number += 1
        return self.rng.choice(FOLDER_NAMES) + b" %d" % self.number

    def put(self, files, specials=(), directories=()):
        """A new folder with these files, if they can exist next to each other, and after them what isn't a file."""
        name = self.new_name()
        files = {path: octets for path, octets in files.items() if fits(path)}
        random_bags.Bag.write(types.SimpleNamespace(files=files, directories=directories, specials=dict(specials)),
            name)
        return name

    def worded(self, name):
        """The folder under another name, and now and then another folder."""
        if sometimes(self.rng, 7):
            return self.rng.choice(NO_FOLDERS)
        if sometimes(self.rng, 7) and not os.path.lexists(name + b" link"):
            os.symlink(name, name + b" link")
            name += b" link"
        word = self.rng.choice([b"%s", b"%s", b"%s", b"%s/", b"./%s"]) % name
        return b"./" + word if word.startswith(b"-") else word

    def special(self, percent):
        """What isn't allowed in a bag, at one of three places."""
        if not sometimes(self.rng, percent):
            return {}
        places = b"data/special", b"special", b"data/\xff"
        return {self.rng.choice(places): self.rng.choice([os.mkfifo, link(b"data"), link(b"none"), link(b"../text")])}

    # Folders.

    def tags_folder(self):
        rng, offer = self.rng, self.offer()
        tags = rng.choice([offer.tags] * 14 + [offer.other_tags()] * 8 + [offers.Offer(rng).tags])
        files = {**dict(tags), **(dict(offer.payload) if sometimes(rng, 40) else {})}
        if sometimes(rng, 1):
            files[b"data"] = b""
        return self.put(files, self.special(4), [b"data"] * rng.randrange(2))

    def payload_folder(self):
        rng, offer = self.rng, self.offer()
        whole = dict(offer.everything()) if offer.payload else {}
        some = dict(rng.sample(list(whole.items()), rng.randrange(len(whole) + 1)))
        files = rng.choice([whole, some, some, {**some, **dict(offer.delivery() for _ in range(rng.randrange(4)))}])
        return self.put({**files, **(dict(offer.tags) if sometimes(rng, 20) else {})}, self.special(4))

    def supplier_folder(self):
        """Some of what is to be fetched is there, some is changed, and some has something else in its place or on its
        way."""
        rng, offer = self.rng, self.offer()
        files, specials, directories = {}, self.special(10), []
        for path, octets in offer.payload:
            way = rng.randrange(14)
            if way < 7:
                files[path] = octets
            elif way < 9:
                files[path] = offers.changed(rng, octets)
            elif way == 9 and fits(path):
                specials[path] = rng.choice([os.mkfifo, link(b"../../text"), link(b"none")])
            elif way == 10 and fits(path):
                directories.append(path)
            elif way == 11 and path.count(b"/") > 1:
                files[path.rpartition(b"/")[0]] = octets
            elif way == 12 and path.count(b"/") > 1:
                specials[path.rpartition(b"/")[0]] = link(b"..")
        if sometimes(rng, 3):
            files, directories, specials = {b"data": b""}, [], {}
        return self.put(files, specials, directories)

    def some_bag(self):
        """A folder that was made for a bag, or another with a bag."""
        if self.bags and sometimes(self.rng, 70):
            return self.rng.choice(self.bags)
        offer = self.offer()
        files = {**dict(offer.tags), **dict(offer.payload)}
        if offer.payload and sometimes(self.rng, 30):
            path, octets = self.rng.choice(offer.payload)
            files[path] = offers.changed(self.rng, octets)
        return self.put(files, self.special(4), [b"data"])

    def new_folder(self):
        """The name of a folder to be made."""
        rng, name = self.rng, self.new_name()
        if sometimes(rng, 15):
            return rng.choice([*NO_FOLDERS, *self.bags, b"text", name + b"/none"])
        return rng.choice([b"./%s", b"./%s/"]) % name

    # Commands.

    def begin(self):
        folder = self.some_bag() if sometimes(self.rng, 15) else self.tags_folder()
        return [b"begin", self.some_ledger(), self.some_name(), self.worded(folder)]

    def intake(self):
        folders = [self.some_bag() if sometimes(self.rng, 15) else self.payload_folder()
            for _ in range(self.rng.choice([1, 1, 2, 3]))]
        return [b"intake", self.some_ledger(), self.some_name(), *map(self.worded, folders)]

    def fetch(self):
        return [b"fetch", self.some_ledger(), self.some_name(), self.worded(self.supplier_folder())]

    def export(self):
        return [b"export", self.some_ledger(), self.some_name(), self.new_folder()]

    def make(self):
        offer = self.offer()
        files = {path.removeprefix(b"data/"): octets for path, octets in offer.payload}
        source = self.put({**files, **({b"data": b"x"} if sometimes(self.rng, 20) else {})}, self.special(6))
        algorithms = self.rng.choices(list(reference.ALGORITHMS) * 9 + [b"sha224", b"SHA1", b""],
            k=self.rng.choice([1, 1, 2, 5]))
        return [b"make", self.worded(source), self.new_folder(), *algorithms]

    def check(self):
        return [b"check", self.worded(self.some_bag())]

    def view(self):
        return [self.rng.choice([b"report", b"audit"]), self.some_ledger(), self.some_name()]

    def names(self):
        return [b"list", self.some_ledger()]

    def unusual(self):
        """Arguments that are no command, or that spell one in another way."""
        rng, words = self.rng, self.some_command()
        place = rng.randrange(len(words) + 1)
        return rng.choice([
            [], words[:place], [*words[:place], b"more", *words[place:]], [*words[:place], b"--no", *words[place:]],
            [words[0].upper(), *words[1:]], [words[0], b"--", *words[1:]], [words[0], b"--", *words[1:]],
            [*words, b"--"], [*words[:-1], b"\xff"], [words[0], b"--help"], [b"help", words[0]]])

    def some_command(self):
        ways = [self.begin] * 4 + [self.intake] * 6 + [self.fetch] * 4 + [self.export] * 2 + [self.view] * 4
        return self.rng.choice(ways + [self.check] * 2 + [self.names] * 2 + [self.make])()

    def step(self, place):
        """One command, compared with the second program. The first ones are those that most others need."""
        if place < len(self.offers):
            name = list(self.offers)[place]
            words = [b"begin", b"ledger", name, self.put(dict(self.offers[name].tags), (), [b"data"])]
            words[-1] = b"./" + words[-1]
        else:
            words = self.unusual() if sometimes(self.rng, 5) else self.some_command()
        ledger = words[1] if len(words) > 1 else b""
        is_locked = sometimes(self.rng, 4) and os.path.isfile(ledger) and reference_commands.number_of_tables(ledger)
        self.compare(words, {os.path.realpath(ledger)} if is_locked else set())

    def compare(self, words, locked):
        self.done.append(words)
        before, octets = all_names(), octets_of(words)
        is_first = octets is not None and reference_commands.is_first(words[1])
        self.commands.locked = locked
        wanted = self.commands.answer(words)
        # A part of a ledger may be reported as one that can't be read.
        allowed = ([wanted, wanted._replace(lines=["bag: store"])]
            if b"cut" in words and wanted.lines == ["bag: not a ledger"] else [wanted])
        # A process that opens and closes a file that it has locked unlocks it, so nothing else is done in the meantime.
        others = [another_program(ledger) for ledger in locked]
        ran = run([self.program, *words])
        for other in others:
            other.close()
        self.judge_text(ran, allowed[-1] if ran.stdout == b"bag: store\n" else wanted)
        made = self.judge_made(words, wanted)
        if all_names() != before | made:
            raise Otherwise(f"there are {sorted(all_names() ^ (before | made))} more, or less")
        # A ledger of format 1 is moved before the folders are opened and the transfer is looked for.
        refusals = LEDGERS if is_first else "bag: "
        if octets is not None and wanted.lines and wanted.lines[0].startswith(refusals) and octets_of(words) != octets:
            raise Otherwise("the ledger is changed")
        for line in wanted.lines or [""]:
            self.kinds[kind_of(words, line, wanted.status)] += 1

    def judge_text(self, ran, wanted):
        lines = None if wanted.lines is None else "".join(line + "\n" for line in wanted.lines).encode()
        is_usage = wanted.status == 64 and not wanted.lines
        is_text = ran.stdout.endswith(b"\n") if lines is None else ran.stdout == lines
        printed = ran.stdout.decode(errors="replace").splitlines()
        is_said = bool(ran.stderr) if is_usage else is_explained(printed, ran.returncode, ran.stderr)
        if not is_text or ran.returncode != wanted.status or not is_said:
            raise Otherwise(f"the program ({ran.returncode}):\n{(ran.stdout + ran.stderr).decode(errors='replace')}\n"
                            f"the reference ({wanted.status}):\n{(lines or b'').decode()}")

    def judge_made(self, words, wanted):
        """The names of everything that exists now."""
        made = set()
        if wanted.made is not None:
            operand = reference_commands.request(words)[1][-1 if words[0] == b"export" else 1]
            folder = operand.strip(b"/").removeprefix(b"./")
            if reference_commands.found_in(folder) != reference_commands.folder_of(wanted.made):
                raise Otherwise(f"{folder} holds other files")
            self.bags.append(folder)
            made.add(folder)
        if words and words[0] == b"begin" and wanted.status == 0 and wanted.lines:
            made.add(reference_commands.request(words)[1][0])
        return made

    def judge_ledgers(self):
        """Each ledger as sqlite3 reads it."""
        for ledger, receiver in self.commands.receivers.items():
            database = sqlite3.connect(ledger)
            faults = [database.execute(f"PRAGMA {check}").fetchall()
                for check in ("integrity_check", "foreign_key_check")]
            database.close()
            if faults != [[("ok",)], []]:
                raise Otherwise(f"sqlite3 says of {ledger}: {faults}")
            try:
                is_same = held(reference_commands.read_ledger(ledger)) == held(receiver)
            except reference.End as end:
                raise Otherwise(f"{ledger}: {end.lines}") from None
            if not is_same:
                raise Otherwise(f"{ledger} holds other transfers or files")


def another_program(ledger):
    """A process that has locked a ledger."""
    database = sqlite3.connect(ledger, isolation_level=None)
    database.execute("BEGIN EXCLUSIVE")
    return database


def all_names():
    """What there is; the log of a ledger that is there counts as its part."""
    names = set(os.listdir(b"."))
    return {name for name in names if name.removesuffix(b"-wal") == name or name.removesuffix(b"-wal") not in names}


def octets_of(words):
    """Those of the ledger that the words name, if they do and it is a file, and if it isn't one that `begin` makes a
    ledger of."""
    if len(words) > 1 and os.path.isfile(words[1]) and not (words[0] == b"begin"
        and reference_commands.is_without_tables(words[1])):
        with open(words[1], "rb") as file:
            return file.read()
    return None


def held(receiver):
    return {name: (transfer.tags, transfer.held) for name, transfer in receiver.transfers.items()}


def kind_of(words, line, status):
    """What kind of line a command printed: paths, numbers and algorithms don't matter."""
    if status == 64 or line == "":
        return f"words: {status}"
    word = words[0].decode()
    if word == "list" and status == 0:
        return "list: a name"
    line = re.sub("^(taken|repeated|bag: damaged|made|exported|unknown algorithm|refused: clash|outside)[: ].*", r"\1",
        line)
    line = (re.sub("^refused data/.*: (digest|[a-z ]+)( [a-z0-9]+)?$", r"refused PATH: \1", line)
        if word in ("intake", "fetch") else line)
    start = "refused: " if line.startswith("refused: ") else ""
    return f"{word}: {start}{random_bags.shape(line.removeprefix(start))}"


def kinds():
    """The kinds of lines that must occur at least once."""
    views = ["valid", "not complete", "manifest: missing", "bag-info.txt: Payload-Oxum wrong", "bag: no transfer"]
    ledgers = list(LEDGERS)
    some = {
        "begin": ["new", "again", "outside", "bag: files", *ledgers] + [
            f"refused: {why}" for why in ("name", "tag too large", "differs", "clash", "no bagit.txt",
                                          "no payload manifest",
                                          "tagmanifest: missing", "tagmanifest: digest")],
        "intake": ["taken", "repeated", "bag: files", *ledgers] + [
            f"refused PATH: {why}" for why in ("no transfer", "not listed", "length", "digest")],
        "fetch": ["taken", "bag: files", "bag: no transfer", *ledgers] + [
            f"refused PATH: {why}" for why in ("not supplied", "supplier", "length", "digest")],
        "export": ["exported", "bag: files", "bag: no transfer", *ledgers],
        "report": views + ledgers, "audit": views + ledgers, "list": ["a name", *ledgers],
        "check": ["valid", "not complete", "complete, not valid", "bag: files"],
        "make": ["made", "bag: files"],
        "words": ["0", "64"],
    }
    return [f"{command}: {kind}" for command, list_of in some.items() for kind in list_of]


def one_run(program, seed, number):
    """What differed, if anything did; the commands; and how many times each kind of line occurred."""
    rng = random.Random(f"{seed} {number}")
    found = Run(rng, program)
    try:
        for place in range(rng.randint(8, 20)):
            found.step(place)
        found.judge_ledgers()
    except Otherwise as otherwise:
        return str(otherwise), found.done, found.kinds
    return None, found.done, found.kinds


def main(program, count, seed, *only):
    program = os.path.abspath(program)
    all_kinds, commands = collections.Counter(), 0
    numbers = list(map(int, only)) or range(int(count))
    for number in numbers:
        work = tempfile.mkdtemp()
        os.chdir(work)
        otherwise, done, counted = one_run(program, seed, number)
        if otherwise:
            print(f"Run {number} of seed {seed}, in {work}:", *done, otherwise, sep="\n")
            return 1
        shutil.rmtree(work)
        all_kinds += counted
        commands += len(done)
    never = [] if only else [f"never printed: {kind}" for kind in kinds() if not all_kinds[kind]]
    print("\n".join([f"{len(numbers)} runs of {commands} commands: all answered alike", *never]))
    return 1 if never or not commands else 0


if __name__ == "__main__":
    sys.exit(main(*sys.argv[1:]))
