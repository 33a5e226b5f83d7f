"""A second implementation of the commands of `bag`: what each prints, its status, and what it leaves behind. Written
from docs/FORMAT.md and docs/bag.1; it uses the rules of tests/model/reference.py, tests/model/reference_receiver.py
and tests/model/reference_writer.py. tests/random_commands.py compares the two.

The numbers in brackets are sections of docs/FORMAT.md. Arguments, names, paths and contents are octets; lines are
texts.
"""
import collections
import os
import shutil
import sqlite3
import stat
import tempfile

import reference
import reference_receiver
import reference_writer
from reference_receiver import Refused, printed

# The number of operands of each command; the last one may be repeated.
OPERANDS = {b"check": (1, False), b"make": (3, True), b"begin": (3, False), b"intake": (3, True), b"report": (2, False),
            b"audit": (2, False), b"fetch": (3, False), b"export": (3, False), b"list": (1, False)}
# The columns of each table, by the number of the format [18].
BOTH = {"meta": "k, v", "transfer": "id, name", "tag": "transfer, path, body"}
COLUMNS = {1: {**BOTH, "item": "transfer, path, size, body"},
           2: {**BOTH, "held": "id, transfer, path, size", "piece": "item, n, body"}}
# The tables whose rows have owners: the column that says which, and the table of the owners.
OWNERS = {"tag": ("transfer", "transfer"), "item": ("transfer", "transfer"), "held": ("transfer", "transfer"),
    "piece": ("item", "held")}
PIECE = 65536

# The lines, if they are known, and the status. `made` is the octets of the files, by path, in the folder that is made.
Answer = collections.namedtuple("Answer", ["lines", "status", "made"], defaults=[None])


def fault(line, status=3):
    return reference.End(["bag: " + line], status)


def request(words):
    """The command's name and its operands; None if the arguments are no command [14]."""
    if not all(map(reference.is_utf8, words)) or words[0] not in OPERANDS:
        return None
    place = words.index(b"--") if b"--" in words else len(words)
    operands = words[1:place] + words[place + 1:]
    if any(len(word) > 1 and word.startswith(b"-") for word in words[1:place]):
        return None
    number, repeats = OPERANDS[words[0]]
    if len(operands) < number or (len(operands) > number and not repeats):
        return None
    return words[0].decode(), operands


def asks_for_help(words):
    place = words.index(b"--") if b"--" in words else len(words)
    return words[0] == b"help" or any(word in (b"-h", b"--help") for word in words[:place])


def tree(folder):
    """What a folder holds as a bag."""
    if not folder:
        raise fault("files")
    return reference.Folder(folder)


def payload_below(folder, below=b""):
    """The files of a payload by their paths in the bag; one of them may be named `data` in the folder [14]."""
    files = {}
    try:
        for name in os.listdir(os.path.join(folder, below)):
            path = os.path.join(below, name)
            place = os.path.join(folder, path)
            mode = os.lstat(place).st_mode
            if stat.S_ISDIR(mode):
                files.update(payload_below(folder, path))
            elif stat.S_ISREG(mode) and reference.is_utf8(name) and len(b"data/" + path) <= reference.PATH_LIMIT:
                with open(place, "rb") as file:
                    files[b"data/" + path] = file.read()
            else:
                raise OSError
    except OSError:
        raise fault("files") from None
    return files


def refuse_unless_new(folder):
    """A folder that a command makes must not exist yet in any form, and its parent must exist."""
    name = folder.rstrip(b"/")
    if not name or os.path.lexists(name) or not os.path.isdir(os.path.dirname(name) or b"."):
        raise fault("files")


def supplied(folder, path):
    """The octets of the file at this path below the folder; None if nothing exists there. No link below the folder is
    followed."""
    place = folder
    *directories, name = path.split(b"/")
    for directory in directories:
        place = os.path.join(place, directory)
        if not os.path.lexists(place) or stat.S_ISREG(os.lstat(place).st_mode):
            return None
        if not stat.S_ISDIR(os.lstat(place).st_mode):
            raise Refused("supplier")
    place = os.path.join(place, name)
    if not os.path.lexists(place):
        return None
    if not stat.S_ISREG(os.lstat(place).st_mode):
        raise Refused("supplier")
    with open(place, "rb") as file:
        return file.read()


def copy_ledger(file, copy):
    """Copies a database, and its log if it has one."""
    for end in "", "-wal":
        if not end or os.path.lexists(file + end):
            shutil.copyfile(file + end, copy + end)


def is_log_alone(ledger):
    """Whether there is no file, or an empty one, beside a log that is longer than that of a new ledger."""
    file = os.fsencode(os.path.realpath(ledger))
    log, is_there = file + b"-wal", os.path.lexists(file) and not (os.path.isfile(file) and os.path.getsize(file) == 0)
    return not is_there and os.path.isfile(log) and os.path.getsize(log) > 41


def is_without_tables(file):
    """Whether this is a database without tables; an empty file is one."""
    return os.path.isfile(file) and number_of_tables(file) == 0


def number_of_tables(file):
    """The number of tables of a database; None if it isn't a database."""
    if os.path.getsize(file) == 1:
        # sqlite3 takes it for an empty file.
        return None
    try:
        with Database(file) as database:
            return len(database.ask("SELECT name FROM sqlite_schema WHERE type = 'table'"))
    except sqlite3.DatabaseError:
        return None


def is_first(file):
    """Whether this is a database that names format 1."""
    try:
        with Database(file) as database:
            return database.ask("SELECT k, v FROM meta") == [("bag-ledger", 1)]
    except sqlite3.DatabaseError:
        return False


class Database:
    """A copy of a database, to be read in its place: reading a database that has a log changes both."""

    def __init__(self, file):
        self.folder = tempfile.mkdtemp()
        copy_ledger(os.fsdecode(file), os.path.join(self.folder, "copy"))
        self.connection = sqlite3.connect(os.path.join(self.folder, "copy"))

    def __enter__(self):
        return self

    def __exit__(self, *_):
        self.connection.close()
        shutil.rmtree(self.folder)

    def ask(self, text, *values):
        return self.connection.execute(text, values).fetchall()


def read_ledger(file):
    """The receiver of the transfers that a ledger holds [18]."""
    try:
        if not os.path.isfile(file):
            raise fault("not a ledger")
        with Database(file) as database:
            return held_in(database, format_of(database))
    except sqlite3.DatabaseError:
        raise fault("not a ledger") from None


def format_of(database):
    """The number of the format. Its tables are those of a ledger, and belong together [18.5, 18.6]."""
    rows = database.ask("SELECT k, v FROM meta")
    if rows not in ([("bag-ledger", 1)], [("bag-ledger", 2)]):
        raise fault("not a ledger")
    number = rows[0][1]
    for name, columns in COLUMNS[number].items():
        database.ask(f"SELECT {columns} FROM {name} LIMIT 1")
        column, owner = OWNERS.get(name, ("", ""))
        if owner and database.ask(f"SELECT 1 FROM {name} WHERE {column} NOT IN (SELECT id FROM {owner})"):
            raise fault("not a ledger")
    return number


def held_in(database, number):
    receiver = reference_receiver.Receiver()
    for transfer, name in sorted(database.ask("SELECT id, name FROM transfer"), key=lambda row: row[1].encode()):
        tags = {path.encode(): body for path, body in database.ask("SELECT path, body FROM tag WHERE transfer = ?",
            transfer)}
        try:
            found = reference_receiver.Transfer(reference_receiver.tags_of(tags.items()))
        except Refused:
            raise fault(f"damaged {printed(name.encode())} ") from None
        text = "SELECT path, rowid, size FROM item" if number == 1 else "SELECT path, id, size FROM held"
        held = database.ask(f"{text} WHERE transfer = ?", transfer)
        for path, item, size in sorted((path.encode(), item, size) for path, item, size in held):
            octets = whole_content(database, item, size) if number == 1 else content(database, item, size)
            if octets is None or not passes(found, path, octets):
                raise fault(f"damaged {printed(name.encode())} {printed(path)}")
            found.held[path] = octets
        receiver.transfers[name.encode()] = found
    return receiver


def passes(transfer, path, octets):
    try:
        transfer.test(path, octets)
    except Refused:
        return False
    return True


def content(database, item, size):
    """The octets of a payload file; None if its size and its pieces don't agree [18.3]."""
    octets = b""
    for number, (place, piece) in enumerate(database.ask("SELECT n, body FROM piece WHERE item = ? ORDER BY n", item)):
        if place != number or len(piece) != min(PIECE, size - PIECE * number) or not piece:
            return None
        octets += piece
    return octets if len(octets) == size else None


def whole_content(database, item, size):
    """The same in format 1 [18.6]."""
    [(octets,)] = database.ask("SELECT body FROM item WHERE rowid = ?", item)
    return octets if len(octets) == size else None


class Commands:
    """The ledgers, by the names of their files, and which of them another program has locked. No name is that of a
    link."""

    def __init__(self):
        self.receivers, self.locked = {}, set()

    def answer(self, words):
        """What is printed, the status, and what is made. To be called before the program does its work."""
        if not words:
            return Answer(["bag: check, make, begin, intake, report, audit, fetch, export, list"], 64)
        if asks_for_help(words):
            return Answer(None, 0)
        asked = request(words)
        if asked is None:
            return Answer([], 64)
        command, operands = asked
        try:
            return getattr(self, command)(*operands)
        except reference.End as end:
            return Answer(end.lines, end.status)

    def opened(self, ledger):
        """The receiver of the ledger in this file."""
        file = os.path.realpath(ledger)
        if file in self.locked or is_log_alone(file):
            raise fault("store")
        if file not in self.receivers:
            self.receivers[file] = read_ledger(file)
        return self.receivers[file]

    def made(self, ledger):
        """The receiver of a ledger that is made in this file. A file that didn't exist is removed again unless the
        status is 0; one that existed stays, and is a ledger from then on."""
        if not os.path.isdir(os.path.dirname(ledger) or b"."):
            raise fault("store")
        if os.path.lexists(ledger):
            self.receivers[os.path.realpath(ledger)] = reference_receiver.Receiver()
            return self.opened(ledger)
        return reference_receiver.Receiver()

    def check(self, folder):
        return Answer(*reference.check(folder) if folder else (["bag: files"], 3))

    def make(self, source, destination, *algorithms):
        if not source:
            raise fault("files")
        files = payload_below(source)
        refuse_unless_new(destination)
        for algorithm in algorithms:
            if algorithm not in reference.ALGORITHMS:
                return Answer(["unknown algorithm " + reference.spell(algorithm).decode()], 64)
        names = [algorithm.decode() for algorithm in algorithms]
        order = reference_writer.Order({path.decode(): octets for path, octets in files.items()}, names)
        _, made = order.answer()
        octets, number = order.oxum().split(".")
        return Answer([f"made {number} files, {octets} octets"], 0, made)

    def begin(self, ledger, name, folder):
        if is_log_alone(ledger):
            raise fault("store")
        is_new = not os.path.lexists(ledger) or is_without_tables(ledger)
        receiver = self.made(ledger) if is_new else self.opened(ledger)
        bag = tree(folder)
        answer = receiver.begin(name,
            [(path, bag.octets(path)) for path in bag.paths if not reference.is_payload(path)])
        if answer in ("new", "again"):
            self.receivers[os.path.realpath(ledger)] = receiver
            return Answer([answer], 0)
        if answer.startswith("refused: outside: "):
            return Answer([answer.removeprefix("refused: ")], 2)
        for cause in "refused: tag path", "refused: tag too large":
            answer = cause if answer.startswith(cause) else answer
        return Answer([answer], 1)

    def intake(self, ledger, name, *folders):
        receiver = self.opened(ledger)
        lines = [deliver(receiver, name, path, bag.octets(path)) for bag in list(map(tree, folders))
            for path in bag.payload]
        return Answer(lines, 1 if any(line.startswith("refused ") for line in lines) else 0)

    def report(self, ledger, name):
        lines = transfer_of(self.opened(ledger), name).report()
        return Answer(lines, 0 if lines == ["valid"] else 1)

    def audit(self, ledger, name):
        return self.report(ledger, name)

    def fetch(self, ledger, name, folder):
        receiver = self.opened(ledger)
        if not os.path.isdir(folder):
            raise fault("files")
        transfer = transfer_of(receiver, name)
        lines = []
        for path in transfer.fetch:
            if path not in transfer.held:
                lines.append(ask_for(receiver, name, path, folder))
        is_failed, is_refused = (any(line.startswith("refused ") and line.endswith(end) for line in lines)
            for end in (": supplier", ""))
        return Answer(lines, 3 if is_failed else 1 if is_refused else 0)

    def export(self, ledger, name, folder):
        receiver = self.opened(ledger)
        refuse_unless_new(folder)
        transfer = transfer_of(receiver, name)
        files = {**transfer.tags, **transfer.held}
        return Answer([f"exported {len(files)} files"], 0, files)

    def list(self, ledger):
        return Answer([printed(name) for name in self.opened(ledger).names()], 0)


def transfer_of(receiver, name):
    """The transfer with this name, which must be valid [16.1]."""
    if not reference_receiver.NAME.fullmatch(name) or name not in receiver.transfers:
        raise fault("no transfer", 1)
    return receiver.transfers[name]


def deliver(receiver, name, path, octets):
    """Delivers a payload file; the line is the outcome."""
    is_name = reference_receiver.NAME.fullmatch(name)
    answer, _, cause = receiver.deliver(name if is_name else b"", path, octets).partition(": ")
    return f"{answer} {printed(path)}" + (f": {cause}" if cause else "")


def ask_for(receiver, name, path, folder):
    """Asks a folder for a payload file, and delivers it if the folder has it; the line is the outcome."""
    try:
        octets = supplied(folder, path)
    except Refused as cause:
        return f"refused {printed(path)}: {cause}"
    if octets is None:
        return f"refused {printed(path)}: not supplied"
    return deliver(receiver, name, path, octets)


def folder_of(files):
    """The files of a folder that is made for a bag, and its directories: `data`, and those that files need."""
    directories = {b"data"}
    for path in files:
        parts = path.split(b"/")[:-1]
        directories.update(b"/".join(parts[:number]) for number in range(1, len(parts) + 1))
    return files, directories


def found_in(folder):
    """The octets of each file below a folder by path, and the directories; None for what is neither."""
    files, directories, left = {}, set(), [b""]
    while left:
        below = left.pop()
        for name in os.listdir(os.path.join(folder, below)):
            path = os.path.join(below, name)
            place = os.path.join(folder, path)
            mode = os.lstat(place).st_mode
            if stat.S_ISDIR(mode):
                directories.add(path)
                left.append(path)
            elif stat.S_ISREG(mode):
                with open(place, "rb") as file:
                    files[path] = file.read()
            else:
                files[path] = None
    return files, directories
