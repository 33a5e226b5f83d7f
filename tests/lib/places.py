"""Ledgers on which the program works: in a folder of their own, and while a command is held up."""
import fcntl
import hashlib
import os
import pathlib
import sqlite3
import subprocess
import time

from explaining import is_explained
from ledger_files import PIECE, change, tags_of
from running import run_limited

URL = "http://example.org/"
ALL = ["begin", "intake", "report", "audit", "fetch", "export", "list"]
SET_PIPE_SIZE = 1031


class Place:
    """A folder with a ledger, next to the folders that the commands are given."""

    def __init__(self, program, work, contents, fetched=()):
        self.program, self.work, self.ledger = program, work, work / "at" / "ledger"
        self.ledger.parent.mkdir(parents=True)
        self.contents, self.bag, self.exports = contents, work / "bag", 0
        self.tags = tags_of(contents)
        if fetched:
            self.tags["fetch.txt"] = "".join(f"{URL}{path} - {path}\n" for path in fetched).encode()
        for path, octets in {**self.tags, **contents}.items():
            (self.bag / path).parent.mkdir(parents=True, exist_ok=True)
            (self.bag / path).write_bytes(octets)

    def run(self, *words, limit=None):
        return run_limited([self.program, *words], limit)

    def words(self, command):
        """The arguments of a command on the ledger and its transfer t1, with a new folder to export to."""
        self.exports += 1
        folders = {"begin": [self.bag], "intake": [self.bag], "fetch": [self.bag],
            "export": [self.work / f"out{self.exports}"]}
        name = [] if command == "list" else ["t1"]
        return [command, self.ledger, *name, *folders.get(command, [])]

    def there(self):
        """What is in the folder of the ledger: each file with its digest, and the folders."""
        digest = lambda file: hashlib.sha256(file.read_bytes()).hexdigest()
        beside = {file.name: (file.lstat().st_mode, file.is_file() and digest(file))
            for file in self.ledger.parent.iterdir()}
        return beside, sorted(file.name for file in self.work.iterdir())

    def refuses(self, *lines, but=()):
        """Each command except those prints exactly one of these lines, with status 3, and changes nothing."""
        before = self.there()
        for command in ALL:
            if command not in but:
                found = self.run(*self.words(command))
                assert found in [(3, [line]) for line in lines], (command, found, lines)
                assert self.there() == before, (command, lines, self.there(), before)

    def sql(self, text):
        database = sqlite3.connect(self.ledger)
        rows = database.execute(text).fetchall()
        database.close()
        return rows

    def changed(self, text):
        """The answer of `list` after this change, which is in the file and not in its log. If it is refused, the file
        stays."""
        change(self.ledger, text)
        before = self.ledger.read_bytes()
        found = self.run("list", self.ledger)
        assert found[0] == 0 or self.ledger.read_bytes() == before, text
        return found


class HeldUp:
    """A command that has done the work for its first line and can't print it."""

    def __init__(self, program, *words):
        self.output, full = os.pipe()
        fcntl.fcntl(full, SET_PIPE_SIZE, PIECE)
        os.set_blocking(full, False)
        self.before = os.write(full, b"." * PIECE)
        os.set_blocking(full, True)
        self.ran = subprocess.Popen([program, *words], stdout=full, stderr=subprocess.PIPE)
        os.close(full)
        until = time.monotonic() + 60
        while not self.writes():
            assert self.ran.poll() is None and time.monotonic() < until, (words, self.ran.poll())
            time.sleep(0.001)

    def writes(self):
        """Whether it waits in a call of the system on its standard output."""
        call = pathlib.Path(f"/proc/{self.ran.pid}/syscall").read_text(encoding="ascii").split()
        return call[1:2] == ["0x1"]

    def kill(self):
        self.ran.kill()
        self.ran.communicate()
        os.close(self.output)

    def go_on(self):
        """The status and the lines."""
        with open(self.output, "rb") as output:
            printed = output.read()
        said = self.ran.communicate()[1]
        lines = printed[self.before :].decode().splitlines()
        assert is_explained(lines, self.ran.returncode, said), said
        return self.ran.returncode, lines
