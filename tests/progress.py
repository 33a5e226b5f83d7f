#!/usr/bin/env python3
"""progress.py PROGRAM: the line of progress on a terminal. At the end it prints how many commands were run.

Each command is run with standard error on a terminal, and once more without one. A terminal of one's own shows what is
written there: how each line of progress reads, and what is left when the command has ended. Sizes and numbers are those
of the files that were made.
"""
import hashlib
import itertools
import os
import pathlib
import pty
import re
import resource
import shutil
import signal
import subprocess
import sys
import tempfile
import tty

from ledger_files import DECLARATION, write_first
from running import run

MEBIBYTE = 1 << 20
UNITS = {"KiB": 1 << 10, "MiB": 1 << 20, "GiB": 1 << 30}
LINE = re.compile(
    r"bag: ([a-z]+(?: in| the ledger,)?) ([0-9,]+)(?: of ([0-9,]+))? files,"
    r" ([0-9.]+) (KiB|MiB|GiB)(?: of ([0-9.]+ [KMG]iB))?")
READING = "reading the ledger,"
# A line is shown after so many octets, and a file counts as so many besides its own.
PER_LINE = 64 * MEBIBYTE
PER_FILE = 64 << 10
FILES = 3_000
LENGTH = 1_500


class Ended:
    """How a command ended: its status, what it wrote on standard output, and on standard error."""

    def __init__(self, status, printed, said):
        self.status, self.printed, self.said = status, printed, said

    def lines(self):
        """The lines of progress in what was said, in order. Each begins with a CR and ends by erasing the rest of its
        line."""
        return [text for text in re.findall(r"\r([^\r\n]+)\x1b\[K", self.said.decode())]

    def screen(self):
        return screen(self.said.decode())

    def erases_lines(self):
        """Whether a line is shown before each erasure, after the one before."""
        is_shown = [text != "" for text in re.findall(r"\r([^\r\n\x1b]*)\x1b\[K", self.said.decode())]
        return all(before or after for before, after in zip([False, *is_shown], is_shown))


def screen(text):
    """The lines that a terminal shows in the end, without empty ones at the end."""
    rows, column = [""], 0
    for part in re.findall(r"\x1b\[K|\r|\n|[^\r\n\x1b]+", text):
        row = rows[-1]
        if part == "\x1b[K":
            rows[-1] = row[:column]
        elif part == "\r":
            column = 0
        elif part == "\n":
            rows.append("")
            column = 0
        else:
            rows[-1] = row[:column].ljust(column) + part + row[column + len(part):]
            column += len(part)
    while rows and not rows[-1].strip():
        rows.pop()
    return rows


class Work:
    """Work of which lines tell: how it is called, how many files are expected, if that is told; the octets read before
    the first file that counts, and the lengths of the files that count, in order; and how many octets are expected, if
    that is told."""

    def __init__(self, told, files, lengths, before=0, octets=None):
        self.told, self.files, self.lengths, self.before, self.octets = told, files, lengths, before, octets


class Place:
    """Where commands are run. Counts them."""

    def __init__(self, program, work):
        self.program, self.work, self.count = program, pathlib.Path(work), 0

    def run(self, *words):
        """The command without a terminal."""
        self.count += 1
        done = run([self.program, *words], timeout=300)
        return Ended(done.returncode, done.stdout, done.stderr)

    def watch(self, *words, output=None, stop=False, limit=None):
        """The same with standard error on a terminal, and standard output there too if `output` is `terminal`. If
        `stop`, the terminal goes away once something is said. Files can't be longer than `limit`."""
        self.count += 1
        ours, theirs = pty.openpty()
        tty.setraw(theirs)
        with open(self.work / "printed", "w+b") as printed:
            child = subprocess.Popen(
                [self.program, *words], stdin=subprocess.DEVNULL, stdout=theirs if output == "terminal" else printed,
                stderr=theirs, preexec_fn=lambda: limited(limit))
            os.close(theirs)
            said = b""
            while piece := read(ours):
                said += piece
                if stop:
                    break
            os.close(ours)
            status = child.wait(timeout=300)
            printed.seek(0)
            return Ended(status, printed.read(), said)

    def print_there(self, *words):
        """The command with standard output on a terminal, and standard error elsewhere."""
        self.count += 1
        ours, theirs = pty.openpty()
        tty.setraw(theirs)
        with open(self.work / "said", "w+b") as said:
            child = subprocess.Popen([self.program, *words], stdin=subprocess.DEVNULL, stdout=theirs, stderr=said)
            os.close(theirs)
            printed = b""
            while piece := read(ours):
                printed += piece
            os.close(ours)
            status = child.wait(timeout=300)
            said.seek(0)
            return Ended(status, printed, said.read())

    def first_line(self, *words):
        """The first line of progress of the command, which is killed then."""
        self.count += 1
        ours, theirs = pty.openpty()
        tty.setraw(theirs)
        child = subprocess.Popen([self.program, *words], stdin=subprocess.DEVNULL, stdout=subprocess.DEVNULL,
            stderr=theirs)
        os.close(theirs)
        said = b""
        while b"\x1b[K" not in said and (piece := read(ours)):
            said += piece
        child.kill()
        child.wait(timeout=300)
        os.close(ours)
        return Ended(child.returncode, b"", said).lines()[0]


def limited(limit):
    """Limits the files of this process."""
    if limit:
        signal.signal(signal.SIGXFSZ, signal.SIG_IGN)
        resource.setrlimit(resource.RLIMIT_FSIZE, (limit, limit))


def read(terminal):
    """What is said next; nothing once all that had the terminal open have ended."""
    try:
        return os.read(terminal, 65_536)
    except OSError:
        return b""


def bag(folder, contents):
    """A valid bag of these payload files, with a manifest. Returns the octets of its tag files."""
    lines = []
    for path, octets in contents.items():
        (folder / path).parent.mkdir(parents=True, exist_ok=True)
        (folder / path).write_bytes(octets)
        lines.append(f"{hashlib.sha256(octets).hexdigest()}  {path}\n".encode())
    (folder / "bagit.txt").write_bytes(DECLARATION)
    (folder / "manifest-sha256.txt").write_bytes(b"".join(lines))
    return len(DECLARATION) + sum(map(len, lines))


def number(text):
    assert re.fullmatch(r"[0-9]{1,3}(,[0-9]{3})*", text), text
    return int(text.replace(",", ""))


def size(octets):
    """This many octets as a line tells them."""
    unit = next(unit for unit in ("GiB", "MiB", "KiB") if octets >= UNITS[unit] or unit == "KiB")
    return f"{octets // UNITS[unit]} KiB" if unit == "KiB" else f"{octets * 10 // UNITS[unit] / 10} {unit}"


def follow(lines, work):
    """Checks the lines of this work. A line can be written at the start of a file or while it is read, and once more
    before all files if the octets that are expected are enough for one."""
    ends = [work.before]
    for length in work.lengths:
        ends.append(ends[-1] + length)
    counted, last = [], 0
    for line in lines:
        told, files, of, shown, unit, total = LINE.fullmatch(line).groups()
        files = number(files)
        assert told == work.told and (of and number(of)) == work.files, line
        assert total == (None if work.octets is None else size(work.octets)), line
        assert (unit == "KiB") == ("." not in shown) and float(shown) < 1024, line
        octets, rounded = float(shown) * UNITS[unit], UNITS[unit] / (1 if unit == "KiB" else 10)
        assert ends[max(files - 1, 0)] - rounded < octets <= ends[files], (line, ends[files - 1], ends[files])
        weight = files * PER_FILE + octets
        assert weight >= last and files <= len(work.lengths), line
        last = weight
        counted.append(weight)
    if (work.octets or 0) >= PER_LINE:
        assert counted.pop(0) == 0, lines
    # None is missing, and none comes too soon. Reads are of at most 1 MiB.
    whole = len(work.lengths) * PER_FILE + ends[-1]
    for earlier, later in zip([0, *counted], [*counted, whole]):
        assert later - earlier < PER_LINE + 2 * MEBIBYTE, (earlier, later)
    for earlier, later in zip(counted, counted[1:]):
        assert later - earlier > PER_LINE - 2 * MEBIBYTE, (earlier, later)
    assert len(counted) >= 2, counted


def both(place, works, *words, again=lambda: None, status=0):
    """Runs the command without a terminal and with one. Both answer the same, lines tell of these works in turn, and
    the line is gone at the end."""
    quiet = place.run(*words)
    again()
    watched = place.watch(*words)
    again()
    together = place.watch(*words, output="terminal")
    again()
    stopped = place.watch(*words, stop=True)
    assert quiet.said == b"" and quiet.status == status, (words, quiet.status, quiet.said)
    assert (watched.status, watched.printed) == (status, quiet.printed), (words, watched.status)
    assert (stopped.status, stopped.printed) == (status, quiet.printed), (words, stopped.status)
    assert together.status == status and together.screen() == quiet.printed.decode().splitlines(), (
        words, together.screen())
    assert watched.screen() == [], watched.screen()
    assert watched.erases_lines() and together.erases_lines(), (words, watched.said, together.said)
    told = [(name, list(lines)) for name, lines in itertools.groupby(watched.lines(),
        lambda line: LINE.fullmatch(line).group(1))]
    assert [name for name, _ in told] == [work.told for work in works], (words, watched.lines())
    for (_, lines), work in zip(told, works):
        follow(lines, work)


def many_files(place):
    """A bag of many small files, by each command that reads or writes files."""
    base, made, ledger = place.work / "many", place.work / "made", place.work / "ledger"
    paths = [f"data/{number:04}" for number in range(FILES)]
    tags = bag(base, {path: os.urandom(LENGTH) for path in paths})
    lengths = [LENGTH] * FILES
    tag_files = [len(DECLARATION), tags - len(DECLARATION)]
    both(place, [Work("checking", FILES + 2, [*tag_files, *lengths])], "check", str(base))
    elsewhere = place.print_there("check", str(base))
    assert (elsewhere.status, elsewhere.printed, elsewhere.said) == (0, b"valid\n", b""), elsewhere.said
    remove = lambda: shutil.rmtree(made)
    both(place, [Work("copying", FILES, lengths)], "make", str(base / "data"), str(made), "md5", again=remove)
    remove()

    def anew(folder=base):
        ledger.unlink(missing_ok=True)
        assert place.run("begin", str(ledger), "t", str(folder)).printed == b"new\n"

    # From another folder, whose fetch.txt lists the files in falling order.
    listed = place.work / "listed"
    listed.mkdir()
    bag(listed, {})
    shutil.copy(base / "manifest-sha256.txt", listed)
    (listed / "fetch.txt").write_text(
        "".join(f"http://example.org/{path} {LENGTH} {path}\n" for path in reversed(paths)))
    fetch = lambda: anew(listed)
    fetch()
    both(place, [Work("fetching", None, lengths)], "fetch", str(ledger), "t", str(base), again=fetch)
    # A file that is not there, or can't be one of a bag, was not begun.
    fetch()
    lacking, odd = place.work / "lacking", place.work / "odd"
    lacking.mkdir()
    odd.mkdir()
    (odd / "data").symlink_to(base / "data")
    for folder, status, cause in ((lacking, 1, "not supplied"), (odd, 3, "supplier")):
        ended = place.watch("fetch", str(ledger), "t", str(folder))
        assert (ended.status, ended.said) == (status, b""), (folder, ended.status, ended.said)
        assert ended.printed.decode() == "".join(f"refused {path}: {cause}\n" for path in reversed(paths)), folder
    anew()
    both(place, [Work("taking in", FILES, lengths)], "intake", str(ledger), "t", str(base), again=anew)
    # The same with files of one octet, whose paths have more: these are not read.
    wide = place.work / "wide"
    bag(wide, {f"data/{'w' * 200}{number:04}": b"w" for number in range(FILES)})
    again = lambda: anew(wide)
    again()
    both(place, [Work("taking in", FILES, [1] * FILES)], "intake", str(ledger), "t", str(wide), again=again)
    # The same from two folders.
    anew()
    halves = [place.work / "half 1", place.work / "half 2"]
    for half, folder in zip((paths[:FILES // 2], paths[FILES // 2:]), halves):
        bag(folder, {path: (base / path).read_bytes() for path in half})
    both(place, [Work("taking in", FILES, lengths)], "intake", str(ledger), "t", *map(str, halves), again=anew)
    reading = Work(READING, None, lengths, octets=ledger.stat().st_size)
    both(place, [reading], "list", str(ledger))
    both(place, [reading], "report", str(ledger), "t")
    both(place, [reading], "begin", str(ledger), "t", str(base))
    both(place, [reading, Work("auditing", None, lengths, octets=sum(lengths))], "audit", str(ledger), "t")
    both(place, [reading, Work("exporting", None, [*tag_files, *lengths])], "export", str(ledger), "t", str(made),
        again=remove)
    remove()
    # A ledger of format 1, which each command moves.
    files = {path: (base / path).read_bytes() for path in paths}

    def older():
        ledger.unlink()
        write_first(ledger, {"t": files})
    older()
    both(place, [Work(READING, None, lengths, octets=ledger.stat().st_size)], "list", str(ledger),
        again=older)
    # The same with files that are long enough to be seen in what is told.
    files = {f"data/{number:03}": bytes(MEBIBYTE) for number in range(150)}
    older()
    both(place, [Work(READING, None, [MEBIBYTE] * 150, octets=ledger.stat().st_size)], "list",
        str(ledger), again=older)
    # Once they are moved, they are in pieces.
    assert place.run("list", str(ledger)).printed == b"t\n"
    both(place, [Work(READING, None, [MEBIBYTE] * 150, octets=ledger.stat().st_size)], "list", str(ledger))


def millions(place):
    """Numbers from a million on have all their digits: so many payload files are those of one folder that is given many
    times."""
    base, ledger = place.work / "many", place.work / "ledger of many"
    assert place.run("begin", str(ledger), "t", str(base)).printed == b"new\n"
    for files in (999_000, 1_005_000, 1_050_000):
        line = place.first_line("intake", str(ledger), "u", *[str(base)] * (files // FILES))
        assert line.startswith("bag: taking in 1,024 of {:,} files, ".format(files)), line
    ledger.unlink()


def one_file(place):
    """One large file, and a ledger that has it."""
    base, ledger = place.work / "one", place.work / "large ledger"
    content = bytes(200 * MEBIBYTE)
    tags = bag(base, {"data/f": content})
    both(place, [Work("checking", 3, [len(DECLARATION), tags - len(DECLARATION), len(content)])], "check", str(base))
    assert place.run("begin", str(ledger), "t", str(base)).printed == b"new\n"
    assert place.run("intake", str(ledger), "t", str(base)).printed == b"taken data/f\n"
    reading = Work(READING, None, [len(content)], octets=ledger.stat().st_size)
    both(place, [reading], "report", str(ledger), "t")
    both(place, [reading, Work("auditing", None, [len(content)], octets=len(content))], "audit", str(ledger), "t")


def totals(place):
    """How many octets of a ledger are expected: those of the file and of its log, in the largest unit that they fill.
    The file is no database, so no more than that is shown of it."""
    ledger, log = place.work / "text", place.work / "text-wal"
    for octets, of_log, told in [((1 << 30) - 1, 0, ["1023.9 MiB"]), (1 << 30, 0, ["1.0 GiB"]),
                                 ((1 << 40) - 1, 0, ["1023.9 GiB"]),
                                 (1 << 40, 0, ["1.0 TiB"]), (3 << 39, 0, ["1.5 TiB"]), (3 << 29, 0, ["1.5 GiB"]),
                                 (64 * MEBIBYTE, 0, ["64.0 MiB"]), (64 * MEBIBYTE - 1, 0, []),
                                 (100 * MEBIBYTE, 924 * MEBIBYTE, ["100.0 MiB", "1.0 GiB"]),
                                 (40 * MEBIBYTE, 30 * MEBIBYTE, ["70.0 MiB"])]:
        ledger.write_bytes(b"text\n" * 1_000)
        os.truncate(ledger, octets)
        if of_log:
            log.touch()
            os.truncate(log, of_log)
        ended = place.watch("list", str(ledger))
        assert ended.lines() == [f"bag: reading the ledger, 0 files, 0 KiB of {total}" for total in told], (
            octets, ended.said)
        assert (ended.status, ended.printed) == (3, b"bag: not a ledger\n"), ended.printed
        ledger.unlink()
    log.unlink()


def short_work(place):
    """Nothing is shown of work on few small files."""
    base, made, ledger = place.work / "few", place.work / "made of few", place.work / "small ledger"
    bag(base, {"data/f": b"f\n"})
    for words in (["check", base], ["make", base / "data", made, "md5"], ["begin", ledger, "t", base],
                  ["intake", ledger, "t", base],
                  ["report", ledger, "t"], ["audit", ledger, "t"], ["fetch", ledger, "t", base], ["list", ledger],
                  ["export", ledger, "t", place.work / "exported"]):
        ended = place.watch(*map(str, words))
        assert ended.status == 0 and ended.said == b"", (words, ended.status, ended.said)
    # Folders without a payload file are no files, however many there are.
    folders = [place.work / f"folder {number}" for number in range(1_100)]
    for folder in folders:
        folder.mkdir()
    ended = place.watch("intake", str(ledger), "t", *map(str, folders))
    told = f"bag: {folders[0]}: it has no payload file below data/\n"
    assert (ended.status, ended.said.decode()) == (0, told), (ended.status, ended.said)


def failures(place):
    """A command that fails after a line of progress, a missing folder, and a wrong word: what is said of it stands
    alone."""
    base, made = place.work / "many", place.work / "made in part"
    (base / "data/last").write_bytes(bytes(2 * MEBIBYTE))
    too_large = f"bag: {made}/data/last: File too large (os error 27)"
    words = ["make", str(base / "data"), str(made), "md5"]
    ended = place.watch(*words, output="terminal", limit=MEBIBYTE)
    assert ended.lines() and ended.screen() == ["bag: files", too_large] and ended.status == 3, ended.screen()
    shutil.rmtree(made)
    # Nothing is printed, and what is said stands in the place of the line.
    empty = place.work / "empty"
    empty.mkdir()
    ended = place.watch("intake", str(place.work / "large ledger"), "t", str(empty), output="terminal")
    told = [f"bag: {empty}: it has no payload file below data/"]
    assert ended.lines() and ended.screen() == told and ended.status == 0, ended.said
    # Nothing is printed, and nothing said.
    for output in (None, "terminal"):
        ended = place.watch("fetch", str(place.work / "large ledger"), "t", str(empty), output=output)
        assert ended.lines() and ended.screen() == [] and (ended.status, ended.printed) == (0, b""), ended.said
    missing = place.work / "missing"
    ended = place.watch("check", str(missing))
    told = f"bag: {missing}: No such file or directory (os error 2)\n"
    assert ended.said.decode() == told and ended.status == 3, ended.said
    assert place.watch("chek").said == place.run("chek").said


def closed(place):
    """Standard error is closed: the first file that is opened takes its place, and nothing else is written to that."""
    base, made = place.work / "few", place.work / "made of many"
    ended = subprocess.run(["sh", "-c", 'exec "$@" 2>&-', "sh", place.program, "make", place.work / "many/data", made,
        "md5"], check=True,
                           capture_output=True)
    assert ended.stderr == b"" and place.run("check", str(made)).printed == b"valid\n", ended
    place.count += 1


def main():
    with tempfile.TemporaryDirectory() as work:
        place = Place(os.path.abspath(sys.argv[1]), work)
        many_files(place)
        millions(place)
        one_file(place)
        totals(place)
        short_work(place)
        failures(place)
        closed(place)
        print(f"{place.count} commands")


main()
