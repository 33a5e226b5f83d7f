"""Bags that the driver writes (tests/new_bags.py describes how), and bags in folders, where coreutils judge them."""
import os
import subprocess
import tempfile

from running import ask, line

# The system accepts paths of up to 4,095 octets, including the folder.
LONGEST_IN_FOLDER = 3900


def asked(order):
    """What is asked of the driver, line by line."""
    yield line(("clear",))
    yield from (line(("file", b"", path, octets)) for path, octets in order.files.items())
    yield from (line(("by", name.encode())) for name in order.algorithms)
    yield from (line(("element", b"", label.encode(), value.encode())) for label, value in order.elements)
    yield from (line(("hole", b"", path, url.encode())) for path, url in order.holes)
    yield line(("write",))


def due(order):
    """The expected output of the driver, line by line."""
    yield "cleared"
    yield from ["added"] * (len(order.files) + len(order.algorithms) + len(order.elements) + len(order.holes))
    yield " | ".join(order.parts())


def written(orders, driver):
    """What the driver prints, as a file of lines, and how it ended."""
    printed = tempfile.TemporaryFile("w+", encoding="utf-8", newline="\n")
    ran = ask(driver, (text for _, order in orders for text in asked(order)), stdout=printed)
    printed.seek(0)
    return printed, ran.returncode, ran.stderr


def difference(orders, printed):
    """The first bag whose answer differs, with its lines; None if there is none."""
    for name, order in orders:
        for wanted in due(order):
            given = printed.readline()
            if given != wanted + "\n":
                told = f"{name}: {given[:1000]!r} is printed instead of {wanted[:1000]!r}."
                return "\n".join([told, *(text[:1000] for text in asked(order))])
    rest = printed.readline()
    return f"After the last bag {rest!r} is printed." if rest else None


def put(base, files):
    """Whether the files are in the folder now: one with a path that is too long for the system isn't."""
    os.makedirs(os.path.join(base, b"data"), exist_ok=True)
    if any(len(path) > LONGEST_IN_FOLDER for path in files):
        return False
    for path, octets in files.items():
        place = os.path.join(base, path)
        os.makedirs(os.path.dirname(place), exist_ok=True)
        with open(place, "xb") as file:
            file.write(octets)
    return True


def fits_coreutils(line):
    """Coreutils spell names with LF, CR, percent or a backslash differently."""
    return b"%" not in line and b"\\" not in line


def accepted_by_coreutils(base, algorithm, lines):
    ran = subprocess.run([f"{algorithm}sum", "--check", "--strict", "--quiet", "-"], input=b"".join(lines), cwd=base,
                         capture_output=True, timeout=60, check=False)
    return (ran.returncode, ran.stdout, ran.stderr) == (0, b"", b"")
