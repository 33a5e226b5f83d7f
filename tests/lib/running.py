"""One way to run the program, and one way to have the driver answer lines."""

import resource
import signal
import subprocess
import tempfile

from explaining import is_explained


def run(words, timeout=60, **options):
    """How a command ended, with what it wrote. It is given nothing on standard input."""
    return subprocess.run(words, stdin=subprocess.DEVNULL, capture_output=True, timeout=timeout, check=False, **options)


def is_answered(ran, lines, status):
    """Whether the program printed these lines, ended with this status, and said nothing but what explains them."""
    printed = "".join(line + "\n" for line in lines).encode()
    return (ran.stdout, ran.returncode) == (printed, status) and is_explained(lines, status, ran.stderr)


def run_limited(command, limit=None):
    """The status and the lines of a command, whose files may have so many octets. Standard error must be empty, but for
    what explains a line."""

    def limited():
        if limit is not None:
            signal.signal(signal.SIGXFSZ, signal.SIG_IGN)
            resource.setrlimit(resource.RLIMIT_FSIZE, (limit, limit))

    ran = run(command, timeout=120, preexec_fn=limited)
    lines = ran.stdout.decode().splitlines()
    assert is_explained(lines, ran.returncode, ran.stderr), (command, ran)
    return ran.returncode, lines


def line(event):
    """What is asked of the driver, as it reads it: a word, and its fields in hex."""
    word, *fields = event
    return " ".join([word, *(field.hex() or "-" for field in fields)])


def ask(driver, lines, timeout=600, stdout=subprocess.PIPE):
    """How the driver ended that was given these lines, with what it wrote."""
    with tempfile.TemporaryFile() as script:
        script.writelines(asked.encode() + b"\n" for asked in lines)
        script.seek(0)
        return subprocess.run(driver, stdin=script, stdout=stdout, stderr=subprocess.PIPE, timeout=timeout, check=False)
