"""Ledgers in files on which each command is compared with the second program."""
import os
import shutil

import reference_commands
from ledger_rows import found
from places import HeldUp
from reference_receiver import ledger_of
from running import is_answered, run
from written_bags import accepted_by_coreutils, fits_coreutils


def damaged(octets):
    return octets[:-1] + bytes([octets[-1] ^ 1]) if octets else b"x"


class Ledger:
    """A ledger in a file, and what it has to hold. Each command on it is answered as by the second program."""

    def __init__(self, program, file, receiver):
        self.program, self.file, self.commands = program, file, reference_commands.Commands()
        self.key = os.path.realpath(os.fsencode(file))
        self.commands.receivers[self.key] = receiver

    def receiver(self):
        return self.commands.receivers[self.key]

    def words(self, command, *operands):
        return [os.fsencode(word) for word in (command, "--", self.file, *operands)]

    def run(self, command, *operands):
        """The lines."""
        return self.compare(self.words(command, *operands)).lines

    def compare(self, words):
        wanted = self.commands.answer(words)
        ran = run([self.program, *words], timeout=120)
        assert is_answered(ran, wanted.lines, wanted.status), (words, ran, wanted.lines, wanted.status)
        return wanted

    def judge(self):
        """sqlite3 finds what has to be held, and nothing else."""
        assert found(self.file) == ledger_of(self.receiver())

    def kill(self, command, name, first, *others):
        """Kills a command once its work on the first folder is done, and before it has printed anything about it."""
        HeldUp(self.program, *self.words(command, name, first, *others)).kill()
        self.commands.answer(self.words(command, name, first))
        self.judge()

    def export(self, name, folder, tried):
        """Exports the transfer, and compares what there is with what it has to hold. Returns the files."""
        made = self.compare(self.words("export", name, folder)).made
        assert reference_commands.found_in(os.fsencode(folder)) == reference_commands.folder_of(made), folder
        tried["exports"] += 1
        return made

    def finish(self, name, bag, folder, tried):
        """The transfer has to be valid. It is exported as the bag that was written, which has to be valid too."""
        for command in ("report", "audit"):
            assert self.run(command, name) == ["valid"]
        assert self.export(name, folder, tried) == bag.whole
        assert self.compare([b"check", os.fsencode(folder)]).lines == ["valid"]
        by_coreutils(folder, bag, tried)
        shutil.rmtree(folder)


def by_coreutils(folder, bag, tried):
    """Coreutils find the digests that the manifests list, those of the holes too."""
    for algorithm in bag.order.algorithms:
        for name in (f"manifest-{algorithm}.txt", f"tagmanifest-{algorithm}.txt"):
            lines = (folder / name).read_bytes().splitlines(True)
            plain = [text for text in lines if fits_coreutils(text)]
            assert plain and accepted_by_coreutils(folder, algorithm, plain), (folder, name)
            tried["digests"] += len(plain)
