"""What the program may say on standard error about a command that it ran (FORMAT.md, section 14)."""

import re

NEEDS = re.compile(rb"bag: [^\n]*: it has [0-9]+ octets, and opening it takes as much memory and a little more\n")
LOG_STAYS = b": its log stays beside it, and both have to be kept together: "
EXPLAINED = {"bag: files", "bag: tag too large", "bag: too large", "bag: too many", "bag: store", "bag: not a ledger",
             "refused: name", "refused: tag too large", "refused: differs"}


def is_explained(lines, status, said):
    """Whether this may be said after these lines: one line if they say that folders, files or a ledger can't be used,
    that a transfer is refused for its name, a large tag file or other tag files, or that an algorithm is unknown; that
    or nothing if memory ran out; and otherwise nothing, that a folder has no payload, or that the log of a ledger
    stays."""
    is_line = said.startswith(b"bag: ") and said.count(b"\n") == 1 and said.endswith(b"\n")
    if status != 0 and (EXPLAINED & set(lines) or any(line.endswith(": store") for line in lines)):
        return is_line
    if status == 64 and any(line.startswith("unknown algorithm ") for line in lines):
        return said == b"bag: the algorithms are md5, sha1, sha256 and sha512\n"
    if lines == ["bag: memory"] and NEEDS.fullmatch(said):
        return True
    return not said or is_line and (said.endswith(b": it has no payload file below data/\n") or LOG_STAYS in said)
