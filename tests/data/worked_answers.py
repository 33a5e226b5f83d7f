#!/usr/bin/env python3
"""worked_answers.py [DRIVER..]: worked cases of a receiver, each with the answer that section 16 of docs/FORMAT.md
requires. They are asked of tests/model/reference_receiver.py, and with DRIVER.. of the driver, which reads events from
standard input (tests/deliveries.py describes them). It prints how many answers are wrong. The digests are those of
`abc` and of the empty message.
"""
import hashlib
import sys

import reference_receiver
from running import ask, line
from small_bags import A_MD5, A_SHA256, DECLARATION, E_SHA256, MANIFEST, OF_0_97

TAGS = [(b"bagit.txt", DECLARATION), (b"manifest-sha256.txt", MANIFEST)]
OLDER = b"bagit.txt", OF_0_97.replace(b"97", b"96")
A, E = (b"data/a.txt", b"abc"), (b"data/e.txt", b"")
MISSING_A, MISSING_E = "manifest-sha256.txt: missing: data/a.txt", "manifest-sha256.txt: missing: data/e.txt"
LARGE, LONG = b"x" * 16777217, b"\n" * 100001
LENGTHS = b"fetch.txt", b"http://example.org/a 3 data/a.txt\nhttp://example.org/e - data/e.txt\n"


class Second(reference_receiver.Receiver):
    """The second program."""

    read, audit = (getattr(reference_receiver.Receiver, name) for name in ("deliver", "report"))

    def bring(self, name, items, breaks=None):
        answers, end = self.run(name, items, breaks == "first")
        return answers, "courier" if breaks == "end" else end

    def reopen(self):
        return "opened"


class Driven:
    """The driver. For each answer it does everything from the start once more."""

    driver = ()

    def __init__(self):
        self.events = [("start",)]

    def answer(self, word, *fields):
        self.events.append((word, *fields))
        ran = ask(self.driver, map(line, self.events))
        printed = ran.stdout.decode().split("\n")
        if ran.returncode or ran.stderr or len(printed) != len(self.events) + 1:
            return f"the driver ends with {ran.returncode} and says {ran.stderr}"
        return printed[-2]

    def begin(self, name, files):
        return self.answer("begin", name, *(field for file in files for field in file))

    def deliver(self, *fields):
        return self.answer("deliver", *fields)

    def read(self, *fields):
        return self.answer("read", *fields)

    def fail(self, *fields):
        return self.answer("break", *fields)

    def run(self, name, items, word="run"):
        *answers, end = self.answer(word, name, *(field for item in items for field in item)).split(" | ")
        return answers, end

    def bring(self, name, items, breaks=None):
        return self.run(name, items, f"bring-{breaks}" if breaks else "bring")

    def report(self, name):
        return self.answer("report", name).split(" | ")

    def audit(self, name):
        return self.answer("audit", name).split(" | ")

    def names(self):
        return self.answer("names").encode().split()

    def reopen(self):
        return self.answer("reopen")


def begun(receiver, *changes):
    """The answer to the two tag files, with these replaced or added."""
    return receiver().begin(b"t", list({**dict(TAGS), **dict(changes)}.items()))


def opened(receiver, *changes):
    """A receiver with the transfer t1, opened with the two tag files, of which these are replaced or added."""
    one = receiver()
    one.begin(b"t1", list({**dict(TAGS), **dict(changes)}.items()))
    return one


def with_both_files(receiver):
    one = opened(receiver)
    one.run(b"t1", [A, E])
    return one


def names_of_transfers(receiver):
    for name in [b"a", b"0", b"-", b"t1", b"zz-09", b"2026-11-23", b"a" * 64]:
        yield receiver().begin(name, TAGS), "new"
    for name in [b"", b"T1", b"t 1", b"t_1", b"t.1", b"t/1", b"\xc3\xa9", b"t\n", b"a" * 65]:
        yield receiver().begin(name, TAGS), "refused: name"
    one = with_both_files(receiver)
    for name in b"t3", b"t10", b"0-":
        one.begin(name, TAGS)
    yield one.names(), [b"0-", b"t1", b"t10", b"t3"]


def the_first_bad_tag_path_is_told(receiver):
    one = receiver()
    yield one.names(), []
    for files, place in [
        ([(b"../x", b""), *TAGS], 0),
        ([(b"../x", b""), TAGS[0], TAGS[0]], 0),
        ([TAGS[0], *TAGS], 1),
        ([*TAGS, TAGS[0], (b"data/q", b"")], 2),
        ([(b"data/q", b""), *TAGS], 0),
        ([(b"data/q", b""), (b"../x", b"")], 0),
        ([(b"readme.txt", LARGE), (b"data/q", b"")], 1),
        ([(b"../x", LARGE)], 0),
        ([(b"data/a", LARGE)], 0),
        ([(b"readme.txt", b""), (b"readme.txt", LARGE)], 1),
    ]:
        yield one.begin(b"t", files), f"refused: tag path {place}"
    yield one.names(), []


def a_large_tag_file_is_told(receiver):
    info, fetch = (b"bag-info.txt", LARGE), (b"fetch.txt", LONG)
    yield begun(receiver, info), "refused: tag too large bag-info.txt"
    yield begun(receiver, info, OLDER), "refused: tag too large bag-info.txt"
    yield begun(receiver, info, (b"manifest-md5.txt", LONG)), "refused: tag too large bag-info.txt"
    answer = "refused: tag too large manifest-md5.txt"
    yield begun(receiver, (b"readme.txt", LARGE), (b"manifest-md5.txt", LONG)), answer
    yield begun(receiver, (b"%\n", LARGE)), "refused: tag too large %25%0A"
    yield begun(receiver, (b"x", LARGE), fetch, (b"bagit.txt", b"")), "refused: tag too large fetch.txt"
    yield begun(receiver, (b"bag-info.txt", LONG), (b"fetch.txt", LONG[1:])), "new"
    yield begun(receiver, (b"x", LARGE[1:])), "new"


def what_is_outside_is_told_where_bagit_txt_reads(receiver):
    other = (b"manifest-sha224.txt", b"")
    yield begun(receiver, OLDER), "refused: outside: version"
    yield begun(receiver, other), "refused: outside: algorithm sha224"
    yield begun(receiver, other, OLDER), "refused: outside: version"
    yield begun(receiver, other, (b"bagit.txt", b"")), "refused: bagit.txt: line count"
    yield receiver().begin(b"t", [other]), "refused: no bagit.txt"
    yield receiver().begin(b"t", [OLDER]), "refused: outside: version"


def what_no_payload_file_can_mend_is_told(receiver):
    yield receiver().begin(b"t", TAGS[:1]), "refused: no payload manifest"
    one_file = (b"manifest-md5.txt", A_MD5 + b"  data/a.txt\n")
    yield begun(receiver, one_file), "refused: manifest-md5.txt: unlisted: data/e.txt"
    yield begun(receiver, one_file, (b"bagit.txt", OF_0_97)), "new"
    tag_manifest = b"tagmanifest-sha256.txt"
    for octets, fault in [
        (b"", "tagmanifest-sha256.txt: not listed: manifest-sha256.txt"),
        (E_SHA256 + b"  data/a.txt", "tagmanifest-sha256.txt:1: wrong place"),
        (E_SHA256 + b"  manifest-sha256.txt", "tagmanifest-sha256.txt: digest: manifest-sha256.txt"),
    ]:
        yield begun(receiver, (tag_manifest, octets)), f"refused: {fault}"


def listing(*paths):
    """A manifest that lists these paths, each with the digest of `abc`."""
    return b"manifest-sha256.txt", b"".join(A_SHA256 + b"  " + path + b"\n" for path in paths)


def a_folder_of_a_path_clashes(receiver):
    for paths, clash in [
        ([b"data/a", b"data/a/b"], "data/a"),
        ([b"data/k/x", b"data/k"], "data/k"),
        ([b"data/k", b"data/k.txt", b"data/k/x"], "data/k"),
        ([b"data/a/b/c.txt", b"data/a"], "data/a"),
        ([b"data/z/y", b"data/b/c", b"data/z", b"data/b"], "data/b"),
    ]:
        yield begun(receiver, listing(*paths)), f"refused: clash {clash}"
    yield begun(receiver, listing(b"data/k", b"data/k.txt", b"data/k0", b"data/l/k")), "new"
    yield begun(receiver, (b"x", b""), (b"x.txt", b""), (b"x/y", b"")), "refused: clash x"
    yield begun(receiver, (b"docs/a/b/c.txt", b""), (b"docs", b"")), "refused: clash docs"
    yield receiver().begin(b"t", [listing(b"data/a", b"data/a/b"), TAGS[0]]), "refused: clash data/a"


def other_tag_files_differ(receiver):
    one = with_both_files(receiver)
    yield one.begin(b"t1", TAGS), "again"
    yield one.begin(b"t1", TAGS[::-1]), "again"
    yield one.begin(b"t1", [TAGS[0], (TAGS[1][0], b"B" + MANIFEST[1:])]), "refused: differs"
    yield one.begin(b"t1", [(b"bagit.txt", OF_0_97), TAGS[1]]), "refused: differs"
    yield one.begin(b"t1", TAGS[:1]), "refused: no payload manifest"
    yield one.deliver(b"t1", *A), "repeated"
    yield one.begin(b"t1", TAGS), "again"
    yield one.report(b"t1"), ["valid"]


def a_length_is_asked_before_a_digest(receiver):
    one = opened(receiver, LENGTHS)
    for path, octets, answer in [
        (b"data/../k", b"", "refused: path"),
        (A[0], b"abcd", "refused: length"),
        (A[0], b"abd", "refused: digest sha256"),
        (*A, "taken"),
        (E[0], b"x", "refused: digest sha256"),
        (b"data/z", b"abc", "refused: not listed"),
    ]:
        yield one.deliver(b"t1", path, octets), answer
    yield one.deliver(b"T1", b"data/../k", b""), "refused: no transfer"


def contents_of_a_gibibyte(receiver):
    one = opened(receiver, LENGTHS)
    yield one.deliver(b"t1", A[0], bytes(1073741824)), "refused: length"
    yield one.deliver(b"t1", A[0], bytes(1073741825)), "refused: too large"


def contents_past_16_and_64_mebioctets_are_taken(receiver):
    for length in 16777217, 67108865:
        content = bytes(length)
        files = [TAGS[0], (b"manifest-md5.txt", hashlib.md5(content).hexdigest().encode() + b"  data/a\n")]
        one, other = receiver(), receiver()
        yield one.begin(b"t", files), "new"
        yield one.deliver(b"t", b"data/a", content), "taken"
        yield one.read(b"t", b"data/a", content), "repeated"
        yield one.audit(b"t"), ["valid"]
        other.begin(b"t", files)
        yield other.bring(b"t", [(b"data/a", content)]), (["taken"], "done")


def a_path_of_4097_octets_is_none(receiver):
    one = opened(receiver)
    longest = b"data/" + b"n" * 4091
    for path, answer in [(longest, "refused: not listed"), (longest + b"n", "refused: path"),
        (b"n" * 1_000_000, "refused: path")]:
        yield one.deliver(b"t1", path, b"abc"), answer
        yield one.read(b"t1", path, b"abc"), answer
        yield one.run(b"t1", [(path, b"abc"), A])[0][0], answer
    yield one.bring(b"t1", [(longest, b"abc"), A]), (["refused: not listed", "repeated"], "done")
    yield begun(receiver, (b"n" * 4096, b"")), "new"
    yield begun(receiver, (b"n" * 4097, b"")), "refused: tag path 2"
    yield begun(receiver, (b"n" * 1_000_000, b"")), "refused: tag path 2"


def each_length_and_each_digest_is_asked(receiver):
    by_md5, sha1 = (b"manifest-md5.txt", A_MD5 + b"  data/a\n"), b"manifest-sha1.txt"
    of_abc, of_nothing = b"a9993e364706816aba3e25717850c26c9cd0d89d", b"da39a3ee5e6b4b0d3255bfef95601890afd80709"
    fetch = b"http://example.org/a 3 data/a\n"
    for tags, octets, answer in [
        ([by_md5, (b"fetch.txt", fetch)], b"abc", "taken"),
        ([by_md5, (b"fetch.txt", fetch + fetch.replace(b"3", b"4"))], b"abc", "refused: length"),
        ([by_md5, (sha1, of_nothing + b"  data/a\n")], b"abc", "refused: digest sha1"),
        ([(sha1, of_abc + b"  data/a\n")], b"abc", "taken"),
        ([(sha1, of_abc + b"  data/a\n"), by_md5], b"abc", "taken"),
        ([(sha1, of_abc + b"  data/a\n"), by_md5], b"abd", "refused: digest md5"),
    ]:
        one = receiver()
        yield one.begin(b"t", [TAGS[0], *tags]), "new"
        yield one.deliver(b"t", b"data/a", octets), answer


def in_version_0_97_the_manifest_that_lists_a_file_is_asked(receiver):
    one = receiver()
    manifests = [(b"manifest-md5.txt", A_MD5 + b"  data/a\n"), (b"manifest-sha256.txt", E_SHA256 + b"  data/b\n")]
    yield one.begin(b"t", [(b"bagit.txt", OF_0_97), *manifests]), "new"
    missing = ["manifest-md5.txt: missing: data/a", "manifest-sha256.txt: missing: data/b", "not complete"]
    yield one.report(b"t"), missing
    for path, octets, answer in [
        (b"data/a", b"abd", "refused: digest md5"),
        (b"data/a", b"abc", "taken"),
        (b"data/b", b"x", "refused: digest sha256"),
        (b"data/b", b"", "taken"),
    ]:
        yield one.deliver(b"t", path, octets), answer
    yield one.report(b"t"), ["valid"]


def what_is_lost_repeated_or_damaged_changes_nothing(receiver):
    one = receiver()
    yield one.begin(b"t1", TAGS), "new"
    yield one.report(b"t1"), [MISSING_A, MISSING_E, "not complete"]
    answers = ["taken", "taken", "repeated", "refused: digest sha256", "refused: not listed"]
    yield one.run(b"t1", [E, A, A, (A[0], b"abx"), (b"data/z", b"abc")]), (answers, "done")
    yield one.deliver(b"t2", *A), "refused: no transfer"
    yield one.report(b"t1"), ["valid"]
    for name in b"t2", b"", b"T1", b"t1/":
        yield one.report(name), ["refused: no transfer"]
        yield one.audit(name), ["refused: no transfer"]


def another_order_ends_with_the_same_report(receiver):
    one = receiver()
    yield one.begin(b"t1", TAGS), "new"
    answers = ["refused: digest sha256", "refused: not listed", "taken", "taken", "repeated"]
    yield one.run(b"t1", [(A[0], b"abx"), (b"data/z", b"abc"), A, E, A]), (answers, "done")
    yield one.report(b"t1"), ["valid"]
    yield one.begin(b"t3", TAGS), "new"
    yield one.deliver(b"t3", *E), "taken"
    yield one.report(b"t3"), [MISSING_A, "not complete"]
    yield one.audit(b"t3"), [MISSING_A, "not complete"]
    yield one.deliver(b"t3", *A), "taken"
    yield one.report(b"t3"), ["valid"]
    yield one.audit(b"t3"), ["valid"]


def a_ledger_that_is_opened_again_goes_on(receiver):
    one = opened(receiver)
    for item in E, A:
        yield one.deliver(b"t1", *item), "taken"
        yield one.reopen(), "opened"
        yield one.deliver(b"t1", *item), "repeated"
    yield one.report(b"t1"), ["valid"]


def a_reader_is_read_to_its_end_before_the_answer(receiver):
    one = opened(receiver)
    for read, answer in [(one.fail, "refused: reader"), (one.read, "taken"), (one.fail, "refused: reader"),
        (one.read, "repeated")]:
        yield read(b"t1", *A), answer
    yield one.fail(b"t1", b"data/z", b"x"), "refused: not listed"


def a_run_goes_on_after_a_reader_that_failed(receiver):
    one = opened(receiver)
    yield one.bring(b"t1", [A, A, E], "first"), (["refused: reader", "taken", "taken"], "done")
    yield one.report(b"t1"), ["valid"]
    one = opened(receiver)
    yield one.bring(b"t1", [E, (A[0], b"abd"), (b"data/z", b"abc"), A]), (
        ["taken", "refused: digest sha256", "refused: not listed", "taken"], "done")
    yield one.report(b"t1"), ["valid"]
    one = opened(receiver)
    yield one.bring(b"t1", [A, E], "end"), (["taken", "taken"], "courier")
    yield one.report(b"t1"), ["valid"]


def a_transfer_of_no_payload_is_valid_at_once(receiver):
    one = receiver()
    yield one.begin(b"t", [TAGS[0], (b"manifest-sha256.txt", b"")]), "new"
    yield one.report(b"t"), ["valid"]


def a_run_has_a_million_deliveries(receiver):
    items = [(b"q", b"")] * 1000001
    yield with_both_files(receiver).run(b"t1", items), (["refused: not listed"] * 1000000, "too many")
    yield with_both_files(receiver).run(b"t1", items[1:])[1], "done"


def many_files_come_rising_falling_and_damaged(receiver):
    files = [(b"data/%03d" % n, bytes([n]) * n) for n in range(256)]
    lines = [hashlib.sha256(octets).hexdigest().encode() + b"  " + path for path, octets in files]
    one = receiver()
    yield one.begin(b"m", [TAGS[0], (b"manifest-sha256.txt", b"\n".join(lines))]), "new"
    damaged = [(path, octets + b"x") for path, octets in files]
    answers = ["taken"] * 256 + ["repeated"] * 256 + ["refused: digest sha256"] * 256
    yield one.run(b"m", files + files[::-1] + damaged), (answers, "done")
    yield one.report(b"m"), ["valid"]


CHECKS = (names_of_transfers, the_first_bad_tag_path_is_told, a_large_tag_file_is_told,
          what_is_outside_is_told_where_bagit_txt_reads, what_no_payload_file_can_mend_is_told,
          a_folder_of_a_path_clashes, other_tag_files_differ, a_length_is_asked_before_a_digest,
          contents_past_16_and_64_mebioctets_are_taken, a_path_of_4097_octets_is_none,
          each_length_and_each_digest_is_asked, in_version_0_97_the_manifest_that_lists_a_file_is_asked,
          what_is_lost_repeated_or_damaged_changes_nothing, another_order_ends_with_the_same_report,
          a_ledger_that_is_opened_again_goes_on, a_reader_is_read_to_its_end_before_the_answer,
          a_run_goes_on_after_a_reader_that_failed, a_transfer_of_no_payload_is_valid_at_once,
          a_run_has_a_million_deliveries, many_files_come_rising_falling_and_damaged)


def main(*driver):
    # A line with a content of 1 GiB would be too long for the driver. tests/sizes.sh has such files.
    receiver, checks = (Driven, CHECKS) if driver else (Second, (*CHECKS, contents_of_a_gibibyte))
    Driven.driver = driver
    tried, failed = 0, 0
    for check in checks:
        for place, (answer, wanted) in enumerate(check(receiver), 1):
            tried += 1
            if answer != wanted:
                failed += 1
                print(f"{check.__name__}, answer {place}: {str(answer)[:200]} instead of {str(wanted)[:200]}")
    print(f"{tried} worked answers: {failed} otherwise")
    return 1 if failed or not tried else 0


if __name__ == "__main__":
    sys.exit(main(*sys.argv[1:]))
