"""The events that the driver reads (tests/deliveries.py describes them), what the second program answers to them, and a
driver that is stopped at a call of a file of its ledger (tests/ledger.py describes how)."""
import hashlib
import itertools

from ledger_files import DECLARATION
from reference_receiver import Receiver, ledger_of
from running import ask, line

# Events that make several deliveries, each with an answer of its own.
RUNS = ["run", "bring-first", "fetch"]
NEVER = 2**64 - 1


def manifest(files):
    return b"".join(b"%s  %s\n" % (hashlib.sha256(octets).hexdigest().encode(), path) for path, octets in files)


def tag_files(files, *more):
    return [(b"bagit.txt", DECLARATION), (b"manifest-sha256.txt", manifest(files)), *more]


def with_files(word, name, files):
    """An event with these files, each a path and its octets."""
    return (word, name, *(field for file in files for field in file))


def answers(events):
    """Those of a new receiver."""
    receiver = Receiver()
    return [answer(receiver, *event) for event in events]


def answer(receiver, word, *fields):
    files = list(zip(fields[1::2], fields[2::2]))
    if word == "begin":
        return receiver.begin(fields[0], files)
    if word in ("deliver", "read"):
        return receiver.deliver(*fields)
    if word == "break":
        return receiver.fail(*fields)
    if word in ("run", "bring", "bring-first", "bring-end"):
        some, end = receiver.run(fields[0], files, breaks=word == "bring-first")
        return " | ".join([*some, "courier" if word == "bring-end" else end])
    if word in ("report", "audit"):
        return " | ".join(receiver.report(*fields))
    return b" ".join(receiver.names()).decode() if word == "names" else "started" if word == "start" else "opened"


def parts(event, text):
    """The answers to the deliveries of a run, each alone; the answer to another event is one. A fetch may fail before
    it asks for any of its files."""
    if event[0] == "fetch" and text == "refused: store":
        return [text] * (len(event) // 2)
    return text.split(" | ") if event[0] in RUNS else [text]


def each_alone(event):
    """The event as several, each with one delivery, if it makes several of them."""
    word, *fields = event
    if word not in RUNS:
        return [event]
    files = list(zip(fields[1::2], fields[2::2]))
    first = "break" if word == "bring-first" else "deliver"
    return [(first if place == 0 else "deliver", fields[0], *file) for place, file in enumerate(files)]


def fetch(receiver, name, supply):
    """For each entry of `fetch.txt` whose file isn't held its answer."""
    transfer = receiver.transfers[name]
    for number, path in enumerate(transfer.fetch, 1):
        if path not in transfer.held:
            yield f"{number} {path.decode()} {receiver.deliver(name, path, supply[path])}"


def steps(receiver, events):
    """For each step its answer, and what is held after it. The end of a run is a step too."""
    for event in events:
        if event[0] == "fetch":
            answers = fetch(receiver, event[1], dict(zip(event[2::2], event[3::2])))
        else:
            answers = (answer(receiver, *one) for one in each_alone(event))
        for text in answers:
            yield text, ledger_of(receiver)
        if event[0] in RUNS:
            yield "done", ledger_of(receiver)


def run_driver(driver, database, events, stop=("log", NEVER, "killed"), seeds=itertools.count()):
    """The lines that the driver prints if it is stopped like this; by default it isn't stopped."""
    file, calls, how = stop
    words = [driver, "stop", file, str(calls), how, str(next(seeds)), database]
    ran = ask(words, map(line, events), timeout=60)
    assert ran.returncode == 0 and not ran.stderr, (stop, ran)
    return ran.stdout.decode().split("\n")[:-1]


def answered(events, printed, wanted):
    """How many steps were answered, the opening included. From the first that wasn't, no answer may promise
    anything."""
    if printed == ["the store failed"]:
        return 0
    assert printed[0] == "opened" and len(printed) == len(events) + 2, printed
    given = [part for event, text in zip(events, printed[1:]) for part in parts(event, text)]
    assert len(given) == len(wanted), (given, wanted)
    number = next((place for place, (text, _) in enumerate(wanted) if given[place] != text), len(given))
    for place in range(number, len(given)):
        changes = wanted[place][1] != wanted[place - 1][1] if place else True
        assert given[place].endswith("refused: store") or (given[place] == wanted[place][0] and not changes), (
            place, given[place])
    return 1 + number
