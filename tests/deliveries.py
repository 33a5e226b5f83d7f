#!/usr/bin/env python3
"""deliveries.py COUNT SEED DRIVER: makes COUNT random lists of deliveries, has the driver answer them all in one
process, and compares its output with the answers of tests/model/reference_receiver.py. The same seed makes the same
lists. The first answer that differs is reported with its list.

The driver reads events from standard input, one per line, and prints one line for each. An event is a word followed by
its fields, each after one blank:

    start                                      begins a list: from here on no transfer is open
    begin NAME PATH OCTETS PATH OCTETS ..      tag files, in the order in which they are given; there may be none
    deliver NAME PATH OCTETS                   one delivery
    read NAME PATH OCTETS                      one delivery by a reader
    break NAME PATH OCTETS                     one by a reader that fails after these octets
    run NAME PATH OCTETS PATH OCTETS ..        a run of deliveries; there may be none
    bring NAME PATH OCTETS PATH OCTETS ..      a run from a courier; here and below each PATH is one
    bring-first NAME PATH OCTETS ..            the same; the reader of the first one fails after its octets
    bring-end NAME PATH OCTETS ..              the same; the courier fails after the last one
    report NAME
    audit NAME
    names
    reopen                                     the ledger is given up and opened again

A field is its octets in lowercase hex, or `-` if it is empty. Names and paths are UTF-8, and a path isn't spelled. The
output, following section 16 of docs/FORMAT.md:

    start      `started`
    begin      `new`, `again`, or `refused: ` and `name`, `tag path N`, `tag too large PATH`, the line of section 12,
               the line of a fault, `clash PATH` or `differs`
    deliver    `taken`, `repeated`, or `refused: ` and `no transfer`, `path`, `not listed`, `too large`, `length` or
               `digest ALG`; `read` and `break` too, which may be refused by `reader`
    run        the answers to its deliveries, and then `done` or `too many`, joined by ` | `; `bring` and its kinds too,
               which may end with `courier`
    report     the lines of the faults, and then `valid`, `complete, not valid` or `not complete`, joined by ` | `;
               or `refused: no transfer`; `audit` too
    reopen     `opened`
    names      the names, joined by one blank: an empty line if there are none
"""
import random
import re
import sys

import random_bags
from events import answers, with_files
from offers import BAD_NAMES, GOOD_NAMES, Offer, offered
from random_bags import sometimes
from reference import is_path
from running import ask, line


def random_event(rng, offers):
    name = rng.choice(list(offers))
    offer = offers[name]
    if sometimes(rng, 6):
        name = rng.choice(BAD_NAMES + GOOD_NAMES)
    some = lambda: [offer.delivery() for _ in range(rng.randrange(6))]
    brought = lambda word: with_files(word, name, [file for file in some() if is_path(file[0])])
    ways = [lambda: ("deliver", name, *offer.delivery())] * 9 + [lambda: ("read", name, *offer.delivery())] * 4 + [
        lambda: ("break", name, *offer.delivery()),
        lambda: with_files("run", name, some()),
        lambda: brought("bring"),
        lambda: brought(rng.choice(["bring-first", "bring-end"])),
        lambda: ("reopen",),
        lambda: with_files("begin", name, offer.shuffled()),
        lambda: with_files("begin", name, rng.choice([Offer(rng), *offers.values()]).tags),
        lambda: with_files("begin", name, offer.other_tags()),
        lambda: with_files("begin", name, offer.other_tags()),
        lambda: ("report", name),
        lambda: ("audit", name),
        lambda: ("names",)]
    return rng.choice(ways)()


def made(seed, number):
    """The events of the list of this number."""
    rng = random.Random(f"{seed} {number}")
    names = rng.sample(GOOD_NAMES, rng.choice([1, 1, 2, 3]))
    offers = {name: offered(rng) for name in names}
    if sometimes(rng, 30):
        offers = dict.fromkeys(names, offers[names[0]])
    events = [("start",)]
    for name, offer in offers.items():
        if sometimes(rng, 90):
            events.append(with_files("begin", name, offer.shuffled()))
    events += [random_event(rng, offers) for _ in range(rng.choice([2, 5, 10, 25]))]
    for name, offer in offers.items():
        if sometimes(rng, 50):
            events.append(with_files("run", name, offer.everything()))
        events.append(("report", name))
    return events + [("names",)]


def kinds():
    """Every kind of answer that can occur in lists of this size."""
    others = {"no data directory", "manifest: digest", "fetch.txt:N: length", "bag: files", "complete, not valid"}
    return [shape for shape in random_bags.shapes() if shape not in others] + [
        "new", "again", "name", "tag path", "tag too large", "clash", "differs", "taken", "repeated", "no transfer",
        "path", "not listed", "length", "digest", "reader", "done", "courier", "started", "opened"]


def kinds_of(text):
    """Paths, places and algorithms don't matter."""
    for part in text.split(" | "):
        part = part.removeprefix("refused: ")
        yield re.sub("^(tag path|tag too large|clash|digest) .*", r"\1", random_bags.shape(part))


def difference(seed, wanted, ran):
    """The first output that differs, with its list up to there; None if there is none."""
    printed = ran.stdout.decode(errors="replace").split("\n")
    end = f"The driver ends with {ran.returncode} and says {ran.stderr[-1000:]}."
    places = [(number, at, text) for number, texts in enumerate(wanted) for at, text in enumerate(texts)]
    for place, (number, at, text) in enumerate(places):
        if printed[place:place + 1] != [text]:
            events = made(seed, number)[:at + 1]
            given = printed[place:place + 1]
            told = f"List {number} of seed {seed}, event {at}: {given} is printed instead of {[text]}."
            return "\n".join([told, end, str(events[-1])[:1000], "The list up to there:", *map(line, events)])
    if printed[len(places):] != [""] or ran.stderr or ran.returncode:
        return f"All are answered alike, but after the last line feed {printed[len(places):]} is printed. {end}"
    return None


def main(count, seed, *driver):
    count, wanted, left = int(count), [], set(kinds())

    def asked():
        for number in range(count):
            events = made(seed, number)
            wanted.append(answers(events))
            left.difference_update(*map(kinds_of, wanted[-1]))
            yield from map(line, events)

    found = difference(seed, wanted, ask(driver, asked(), timeout=3600))
    if found:
        print(found)
        return 1
    never = [f"never answered: {kind}" for kind in kinds() if kind in left]
    print("\n".join([f"{count} lists of {sum(map(len, wanted))} events: all answered alike", *never]))
    return 0 if wanted else 1


if __name__ == "__main__":
    sys.exit(main(*sys.argv[1:]))
