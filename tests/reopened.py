#!/usr/bin/env python3
"""reopened.py COUNT SEED DRIVER..: makes COUNT random ledgers in databases, leaves each of them several times, and
opens it again, which reads and verifies all of it. All answers, before and after, are compared with those of
tests/model/reference_receiver.py, and the first that differs is reported with its ledger. DRIVER.. reads the events
from standard input (see tests/deliveries.py). The same seed makes the same ledgers.

A ledger has up to three transfers, and one in 250 has 300 (tests/lib/random_transfers.py).
"""
import random
import sys

from events import answers
from random_transfers import Transfer
from running import ask, line

MANY, TRANSFERS = 250, 300


def made(seed, number):
    """The events on the ledger of this number."""
    rng = random.Random(f"{seed} {number}")
    many = number % MANY == MANY - 1
    transfers = {one.name: one for one in (Transfer(rng, many)
        for _ in range(TRANSFERS if many else rng.randrange(4)))}.values()
    again = lambda: [("reopen",)] if rng.randrange(20 if many else 3) == 0 else []
    events = [("start",)]
    for one in transfers:
        events += [one.event("begin", rng.sample(one.tags, len(one.tags))), *again(), *one.deliveries(rng), *again()]
    events += [("reopen",), ("names",)]
    for one in rng.sample(list(transfers), min(len(transfers), 9)):
        events += [one.event("begin", one.tags), *one.deliveries(rng), ("report", one.name),
            one.event("run", one.files)]
    events += [("reopen",), ("names",)]
    return events + [("audit", one.name) for one in transfers]


def main(count, seed, *driver):
    opened, transfers, wanted = 0, 0, []

    def asked():
        nonlocal opened, transfers
        for number in range(int(count)):
            events = made(seed, number)
            wanted.extend((number, events[place][:2], text) for place, text in enumerate(answers(events)))
            opened += sum(event == ("reopen",) for event in events)
            transfers += sum(event[0] == "audit" for event in events)
            yield from map(line, events)

    ran = ask(driver, asked(), timeout=3600)
    printed = ran.stdout.decode(errors="replace").split("\n")
    for place, (number, event, text) in enumerate(wanted):
        if printed[place : place + 1] != [text]:
            given = printed[place : place + 1]
            print(f"Ledger {number} of seed {seed}, {event}: {given} is printed instead of {[text]}.")
            print(f"The driver ends with {ran.returncode} and says {ran.stderr[-1000:]}.")
            return 1
    assert printed[len(wanted) :] == [""] and not ran.stderr and ran.returncode == 0, ran.stderr
    print(f"{count} ledgers with {transfers} transfers, opened again {opened} times: all answered alike")
    return 0 if opened > int(count) and transfers else 1


if __name__ == "__main__":
    sys.exit(main(*sys.argv[1:]))
