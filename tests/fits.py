#!/usr/bin/env python3
"""What fits into 1,000 rows: kinds of journals, how many of 100 of each kind fit, and how many rows those have.

    python3 tests/fits.py            prints the table that README.md has
    python3 tests/fits.py --same     and ends with an error where README.md has another

Live states are counted by tests/model.py. Steps have random codes. A swap exchanges a step and the one behind it. The seed of
a set of journals is its kind's text and its number, 0 to 99.
"""
import os
import random
import statistics
import sys

import model

README = os.path.join(os.path.dirname(os.path.abspath(__file__)), "..", "README.md")
TRIES = 100
LONGEST = model.LONGEST_JOURNAL


def steps(rng, length):
    return bytes(rng.randrange(model.STEPS) for _ in range(length))


def swapped(rng, journal, swaps):
    """The journal with some steps exchanged, each with the one behind it."""
    journal = bytearray(journal)
    for _ in range(swaps):
        at = rng.randrange(len(journal) - 1)
        journal[at:at + 2] = journal[at + 1], journal[at]
    return bytes(journal)


def equal(rng, sites):
    return [steps(rng, LONGEST)] * sites


def behind(rng, sites):
    """Each site has the beginning of one journal, and lacks up to a quarter of it."""
    whole = steps(rng, LONGEST)
    return [whole[:LONGEST - rng.randrange(LONGEST // 4 + 1)] for _ in range(sites)]


def one_swap(rng, sites):
    same = equal(rng, sites)
    return same[1:] + [swapped(rng, same[0], 1)]


def drifted(rng, sites, length, swaps):
    """One journal, with swaps of its own at each site."""
    whole = steps(rng, length)
    return [swapped(rng, whole, swaps) for _ in range(sites)]


def some_codes(journals, codes):
    """Without the steps whose code is another."""
    return [bytes(step for step in journal if step < codes) for journal in journals]


def unrelated(rng, sites, length):
    return [steps(rng, length) for _ in range(sites)]


KINDS = [
    ("16 of 200 steps, all equal", lambda rng: equal(rng, 16)),
    ("16 of 200 steps, equal so far, some up to 50 steps behind", lambda rng: behind(rng, 16)),
    ("16 of 200 steps, equal but for one swap in one of them", lambda rng: one_swap(rng, 16)),
    ("six of 30 steps, a swap in each", lambda rng: drifted(rng, 6, 30, 1)),
    ("six of 30 steps, two swaps in each", lambda rng: drifted(rng, 6, 30, 2)),
    ("three of 100 steps, a swap in each", lambda rng: drifted(rng, 3, 100, 1)),
    ("three of 200 steps, two swaps in each", lambda rng: drifted(rng, 3, 200, 2)),
    ("such three, of which only the steps of four codes are loaded", lambda rng: some_codes(drifted(rng, 3, 200, 2), 4)),
    ("six of 20 steps, unlike each other", lambda rng: unrelated(rng, 6, 20)),
    ("two of 100 steps, unlike each other", lambda rng: unrelated(rng, 2, 100)),
]


def line(kind, make):
    sizes = []
    for number in range(TRIES):
        states = model.live_states(tuple(make(random.Random(f"{kind} {number}"))))
        if states is not None:
            sizes.append(len(states))
    rows = round(statistics.median(sizes)) if sizes else "-"
    return f"| {kind} | {len(sizes)} | {rows} |"


def main():
    with open(README) as file:
        page = file.read().splitlines()
    missing = 0
    for kind, make in KINDS:
        said = line(kind, make)
        print(said, flush=True)
        missing += said not in page
    if sys.argv[1:] == ["--same"] and missing:
        sys.exit(f"README.md lacks {missing} of these lines")


if __name__ == "__main__":
    main()
