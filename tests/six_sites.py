#!/usr/bin/env python3
"""Holds the kept text of the example of six sites in Rust (rust/selquorin/examples/six_sites.txt) to the model.

    python3 tests/six_sites.py

The steps and the journals are read from the text itself. The orders, their counts, the sites that lack them and the number of
each refusal are what the model answers. Prints a line for each that differs.
"""
import os
import re
import sys

import model

KEPT = os.path.join(os.path.dirname(os.path.abspath(__file__)), "..", "rust", "selquorin", "examples", "six_sites.txt")
NO_WORD = bytes(model.WORD_RECORD)


def parted(text):
    """The text by its headings, the lines that aren't indented: of each the lines below it."""
    parts = {}
    for line in text.splitlines():
        if line.startswith("  "):
            parts[heading].append(line)
        else:
            heading, parts[line] = line, []
    return parts


def journals_of(heading, lines):
    """The names of the steps, and each site's journal as their codes."""
    names = heading[len("Steps: "):-1].split(", ")
    sites = dict(line.strip().split(": ") for line in lines)
    return names, {site: bytes(names.index(name) for name in journal.split()) for site, journal in sites.items()}


def shared(names, sites):
    """A line for each order of up to two steps that more than half of the sites show, and not all."""
    journals = tuple(sites.values())
    for word in model.words_by_quorum(journals, len(sites) // 2 + 1, 2, None):
        count = model.count(journals, word)
        if count < len(sites):
            lacking = ", ".join(site for site, journal in sites.items() if not model.is_in(word, journal))
            yield f"  {count} of {len(sites)}: {' '.join(names[step] for step in word)}. Not {lacking}."


def trimmed(names, sites, lines):
    """The same lines with the counts and the judgements that the model gives their orders."""
    for line in lines:
        order = re.search(r": (.*?)\.", line)[1]
        count = model.count(tuple(sites.values()), bytes(names.index(name) for name in order.split()))
        may = "a majority, the log may be trimmed" if 2 * count > len(sites) else "no majority, the log is kept"
        yield f"  {count} of {len(sites)}: {order}. That is {may}."


def books_of(*journals):
    books = bytearray(model.JOURNAL_BOOK), bytearray(model.ROW_BOOK)
    model.write_books(*books, tuple(journals))
    return books


def listed(books, quorum, length):
    return model.list_page(*books, quorum, length, False, NO_WORD, bytearray(model.WORD_RECORD))[0]


def refusals(sites):
    """The number that the model answers to each of what the example tries, and what that is."""
    books, flipped = books_of(*sites.values()), books_of(*sites.values())
    flipped[1][48] ^= 1
    full = books_of(*(bytes([step]) * 200 for step in range(4)), bytes([4]) * 199)
    yield model.check(b"", b"")[0], "books from a file that was cut short"
    yield listed(flipped, 1, 2), "a list by books with a flipped bit"
    yield model.append(*books, 16), "step 16"
    yield model.append(*books_of(), 2), "a step before any journal"
    yield model.append(*books_of(bytes([2]) * 200), 2), "a 201st step"
    yield model.append(*full, 4), "a 1,001st row"
    yield model.open_journal(*books_of(*[b""] * 16)), "a 17th site"
    yield listed(books, 7, 2), "a quorum of 7"
    yield listed(books, 4, 16), "orders of up to 16 steps"
    yield model.journal_count(books[0], bytes([16]) + bytes(15))[0], "an order of 16 steps"
    yield from ((number, "the loading program only") for number in (11, 12))
    yield model.row_record_number(books[1], 1000), "row 1,000"


def main():
    with open(KEPT) as file:
        parts = parted(file.read())
    (steps, journals), (_, orders), (_, trims), (_, refused) = parts.items()
    names, sites = journals_of(steps, journals)
    numbers = [re.match(r"  (\d+), (.*?): ", line) for line in refused if line[2] != " "]
    seen = [*orders, *trims, *((int(found[1]), found[2]) for found in numbers)]
    due = [*shared(names, sites), *trimmed(names, sites, trims), *refusals(sites)]
    wrong = [f"six sites: {a} is in the text, the model has {b}" for a, b in zip(seen, due) if a != b]
    if len(seen) != len(due):
        wrong.append(f"six sites: the text has {len(seen)} lines, the model {len(due)}")
    print("\n".join(wrong or [f"six sites: {len(due)} lines are the model's"]))
    sys.exit(bool(wrong))


if __name__ == "__main__":
    main()
