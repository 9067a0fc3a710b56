#!/usr/bin/env python3
"""Runs the program for the desk on every case of the loading program (tests/run_cases.py), whose text it has to print byte
for byte; then its other commands on the same entries, and on kept books that are whole, damaged or of a wrong size. What has
to be printed and kept is what tests/model.py and tests/program_model.py say. Prints a line for each run that goes wrong, and
last `desk: N passed, M failed`.

    python3 tests/run_desk.py PROGRAM
    python3 tests/run_desk.py --keep     writes the line of the damaged books in tests/digests.txt
"""
import os
import random
import re
import subprocess
import sys
import tempfile

import kept
import model
import program_model
import run_cases
from run_cases import MISSING, Wrong, case

BOOKS, ENTRIES = "books.bin", "entries.bin"
KEPT = model.JOURNAL_BOOK + model.ROW_BOOK
DONE, REFUSED, FAILED = 0, 1, 2
DAMAGED = "desk damaged"
OLD = b"what stood there before"


class Desk:
    """The program for the desk. It is told of the ask, has a status, and says a refusal in words besides. Before it runs, its
    language opens an empty device in the place of an input or output that is closed from the start: so that one is an empty
    input to it, and this one takes everything."""
    closed_fails = False

    def __init__(self, path):
        self.path = os.path.abspath(path)

    def command(self, ask):
        return [self.path, "list"] if ask is MISSING else [self.path, "list", "--ask", "ask.bin"]

    def hold(self, ended, failed, printed):
        """Holds how a list ended to what failed, if anything, and to what was printed."""
        said, status = ended
        if not failed:
            hold_ended(said, status, number_of(printed))
        elif status != FAILED or not said.splitlines()[-1].startswith(b"selquorin: " + failed + b": "):
            raise Wrong(f"ends with status {status} and {said[-60:]!r} on standard error, and {failed!r} failed")

    def held(self, folder, number, printed, *words, stdin=b""):
        """Runs a command in a folder: it has to print this, and to be refused with the number, or done if that is 0."""
        ran = subprocess.run([self.path, *words], cwd=folder, input=stdin, capture_output=True, timeout=run_cases.MOST_SECONDS)
        run_cases.same(ran.stdout, printed)
        hold_ended(ran.stderr, ran.returncode, number)


def number_of(printed):
    """The number that a text tells of, 0 if it is no refusal."""
    return int(printed.split()[1]) if printed.startswith(b"refused ") else 0


def hold_ended(said, status, number):
    """Refused with the number, which stands in the one line on standard error; or done, with nothing said, where it is 0."""
    words = rb"selquorin: [^\n]* refused, number %d: [^\n]+\n" % number if number else rb""
    if status != (REFUSED if number else DONE) or not re.fullmatch(words, said):
        raise Wrong(f"ends with status {status} and {said[:120]!r} on standard error, and the number is {number}")


# The folder of a run.

def put(folder, name, data):
    with open(os.path.join(folder, name), "wb") as file:
        file.write(data)


def hold_kept(folder, data):
    """The file of books has these bytes, and nothing else stands in the folder."""
    if os.listdir(folder) != [BOOKS]:
        raise Wrong(f"leaves {sorted(os.listdir(folder))}")
    with open(os.path.join(folder, BOOKS), "rb") as file:
        if file.read() != data:
            raise Wrong("the file of books has other bytes")


# Loading, and listing what was kept.

def options(ask):
    return ["--quorum", str(ask[0]), "--length", str(ask[1])] if ask else []


def load_and_list(desk, stdin, ask, due):
    """Loads over an old file; what is kept then is listed."""
    books, _, refused = program_model.load(stdin)
    with tempfile.TemporaryDirectory() as folder:
        put(folder, BOOKS, OLD)
        desk.held(folder, refused, b"", "load", "--books", BOOKS, stdin=stdin)
        hold_kept(folder, OLD if refused else b"".join(books))
        if not refused and len(ask or b"") in (0, 2):
            desk.held(folder, 0, b"sound\n", "check", "--books", BOOKS)
            desk.held(folder, number_of(due), due, "list", "--books", BOOKS, *options(ask))


def keeping(desk):
    for part in "cases named", "cases random":
        for name, stdin, ask, due in run_cases.part(part)[0]:
            yield f"{name}, kept", lambda: load_and_list(desk, stdin, ask, due)


# Counting.

def count_words(desk, name):
    """Words of the case's steps counted, by the entries and by kept books."""
    chance = random.Random(f"{kept.seed(DAMAGED)} {name}")
    stdin = case(name)[0]
    books = program_model.load(stdin)[0]
    journals = model.journals_of(books[0])
    with tempfile.TemporaryDirectory() as folder:
        put(folder, BOOKS, b"".join(books))
        put(folder, ENTRIES, stdin)
        for length in 0, 1, 2, 3, 4, 5, 16, 30:
            word = chance.choices(model.steps_in(journals) or range(16), k=length)
            steps = [str(step) for step in word]
            due = b"%d of %d\n" % (model.count(journals, bytes(word)), len(journals))
            desk.held(folder, 0, due, "count", *steps, "--books", BOOKS)
        desk.held(folder, 0, due, "count", *steps, stdin=stdin)
        desk.held(folder, 0, due, "count", "--from", ENTRIES, *steps)
        desk.held(folder, 3, b"", "count", "0", "16", "--books", BOOKS)


def counting(desk):
    for name in "example", "one_empty_journal", "no_journal_ask_missing", "journals_16", "journals_16_of_200", "rows_1000", "every_step":
        yield f"{name}, counted", lambda: count_words(desk, name)


# Kept books that aren't sound.

def changed(chance, data):
    """Some bytes changed, mostly near the front of a book and to a value that might be right there."""
    data = bytearray(data)
    for _ in range(chance.choice([1, 1, 2, 5])):
        start, size = chance.choice([(0, 600), (0, model.JOURNAL_BOOK), (model.JOURNAL_BOOK, 800), (model.JOURNAL_BOOK, model.ROW_BOOK)])
        data[start + chance.randrange(size)] = chance.choice([0, 1, 2, 3, 15, 16, 255])
    return bytes(data)


def too_many(chance):
    """Journals that have more states than there are rows."""
    return model.journal_book([bytes(chance.choices(range(16), k=200)) for _ in range(3)])


def damaged(seed):
    """Files of books of the right size: whole ones, changed ones, books of others, journals that need too many rows."""
    chance = random.Random(seed)
    whole = [b"".join(program_model.load(case(name)[0])[0])
             for name in ("example", "one_empty_journal", "journals_16", "empty_between_full", "rows_1000", "every_step")]
    files = [*whole, bytes(KEPT), b"\xff" * KEPT, chance.randbytes(KEPT)]
    files += [changed(chance, chance.choice(whole)) for _ in range(150)]
    files += [one[:model.JOURNAL_BOOK] + other[model.JOURNAL_BOOK:] for one in whole[:4] for other in whole[:4] if one != other]
    files += [one[model.JOURNAL_BOOK:] + one[:model.JOURNAL_BOOK] for one in whole[:2]]
    files += [too_many(chance) + one[model.JOURNAL_BOOK:] for one in (whole[0], bytes(KEPT))]
    return files


def damaged_line(files):
    return kept.line(DAMAGED, kept.seed(DAMAGED), f"{len(files)} files", *files)


def check_and_count(desk, data):
    """What the check says; damaged books are neither listed nor counted by."""
    journals, rows = data[:model.JOURNAL_BOOK], data[model.JOURNAL_BOOK:]
    number, book, record, byte = model.check(journals, rows)
    said = b"book %d record %d byte %d\n" % (book, record, byte) if number else b"sound\n"
    with tempfile.TemporaryDirectory() as folder:
        put(folder, BOOKS, data)
        desk.held(folder, number, said, "check", "--books", BOOKS)
        if number:
            desk.held(folder, 2, b"", "count", "--books", BOOKS)
            desk.held(folder, 2, b"refused 2 books\n", "list", "--books", BOOKS, "--quorum", "1", "--length", "1")
        hold_kept(folder, data)


def rebuild(desk, data):
    """The rows drawn anew; where that is refused, the file stays."""
    journals, rows = data[:model.JOURNAL_BOOK], bytearray(data[model.JOURNAL_BOOK:])
    number = model.rebuild(journals, rows)
    with tempfile.TemporaryDirectory() as folder:
        put(folder, BOOKS, data)
        desk.held(folder, number, b"", "rebuild", "--books", BOOKS)
        hold_kept(folder, journals + rows)


def checking(desk):
    files = damaged(kept.seed(DAMAGED))
    yield DAMAGED, lambda: run_cases.hold_line(DAMAGED, damaged_line(files))
    for n, data in enumerate(files):
        yield f"damaged {n}", lambda: check_and_count(desk, data)
        yield f"damaged {n}, rebuilt", lambda: rebuild(desk, data)


def wrong_size(desk, size):
    with tempfile.TemporaryDirectory() as folder:
        put(folder, BOOKS, bytes(size))
        desk.held(folder, 1, b"", "check", "--books", BOOKS)
        desk.held(folder, 1, b"", "count", "16", "--books", BOOKS)
        desk.held(folder, 1, b"", "rebuild", "--books", BOOKS)
        desk.held(folder, 1, b"refused 1 books\n", "list", "--books", BOOKS, "--length", "16")
        hold_kept(folder, bytes(size))


def sizes(desk):
    for size in 0, 1, model.JOURNAL_BOOK, model.ROW_BOOK, KEPT - 1, KEPT + 1, 2 * KEPT:
        yield f"books of {size} bytes", lambda: wrong_size(desk, size)


if __name__ == "__main__":
    if len(sys.argv) != 2:
        sys.exit(__doc__)
    if sys.argv[1] == "--keep":
        sys.exit(kept.keep([damaged_line(damaged(kept.seed(DAMAGED)))]))
    sys.exit(run_cases.main("desk", Desk(sys.argv[1]), [*run_cases.EVERY, keeping, counting, checking, sizes]))
