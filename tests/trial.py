#!/usr/bin/env python3
"""The script of the trial: what its lines mean, and what they print by tests/model.py.

A script is text, a command a line. Behind its name stand numbers in decimal, each after one space; `200*7` is two hundred
times 7. Each line is printed back, with what was answered behind it: a number, and what is named here.

    clear                             clear
    open STEP ..                      open, and append these steps        taken: how many steps were
    append STEP ..                    append, up to the first refused     taken
    rebuild                           rebuild
    table STEP ..                     table count of a word               count
    count BYTE ..                     journal count of a word record      count
    check                             check                               book, record, byte
    row N                             row record                          places, arcs as STEP:ROW, count, what follows
    journals                          the number of open journals         that number
    rows                              the number of live rows             that number
    list QUORUM LENGTH OUT BYTE ..    list from the start                 written, more, digest, and up to eight words
    after QUORUM LENGTH OUT BYTE ..   list after a word record            the same
    write BOOK PLACE BYTE ..          puts bytes into a book
    lend BOOK LENGTH                  lends so many bytes of a book from now on
    fill BYTE                         makes every byte of the output's room this one
    digest                            digests of the two books' rooms, lent or not

BOOK is 1, the journal book, or 2, the row book. Each has a room of one record more, so that a book can be lent too long, and
a write behind it shows. OUT is the length of the output, whose room is two records longer than the largest; the digest of a
page is that of the output and the record behind it. Digests are CRC-32. Bytes are printed as they are written here, five or
more equal ones as a repeat. Lines that are empty or begin with `#` are printed and do nothing; any other line ends the run.

    python3 tests/trial.py           writes crates/trial/stdout, what crates/trial/stdin must print
    python3 tests/trial.py --same    says whether it is that
"""
import itertools
import os
import random
import re
import sys
import zlib

import model

JOURNAL_ROOM, ROW_ROOM = model.JOURNAL_BOOK + model.JOURNAL_RECORD, model.ROW_BOOK + model.ROW_RECORD
MOST_LENT = model.LARGEST_OUTPUT + model.WORD_RECORD
FEW_WORDS, MANY_EQUAL, MOST_NUMBERS = 8, 5, 8192
# How many numbers of any size stand before the bytes, and how many bytes there may be, where that isn't any number.
HEADS = {"row": 1, "write": 2, "lend": 2, "list": 3, "after": 3}
BYTES = {"fill": 1, **dict.fromkeys(["clear", "rebuild", "check", "row", "journals", "rows", "lend", "digest"], 0)}
COMMAND = re.compile(r"([a-z]+)((?: \d+(?:\*\d+)?)*)")


def runs(data):
    """Bytes as a script has them, each after a space."""
    counted = ((value, len(list(equal))) for value, equal in itertools.groupby(data))
    return "".join(f" {n}*{value}" if n >= MANY_EQUAL else f" {value}" * n for value, n in counted)


def numbers(text):
    """The numbers of a line behind its name."""
    for item in text.split():
        times, star, value = item.partition("*")
        yield from itertools.repeat(int(value), int(times)) if star else [int(item)]


class Broken(Exception):
    """A line that is no command."""


class Trial:
    """The rooms, how much of the books is lent, and what each line prints by a model."""

    def __init__(self, calls=model):
        self.calls = calls
        self.rooms, self.lent = (bytearray(JOURNAL_ROOM), bytearray(ROW_ROOM)), [model.JOURNAL_BOOK, model.ROW_BOOK]
        self.output = bytearray(MOST_LENT + model.WORD_RECORD)

    def line(self, text):
        """What a line prints."""
        if not text or text[0] == "#":
            return text + "\n"
        match = COMMAND.fullmatch(text)
        if match is None:
            raise Broken
        given = list(numbers(match[2]))
        asked, data = given[:HEADS.get(match[1], 0)], given[HEADS.get(match[1], 0):]
        if len(given) > MOST_NUMBERS or len(asked) < HEADS.get(match[1], 0) or max(data, default=0) > 255 \
                or len(data) != BYTES.get(match[1], len(data)) or not hasattr(self, "do_" + match[1]):
            raise Broken
        return text + getattr(self, "do_" + match[1])(*asked, bytes(data)) + "\n"

    def journals(self):
        return memoryview(self.rooms[0])[:self.lent[0]]

    def rows(self):
        return memoryview(self.rooms[1])[:self.lent[1]]

    def books(self):
        if self.lent[0] > JOURNAL_ROOM or self.lent[1] > ROW_ROOM:
            raise Broken
        return self.journals(), self.rows()

    def do_clear(self, _):
        return f" -> {self.calls.clear(*self.books())}"

    def do_open(self, steps):
        number = self.calls.open_journal(*self.books())
        return f" -> {number}" if number else self.do_append(steps)

    def do_append(self, steps):
        books = self.books()
        for taken, step in enumerate(steps):
            number = self.calls.append(*books, step)
            if number:
                return f" -> {number}, taken {taken}"
        return f" -> 0, taken {len(steps)}"

    def do_rebuild(self, _):
        return f" -> {self.calls.rebuild(*self.books())}"

    def do_table(self, word):
        return " -> {}, count {}".format(*self.calls.table_count(self.rows(), word))

    def do_count(self, record):
        return " -> {}, count {}".format(*self.calls.journal_count(self.journals(), record))

    def do_check(self, _):
        return " -> {}, book {}, record {}, byte {}".format(*self.calls.check(*self.books()))

    def do_row(self, n, _):
        answer, given = f" -> {self.calls.row_record_number(self.rows(), n)}", bytes(self.calls.row_record(self.rows(), n))
        if len(given) != model.ROW_RECORD:
            return f"{answer}, length {len(given)}"
        arcs = [int.from_bytes(given[a:a + 2], "little") for a in range(16, 48, 2)]
        shown = "".join(f" {step}:{arc}" for step, arc in enumerate(arcs) if arc)
        return f"{answer}, places{runs(given[:16])}, arcs{shown}, count {given[48]}, then{runs(given[49:])}"

    def do_journals(self, _):
        return " -> {}, {}".format(*self.calls.open_journals(self.journals()))

    def do_rows(self, _):
        return " -> {}, {}".format(*self.calls.live_rows(*self.books()))

    def do_list(self, quorum, length, lent, record):
        return self.page(quorum, length, lent, False, record)

    def do_after(self, quorum, length, lent, record):
        return self.page(quorum, length, lent, True, record)

    def page(self, quorum, length, lent, after, record):
        if lent > MOST_LENT:
            raise Broken
        listed = self.calls.list_page(*self.books(), quorum, length, after, record, memoryview(self.output)[:lent])
        answer = " -> {}, written {}, more {:d}".format(*listed)
        self.listed = [bytes(self.output[a:a + model.WORD_RECORD]) for a in range(0, model.WORD_RECORD * listed[1], model.WORD_RECORD)]
        words = "".join(" |" + runs(r[:r[0] + 1]) for r in self.listed if listed[1] <= FEW_WORDS)
        self.more = listed[2]
        return f"{answer}, digest {zlib.crc32(self.output[:lent + model.WORD_RECORD])}{words}"

    def do_write(self, book, at, data):
        if book not in (1, 2) or at + len(data) > len(self.rooms[book - 1]):
            raise Broken
        self.rooms[book - 1][at:at + len(data)] = data
        return ""

    def do_lend(self, book, length, _):
        if book not in (1, 2):
            raise Broken
        self.lent[book - 1] = length
        return ""

    def do_fill(self, data):
        self.output[:] = data * len(self.output)
        return ""

    def do_digest(self, _):
        return f" -> {zlib.crc32(self.rooms[0])} {zlib.crc32(self.rooms[1])}"

    def printed(self, lines):
        """What a script prints, line by line."""
        for text in lines:
            try:
                yield self.line(text)
            except Broken:
                yield text + " -> broken\n"
                return


class Script:
    """A script as it grows, what it prints by the model, and chance from its seed."""

    def __init__(self, seed):
        self.trial, self.chance = Trial(), random.Random(seed)
        self.lines, self.printed = [], []

    def __call__(self, *lines):
        for line in lines:
            self.lines.append(line)
            self.printed.append(self.trial.line(line))

    def guard(self):
        """The spare record behind each book isn't zero, so that a write behind a book shows."""
        self(f"write 1 {model.JOURNAL_BOOK} 256*165", f"write 2 {model.ROW_BOOK} 64*90")

    def books(self, journals):
        """Books of these journals."""
        self("clear", *["open" + runs(journal) for journal in journals])

    def books_at_once(self, journals):
        """The same books, the journals written as bytes and their rows drawn in one go."""
        self("clear", "write 1 0" + runs(model.journal_book(journals)), "rebuild")

    def last_row(self):
        return model.live_rows(*self.trial.books())[1] - 1

    def random_word(self, steps, longest):
        return bytes(self.chance.choices(steps, k=self.chance.randrange(longest + 1)))

    def with_written(self, writes, lines):
        """Lines while other bytes stand in the books; then the books are as before. Nothing if the bytes are no others."""
        was = [(book, at, bytes(self.trial.rooms[book - 1][at:at + len(data)])) for book, at, data in writes]
        if any(old[2] != bytes(new[2]) for old, new in zip(was, writes)):
            self(*[f"write {book} {at}{runs(data)}" for book, at, data in writes], *lines)
            self(*[f"write {book} {at}{runs(data)}" for book, at, data in reversed(was)])

    def with_lent(self, book, length, lines):
        """Lines while so many bytes of a book are lent."""
        self(f"lend {book} {length}", *lines, f"lend {book} {(model.JOURNAL_BOOK, model.ROW_BOOK)[book - 1]}")


def word_record(word):
    """The numbers of a word's record."""
    return runs(model.steps_record(bytes(word), model.WORD_RECORD))


# The kept script.

CRATE = os.path.join(os.path.dirname(os.path.abspath(__file__)), "..", "crates", "trial")


def kept_lines():
    with open(os.path.join(CRATE, "stdin")) as file:
        return file.read().splitlines()


def main(args):
    lines = kept_lines()
    text = "".join(Trial().printed(lines))
    path = os.path.join(CRATE, "stdout")
    if args == ["--same"]:
        with open(path) as file:
            if file.read() != text:
                sys.exit("crates/trial/stdout is not what the model makes")
    else:
        with open(path, "w") as file:
            file.write(text)
    print(f"the kept script: {len(lines)} lines, {text.count(chr(10))} printed")


if __name__ == "__main__":
    if sys.argv[1:] not in ([], ["--same"]):
        sys.exit(__doc__)
    main(sys.argv[1:])
