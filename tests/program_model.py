#!/usr/bin/env python3
"""The loading program of document 01 a second time: plain Python over tests/model.py, written from the document alone.

`printed(entries, ask)` is all that it prints, for every input; ask is None where there is no file.
`python3 tests/program_model.py --self` holds it to the document's example and tries every entry of two bytes.
"""
import sys

import model

ONLY_OPENS, EMPTY_OR_MISSING_LENGTH = 255, 8
EXAMPLE_ENTRIES, EXAMPLE_ASK = b"\0\1\0\2\0\1\1\1\1\1\1\2", b"\2\3"
EXAMPLE = b"""\
texts 2 rows 6
0 2
1 2 1
2 2 1 1
2 2 1 2
1 2 2
end 5
"""


# The entries.

def broken(k, entry):
    """An entry that is cut off, names neither the last journal nor the next, or has a step that is none. To open with 255 is
    right for the next journal only."""
    if len(entry) == 1:
        return True
    number, step = entry
    return number not in (k - 1, k) or model.STEPS <= step < ONLY_OPENS or step == ONLY_OPENS and number == k - 1


def take(journals, rows, entry):
    """Takes an entry. A number; the books are changed only where it is 0."""
    k = model.open_journals(journals)[1]
    if broken(k, entry):
        return 11
    number, step = entry
    if number == k - 1:
        return model.append(journals, rows, step)
    if step == ONLY_OPENS:
        return model.open_journal(journals, rows)
    return open_and_append(journals, rows, step)


def open_and_append(journals, rows, step):
    """Both calls on copies, which become the books if neither is refused."""
    opened = bytearray(journals), bytearray(rows)
    refused = model.open_journal(*opened) or model.append(*opened, step)
    if refused == 0:
        journals[:], rows[:] = opened
    return refused


def load(entries):
    """The books, how many entries were taken, and the number that ended it.

    Of long runs the books are kept, as many cases begin with the same entries.
    """
    begun = max(filter(entries.startswith, LOADED), key=len)
    books = tuple(map(bytearray, LOADED[begun]))
    for at in range(len(begun), len(entries), 2):
        refused = take(*books, entries[at:at + 2])
        if refused:
            keep(entries[:at], books)
            return books, at // 2, refused
    keep(entries, books)
    return books, len(entries) // 2, 0


LOADED = {b"": (bytes(model.JOURNAL_BOOK), bytes(model.ROW_BOOK))}


def keep(entries, books):
    if len(entries) >= 100:
        LOADED[entries] = tuple(map(bytes, books))


# The ask.

def asked(books, ask):
    """A number, the quorum, the length. Where no ask is given, the quorum is the count of the empty word. An ask of a wrong
    size has no quorum and length to be judged; these then are in the list's order."""
    every = model.table_count(books[1], b"")[1]
    if not ask:
        ask = bytes([every, EMPTY_OR_MISSING_LENGTH])
    if len(ask) != 2:
        return 12, 0, 0
    quorum, length = ask
    if length > model.LONGEST_WORD:
        return 9, 0, 0
    if quorum < 1 or quorum > every:
        return 8, 0, 0
    return 0, quorum, length


# The text.

def line(*parts):
    return " ".join(map(str, parts)) + "\n"


def printed_list(books, quorum, length):
    journals = model.journals_of(books[0])
    words = list(model.words_by_quorum(journals, quorum, length, None))
    yield line("texts", model.open_journals(books[0])[1], "rows", model.live_rows(*books)[1])
    for word in words:
        yield line(len(word), model.count(journals, word), *word)
    yield line("end", len(words))


def printed(entries, ask):
    """The list, or the one line of a refusal."""
    books, record, refused = load(entries)
    if refused:
        return line("refused", refused, "record", record).encode()
    refused, quorum, length = asked(books, ask)
    if refused:
        return line("refused", refused, "ask").encode()
    return "".join(printed_list(books, quorum, length)).encode()


# The model held to the document.

def due(k, number, step):
    """The number of an entry with k empty journals open, by the document's sentences read one by one."""
    if 16 <= step <= 254:
        return 11
    if number == k:
        return 7 if number == 16 else 0
    if number == k - 1:
        return 11 if step == 255 else 0
    return 11


def hold_to_document():
    """The example; every entry of two bytes after some journals were opened, of which those that are refused change nothing."""
    assert printed(EXAMPLE_ENTRIES, EXAMPLE_ASK) == EXAMPLE
    assert load(EXAMPLE_ENTRIES) == (model.books_of(b"\1\2\1", b"\1\1\2"), 6, 0)
    for k in 0, 1, 2, 15, 16:
        books, _, refused = load(bytes(byte for number in range(k) for byte in (number, ONLY_OPENS)))
        assert refused == 0 and books == model.books_of(*[b""] * k)
        for number in range(256):
            for step in range(256):
                if due(k, number, step):
                    assert take(*books, bytes([number, step])) == due(k, number, step)
        assert books == model.books_of(*[b""] * k)


if __name__ == "__main__":
    if sys.argv[1:] != ["--self"]:
        sys.exit(__doc__)
    hold_to_document()
    print("program model: the example and every entry hold")
