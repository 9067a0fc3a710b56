#!/usr/bin/env python3
"""The books and the list of document 01 a second time: plain Python, written from the document alone. Rebuild isn't in the
document, and is written from its own definition: 1, 2 by the journal book's form, 6, else the row book becomes the picture.

Books are bytearrays (or parts of them, as memoryviews) and are changed where they lie. Each call answers for every input,
refused ones included. `python3 tests/model.py --self` holds it to the plain definition of "in" on small random journals; the
worked books and the limits stand in crates/trial/stdout, which it makes.
"""
import itertools
import random
import struct
import sys
from functools import lru_cache
from operator import getitem

STEPS, JOURNALS, LONGEST_JOURNAL, LONGEST_WORD, LOST = 16, 16, 200, 15, 255
JOURNAL_BOOK, JOURNAL_RECORD, ROW_BOOK, ROW_RECORD, ROWS, WORD_RECORD = 4096, 256, 64000, 64, 1000, 16
LARGEST_OUTPUT = 65536


# Words and counts. A journal is the bytes of its steps; journals are a tuple of them; a state is the bytes of k places.

@lru_cache(maxsize=64)
def next_places(journal):
    """For each step a table: from a place to where the step is found next behind it, or to lost."""
    tables = []
    for step in range(STEPS):
        table = bytearray([LOST] * 256)
        for p in reversed(range(len(journal))):
            table[p] = p + 1 if journal[p] == step else table[p + 1]
        tables.append(table)
    return tables


def is_live(state):
    """Some place isn't lost."""
    return state.count(LOST) < len(state)


def steps_in(journals):
    """The steps that some journal has. Any other reaches only what is lost everywhere, and is passed over."""
    return sorted(set(b"".join(journals)))


def live_states(journals):
    """Each live state with the states that its steps reach, by a search over words. None if there are more than 1,000."""
    of_step = [[next_places(journal)[step] for journal in journals] for step in steps_in(journals)]
    reached, words = {}, [bytes(len(journals))]
    while words:
        state = words.pop()
        if state not in reached and is_live(state):
            if len(reached) == ROWS:
                return None
            reached[state] = [bytes(map(getitem, tables, state)) for tables in of_step]
            words += reached[state]
    return reached


def is_in(word, journal):
    """Step by step: each is found, and what follows it is searched for the next."""
    for step in word:
        if step not in journal:
            return False
        journal = journal[journal.index(step) + 1:]
    return True


def count(journals, word):
    """How many journals a word is in."""
    return sum(is_in(word, journal) for journal in journals)


# The two books.

def ascending(states):
    """The rows' order: by place bytes, of which lost is the largest."""
    return sorted(states)


def count_byte(state):
    """Of the open journals those whose place isn't lost."""
    return len(state) - state.count(LOST)


def row(state, arcs):
    """Sixteen places, sixteen arcs of two bytes, the count, zeros. Of the arcs those that aren't 0 are given."""
    ends = [0] * STEPS
    for step, end in arcs:
        ends[step] = end
    return struct.pack("<16s16HB15x", state, *ends, count_byte(state))


@lru_cache(maxsize=64)
def picture(journals):
    """The row book of some journals; None where it is too small for them."""
    reached = live_states(journals)
    if reached is None:
        return None
    states = ascending(reached)
    number = {state: n for n, state in enumerate(states)}
    steps = steps_in(journals)
    rows = (row(state, [(step, number.get(end, 0)) for step, end in zip(steps, reached[state])]) for state in states)
    return b"".join(rows).ljust(ROW_BOOK, b"\0")


def steps_record(steps, size):
    """A length, as many steps, and zeros behind."""
    return (bytes([len(steps)]) + steps).ljust(size, b"\0")


def journal_book(journals):
    """Journals as the book has them."""
    return b"".join(b"\1" + steps_record(j, JOURNAL_RECORD - 1) for j in journals).ljust(JOURNAL_BOOK, b"\0")


def is_zero(data):
    return not bytes(data).strip(b"\0")


def steps_of(record, most):
    """The steps of a length, as many steps, and zeros behind; None where the form is wrong."""
    length = record[0]
    steps, behind = bytes(record[1:1 + length]), record[1 + length:]
    return steps if length <= most and max(steps, default=0) < STEPS and is_zero(behind) else None


@lru_cache(maxsize=64)
def read_book(book):
    """The first record that has not its form or stands open behind a shut one, 16 if all are right; and the journals."""
    journals, shut = [], False
    for i in range(JOURNALS):
        record = book[JOURNAL_RECORD * i:JOURNAL_RECORD * (i + 1)]
        is_open = record[0] == 1
        steps = steps_of(record[1:], LONGEST_JOURNAL) if is_open else b""
        right = steps is not None if is_open else is_zero(record)
        if not right or is_open and shut:
            return i, ()
        journals += [steps] * is_open
        shut = not is_open
    return JOURNALS, tuple(journals)


def first_wrong(book):
    return read_book(bytes(book))[0]


def journals_of(book):
    """The journals of a book that has its form."""
    return read_book(bytes(book))[1]


def sized(journals, rows):
    return len(journals) == JOURNAL_BOOK and len(rows) == ROW_BOOK


def write_books(journals, rows, now):
    journals[:], rows[:] = journal_book(now), picture(now)


# The calls. In each the refusals stand in the document's order.

def clear(journals, rows):
    if not sized(journals, rows):
        return 1
    journals[:], rows[:] = bytes(JOURNAL_BOOK), bytes(ROW_BOOK)
    return 0


def open_journal(journals, rows):
    if not sized(journals, rows):
        return 1
    if check(journals, rows)[0] != 0:
        return 2
    now = journals_of(journals)
    if len(now) == JOURNALS:
        return 7
    write_books(journals, rows, now + (b"",))
    return 0


def append(journals, rows, step):
    if not sized(journals, rows):
        return 1
    if check(journals, rows)[0] != 0:
        return 2
    if step >= STEPS:
        return 3
    now = journals_of(journals)
    if not now:
        return 4
    if len(now[-1]) == LONGEST_JOURNAL:
        return 5
    after = now[:-1] + (now[-1] + bytes([step]),)
    if picture(after) is None:
        return 6
    write_books(journals, rows, after)
    return 0


def rebuild(journals, rows):
    """Draws the row book anew from the journal book alone."""
    if not sized(journals, rows):
        return 1
    if first_wrong(journals) != JOURNALS:
        return 2
    drawn = picture(journals_of(journals))
    if drawn is None:
        return 6
    rows[:] = drawn
    return 0


def open_journals(journals):
    """A number and k, by the journal book alone."""
    if len(journals) != JOURNAL_BOOK:
        return 1, 0
    if first_wrong(journals) != JOURNALS:
        return 2, 0
    return 0, len(journals_of(journals))


def live_rows(journals, rows):
    """A number and how many states are live."""
    if not sized(journals, rows):
        return 1, 0
    if check(journals, rows)[0] != 0:
        return 2, 0
    return 0, len(live_states(journals_of(journals)))


def table_count(rows, word):
    """A number and the count, by a walk along the arcs of whatever the row book holds."""
    if len(rows) != ROW_BOOK:
        return 1, 0
    if any(step >= STEPS for step in word):
        return 3, 0
    present, counted = 0, rows[48]
    if counted > 16:
        return 2, 0
    if counted == 0:
        return 0, 0
    for step in word:
        low = ROW_RECORD * present + 16 + 2 * step
        arc = rows[low] + 256 * rows[low + 1]
        if arc == 0:
            return 0, 0
        if arc <= present or arc >= ROWS:
            return 2, 0
        present, counted = arc, rows[ROW_RECORD * arc + 48]
        if counted == 0 or counted > 16:
            return 2, 0
    return 0, counted


def journal_count(journals, record):
    """A number and the count, by the journals alone."""
    if len(journals) != JOURNAL_BOOK or len(record) != WORD_RECORD:
        return 1, 0
    word = steps_of(record, LONGEST_WORD)
    if word is None:
        return 10, 0
    if first_wrong(journals) != JOURNALS:
        return 2, 0
    return 0, count(journals_of(journals), word)


def check(journals, rows):
    """The number, the book, the record, the byte."""
    if not sized(journals, rows):
        return 1, 0, 0, 0
    wrong = first_wrong(journals)
    if wrong != JOURNALS:
        return 2, 1, wrong, 0
    right = picture(journals_of(journals))
    if right is None:
        return 2, 2, ROWS, 0
    if bytes(rows) == right:
        return 0, 0, 0, 0
    at = next(i for i in range(ROW_BOOK) if rows[i] != right[i])
    return 2, 2, at // ROW_RECORD, at % ROW_RECORD


def row_record_number(rows, n):
    if len(rows) != ROW_BOOK:
        return 1
    return 13 if n >= ROWS else 0


def row_record(rows, n):
    """The record's bytes where they lie, or none of them."""
    return rows[ROW_RECORD * n:ROW_RECORD * (n + 1)] if row_record_number(rows, n) == 0 else rows[:0]


# The list.

@lru_cache(maxsize=65536)
def what_follows(journals, step):
    """Of each journal that has the step: what follows where it is found first. A word that begins with the step is in a
    journal when the rest of the word is in what follows."""
    return tuple(journal[journal.index(step) + 1:] for journal in journals if step in journal)


def words_by_quorum(journals, quorum, length, after):
    """The words of up to a length that a quorum of the journals has, in dictionary order; those after a word only, or None
    for all.

    The journals are what is left of those that have the word so far. Where they are fewer than the quorum, so they are for
    every extension, and none of them is looked at.
    """
    if len(journals) < quorum:
        return
    if after is None:
        yield b""
    if length == 0:
        return
    first = after[0] if after else 0
    for step in range(first, STEPS):
        rest = after[1:] if after and step == first else None
        for word in words_by_quorum(what_follows(journals, step), quorum, length - 1, rest):
            yield bytes([step]) + word


def right_output(out):
    """Whole word records: at least one, and no more than the largest output has."""
    return len(out) % WORD_RECORD == 0 and WORD_RECORD <= len(out) <= LARGEST_OUTPUT


def list_page(journals, rows, quorum, length, after, record, out):
    """A number, how many words were written, and whether there are more."""
    if not sized(journals, rows) or len(record) != WORD_RECORD or not right_output(out):
        return 1, 0, False
    if check(journals, rows)[0] != 0:
        return 2, 0, False
    if length > LONGEST_WORD:
        return 9, 0, False
    now = journals_of(journals)
    if not 1 <= quorum <= len(now):
        return 8, 0, False
    word = steps_of(record, LONGEST_WORD) if after else None
    if after and (word is None or len(word) > length):
        return 10, 0, False
    fit = len(out) // WORD_RECORD
    words = list(itertools.islice(words_by_quorum(now, quorum, length, word), fit + 1))
    page = b"".join(steps_record(word, WORD_RECORD) for word in words[:fit])
    out[:len(page)] = page
    return 0, len(words[:fit]), len(words) > fit


# The model held to plain definitions.

def books_of(*journals):
    """Books made by the calls."""
    books = bytearray(b"\7" * JOURNAL_BOOK), bytearray(b"\7" * ROW_BOOK)
    assert clear(*books) == 0
    for journal in journals:
        assert open_journal(*books) == 0
        assert all(append(*books, step) == 0 for step in journal)
    assert check(*books) == (0, 0, 0, 0) and open_journals(books[0]) == (0, len(journals))
    return books


def words_to(length, steps):
    return [bytes(w) for n in range(length + 1) for w in itertools.product(steps, repeat=n)]


def left_by_deleting(journal):
    """Every word that is in a journal: what is left of it when steps are taken away."""
    return {bytes(c) for n in range(len(journal) + 1) for c in itertools.combinations(journal, n)}


def place(journal, word):
    """A word's place in a journal, by that of the word without its last step."""
    if not word:
        return 0
    p = place(journal, word[:-1])
    return next((j for j in range(p + 1, len(journal) + 1) if journal[j - 1] == word[-1]), LOST) if p != LOST else LOST


def page_of(books, quorum, length, after, fit):
    """The words of a page with room for so many, after a word or from the start, and whether there are more."""
    out = bytearray(b"\7" * WORD_RECORD * fit)
    record = bytes([99] * WORD_RECORD) if after is None else steps_record(after, WORD_RECORD)
    number, written, more = list_page(*books, quorum, length, after is not None, record, out)
    assert number == 0 and out[WORD_RECORD * written:] == b"\7" * WORD_RECORD * (fit - written)
    return [steps_of(out[a:a + WORD_RECORD], length) for a in range(0, WORD_RECORD * written, WORD_RECORD)], more


def hold_counts(js, steps):
    """Every word counted both ways, and the rows' places by their definition; on rows drawn anew, which are those before."""
    left = [left_by_deleting(j) for j in js]
    journals, built = books_of(*js)
    rows = bytearray(b"\7" * ROW_BOOK)
    assert rebuild(journals, rows) == 0 and rows == built
    states = set()
    for word in words_to(6, steps):
        assert table_count(rows, word) == (0, sum(word in words for words in left))
        assert journal_count(journals, steps_record(word, WORD_RECORD)) == table_count(rows, word)
        state = bytes(place(j, word) for j in js)
        if is_live(state):
            states.add(state.ljust(16, b"\0"))
    assert live_rows(journals, rows) == (0, len(states))
    assert sorted(states) == [bytes(rows[ROW_RECORD * n:ROW_RECORD * n + 16]) for n in range(len(states))]


def hold_lists(js, steps, chance):
    """Every page, and the list fetched page by page, against all words up to the length, counted by deleting steps, sorted."""
    left = [left_by_deleting(j) for j in js]
    books = books_of(*js)
    for quorum, length in itertools.product(range(1, len(js) + 1), (0, 1, 3, 6, 15)):
        tried = words_to(min(length, 6), steps)
        whole = sorted(w for w in tried if sum(w in words for words in left) >= quorum)
        for after in [None, *chance.sample(tried, min(len(tried), 5)), bytes(length), bytes([15]) * length]:
            due = whole if after is None else [w for w in whole if w > after]
            for fit in 1, 2, 7, 4096:
                assert page_of(books, quorum, length, after, fit) == (due[:fit], len(due) > fit)
        fetched, more = page_of(books, quorum, length, None, 2)
        while more:
            page, more = page_of(books, quorum, length, fetched[-1], 2)
            fetched += page
        assert fetched == whole


def hold_to_definitions():
    chance = random.Random(1)
    for _ in range(40):
        steps = chance.choice([(0, 1), (0, 1, 2), (14, 15), (0, 7, 15)])
        js = tuple(bytes(chance.choices(steps, k=chance.randrange(7))) for _ in range(chance.randrange(5)))
        hold_counts(js, steps)
        hold_lists(js, steps, chance)


if __name__ == "__main__":
    if sys.argv[1:] != ["--self"]:
        sys.exit(__doc__)
    hold_to_definitions()
    print("model: counts, places and whole lists are those of the plain definitions")
