"""The generated parts of the trial that try the calls on the books. Each fills a script from a seed of its own."""
import struct

import model
from trial import runs, word_record

# Every call but clear and rebuild, and then the digests, which show what was written.
EVERY_CALL = ["check", "journals", "rows", "open", "append 1", "append 16", "table", "table 1", "table 1 2", "table 2 1 1",
              "table 3 3 3", "table 1 16", "count" + word_record([1, 2]), "count" + word_record([1, 16]), "row 0", "row 5",
              "row 1000", "digest"]
# Rebuild, and what then stands there.
REBUILD = ["rebuild", "digest", "check", "rows"]
DAMAGED = (1, 2, 1, 3), (1, 1, 2), (3, 1, 2)


def word(steps):
    """A word counted both ways; by the journals only if it fits a word record."""
    both = ["table" + runs(steps), "count" + word_record(steps)]
    return both[:2 if len(steps) < model.WORD_RECORD else 1]


def words(all_steps):
    return [line for steps in all_steps for line in word(steps)]


def guards(s):
    """Every call on books of zeros, then on books filled with bytes that are no books; clear makes them zero."""
    s("digest", *EVERY_CALL, *REBUILD)
    s("write 1 0" + runs(s.chance.randbytes(model.JOURNAL_BOOK)))
    s("write 2 0" + runs(s.chance.randbytes(1280)), "write 2 62720" + runs(s.chance.randbytes(1280)))
    s(*EVERY_CALL, *REBUILD, "clear", "digest")


def worked(s):
    """The worked books step by step, and every word of up to three steps out of four counted both ways."""
    s("clear", "table", "row 0")
    for journal in (1, 2, 1), (1, 1, 2):
        s("open", "digest")
        for step in journal:
            s(f"append {step}", "digest", "rows")
    s("check", *[f"row {n}" for n in range(8)], *words(model.words_to(3, range(4))))
    s.books([b""])
    s("digest", "row 0", "row 1", *words([b"", b"\0"]))
    s.books([b"\1\1", b""])
    s("digest", "append 1", "digest", *[f"row {n}" for n in range(4)])


def lengths_and_steps(s):
    """The last step of a full journal and one more, step 15 and those above, no journal, sixteen journals and one more. Of
    several refusals that hold at once the first in the call's order comes: damage before 5 and 7, a wrong size before all."""
    steps = [f"append {step}" for step in (0, 15, 16, 255)]
    s("clear", *steps, "digest", "open" + runs(n * n % 7 for n in range(199)), "digest")
    s("append 15", "append 15", *steps[2:], "digest", "check", *words([[15], [0, 15]]))
    s.with_written([(2, 70, [1])], EVERY_CALL)
    s.with_lent(1, 4095, EVERY_CALL)
    s.books([b""] * 15)
    s(*["digest", "open"] * 3, "digest", "append 15 0 15", "append 16", "open", "digest", "check", "journals", "rows")
    s(*words([b"", b"\17", b"\17\0\17", b"\17\17\17"]))
    s.with_written([(2, 70, [1])], EVERY_CALL)
    s.with_lent(2, 63999, EVERY_CALL)
    s.books([bytes([step]) for step in range(16)])
    s("open", "digest", *words([step] for step in range(16)))


def journal_damage():
    """Each field of a journal record, in the first, the last open, the first that isn't open and the last record."""
    for i in 0, 2, 3, 15:
        length = len(DAMAGED[i]) if i < len(DAMAGED) else 0
        for at, value in (0, 0), (0, 1), (0, 2), (0, 255), (1, length + 1), (1, 0), (1, 200), (1, 201), (1, 255), (2, 4), (2, 15), \
                (2, 16), (2, 255), (length + 1, 16), (length + 2, 1), (201, 1), (202, 1), (255, 1), (255, 255):
            yield [(1, 256 * i + at, [value])]
    # An open record behind one that isn't, of right form and of wrong form; a gap among the open ones.
    yield [(1, 256 * 4, [1, 1, 2])]
    yield [(1, 256 * 15, [1, 0])]
    yield [(1, 256 * 4, [1, 201])]
    yield [(1, 256, bytes(256))]
    # A third journal that is gone, and a fourth that is new, by their bytes: right form, another picture.
    yield [(1, 512, bytes(256))]
    yield [(1, 768, [1, 2, 1, 2])]
    # A whole journal of 200 steps, and of one more.
    yield [(1, 512, bytes([1, 200]) + bytes(n % 3 for n in range(200)))]
    yield [(1, 512, bytes([1, 201]) + bytes(n % 3 for n in range(201)))]
    # Two records that are wrong: the first is named. Both books wrong: book 1 is named.
    yield [(1, 256, [2]), (1, 0, [2])]
    yield [(2, 3, [7]), (1, 512 + 255, [1])]


def row_damage(chance, rows, last):
    """Each field of a row, in the first, the second, a middle, the last row, the one behind it and the last record."""
    for n in 0, 1, last // 2, last, last + 1, 999:
        for at in 0, 2, 3, 15, 16, 17, 18, 19, 20, 21, 46, 47, 48, 49, 63:
            for value in (rows[64 * n + at] + 1) % 256, chance.randrange(256), 255:
                yield [(2, 64 * n + at, [value])]
    # Two rows changed over, a row twice, a row left out, and the first of two bytes that differ.
    row = [bytes(rows[64 * n:64 * n + 64]) for n in range(last + 1)]
    yield [(2, 64, row[2] + row[1])]
    yield [(2, 64 * (last + 1), row[last])]
    yield [(2, 64 * last, bytes(64))]
    yield [(2, 64 * 2 + 5, [1]), (2, 64 * 3, [1])]


def damage(s):
    """Damaged books of every kind through every call: none but the counts and the row record does anything with them. Then
    each byte of some records by itself, for what the check says. A wrong size comes before damage."""
    s.books(DAMAGED)
    s("digest")
    last = s.last_row()
    for writes in [*journal_damage(), *row_damage(s.chance, s.trial.rooms[1], last)]:
        s.with_written(writes, EVERY_CALL)
    for book, size, records in (1, 256, (0, 2, 3, 15)), (2, 64, (0, 1, last, last + 1, 999)):
        for at in [size * record + i for record in records for i in range(size)]:
            s.with_written([(book, at, [s.chance.randrange(17, 255)])], ["check"])
    s("lend 1 4097")
    s.with_written([(2, 70, [1])], EVERY_CALL)
    s.with_written([(1, 0, [2])], [*EVERY_CALL, "rebuild"])
    s("lend 1 4096", "check", "open", "digest")


def rebuilt(s):
    """Damaged books of every kind drawn anew: any row book, beside each journal book that has its form, whatever journals it
    holds. The row book of the journals as they were comes back by rebuilding too. Last a row book of no zeros at all."""
    s.books(DAMAGED)
    s("digest")
    for writes in [*journal_damage(), *row_damage(s.chance, s.trial.rooms[1], s.last_row())]:
        s.with_written(writes, REBUILD)
        s("rebuild")
    s("digest", *[f"write 2 {8000 * n} 8000*{n + 1}" for n in range(8)], *REBUILD, "clear", *REBUILD)


def wrong_sizes(s):
    """Each book too short and too long, through every call, and that refusal before all others. Clear leaves every byte."""
    lines = [*EVERY_CALL, "clear", "rebuild", "table 255", "count 16*255", "digest"]
    s.books(DAMAGED)
    s("digest")
    for book, lengths in (1, (0, 1, 256, 4095, 4097, 4352)), (2, (0, 1, 63, 64, 63936, 63999, 64001, 64064)):
        for length in lengths:
            s.with_lent(book, length, lines)
    s("lend 1 4095")
    s.with_lent(2, 64001, lines)
    s("lend 1 4096", *EVERY_CALL)


def word_records(s):
    """Word records of every size up to 40, of right and of wrong form, on a right and on a damaged journal book."""
    records = [record for size in range(41) for record in (bytes(size), (b"\2\1\1" + bytes(40))[:size], [16] * size)]
    for length in 0, 1, 2, 14, 15, 16, 17, 200, 255:
        for step in 0, 1, 15, 16, 255:
            records += [[length] + [step] * 15, ([length] + [step] * length + [0] * 16)[:16]]
    records += [[7] + [value if i == at else 0 for i in range(1, 16)] for at in range(1, 16) for value in (1, 16)]
    lines = ["count" + runs(record) for record in records]
    s.books(DAMAGED)
    s(*lines)
    s.with_written([(1, 3, [16])], lines)
    s("digest")


def row_numbers(s):
    """Row numbers of every size, those among them whose 64-fold does not fit 64 bits."""
    s.books(DAMAGED)
    for n in [*range(12), 998, 999, 1000, 1001, 65535, 65536, 2 ** 31, 2 ** 32, 2 ** 57, 2 ** 58, 2 ** 58 + 1, 2 ** 63, 2 ** 64 - 1]:
        s(f"row {n}")


def garbage_row(chance, n, top):
    """A row of no picture: arcs of every kind, and counts of every kind."""
    near = [0, n, n + 1, n + 2, top, max(n - 1, 0), 999, 1000, 1001, 65535]
    arcs = chance.choices(near, weights=[4, 1, 20, 20, 6, 1, 2, 1, 1, 1], k=16)
    counts = chance.choices([chance.randrange(1, 17), 16, 0, 17, 255], weights=[30, 4, 1, 1, 1])
    return chance.randbytes(16) + struct.pack("<16HB", *arcs, *counts) + chance.randbytes(15)


def garbage(s):
    """The table count on row books that are no picture: arcs that do not rise, arcs of 1,000 or more, counts of 0 and above
    16, at row 0 and on the way; words of many lengths, with steps above 15 behind the place where it would end."""
    for turn in range(6):
        s("clear", "write 2 0" + runs(b"".join(garbage_row(s.chance, n, 40) for n in range(41))))
        s(f"write 2 {64 * 999}" + runs(garbage_row(s.chance, 999, 999)))
        for first in (0, 1, 15, 16, 17, 128, 255) if turn == 0 else [3]:
            s(f"write 2 48 {first}", "table", "table 16", *[f"table {step}" for step in range(16)])
        s("write 2 48 3")
        for _ in range(150):
            line = "table" + runs(s.random_word(range(16), s.chance.choice([2, 5, 12, 60])))
            s(line, *[f"{line} {s.chance.randrange(16, 256)}" for _ in range(s.chance.random() < 0.2)])
        s(*EVERY_CALL)


def chain(s):
    """A chain over all thousand rows, by step 3 to the next row, and by step 5 to the last: words of up to 1,001 steps."""
    for n in range(1000):
        s(f"write 2 {64 * n + 22}" + runs(struct.pack("<3H", n + 1, 0, 999)), f"write 2 {64 * n + 48} {1 + n % 16}")
    for length in 0, 1, 2, 255, 256, 257, 512, 998, 999, 1000, 1001:
        s(*[f"table {length}*3{behind}" for behind in ("", " 5", " 4", " 16")])
    s("table 5 5", "clear", "digest")


def far_too_many_states(s):
    """Sixteen journals of 200 steps, written as bytes: of right form, with more states than anyone could visit."""
    journals = [bytes(s.chance.choices(range(16), k=200)) for _ in range(16)]
    s("write 1 0" + runs(model.journal_book(journals)), *EVERY_CALL, *REBUILD)
    s(*words(s.random_word(range(16), 15) for _ in range(20)), *word(journals[3][:15]), "clear", "digest")


def thousand_rows(s):
    """Books of just 1,000 rows, on the way there and beyond: each further step is refused with 6 and leaves every byte. With
    1,001 states by the journal book's bytes the check says 2 2 1000 0, whatever the row book holds. A sixth journal can be
    opened, and takes each step that makes as many states as it ends, but none that makes one more; when it is full it is
    refused with 5 and not with 6. Rebuild draws the 1,000 rows anew, and refuses one more."""
    s.books_at_once([bytes([step]) * 200 for step in range(4)])
    s("append 3", "open")
    for n in range(199):
        s("append 4", *["digest", "rows"] * (n % 20 == 0))
    s("check", "rows", "digest", "append 4", "digest", "append 5", "append 16", "digest")
    s(*[f"row {n}" for n in (0, 1, 198, 199, 200, 201, 500, 998, 999, 1000)])
    for step in range(6):
        s(*words([[step], [step] * 15]), *[f"table {length}*{step}" for length in (16, 198, 199, 200, 201)])
    s(*word([0, 1]), "table 1000*0")
    more = [(1, 4 * 256 + 1, [200]), (1, 4 * 256 + 2 + 199, [4])]
    s.with_written(more, [*EVERY_CALL, *REBUILD])
    s.with_written([*more, (2, 0, [9]), (2, 999 * 64 + 50, [9])], [*EVERY_CALL, *REBUILD])
    s.with_written([(2, 0, [9]), (2, 999 * 64 + 48, [9])], REBUILD)
    s("check", "open", "digest", "append 5", "digest")
    for n in range(40):
        s("append 0", *["append 1", "digest", "rows"] * (n % 8 == 0))
    s(f"write 1 {5 * 256 + 1} 198", "rebuild", "append 0 0", "append 0", "append 5", "digest", "check", "journals")


def random_journals(s):
    """Random journals: the rows by their digest, and words counted both ways, those that are in and those that are not.
    Each twentieth time they are so long that many steps are refused with 6."""
    for turn in range(160):
        steps = s.chance.sample(range(16), s.chance.choice([1, 2, 2, 3, 4, 6, 16]))
        k = s.chance.choice([1, 2, 2, 3, 3, 4, 5, 7, 10, 16])
        longest = {1: 80, 2: 22, 3: 12, 4: 9, 5: 8}.get(k, 6)
        s("clear")
        for _ in range(k):
            s("open")
            journal = bytes(s.chance.choices(steps, k=3 * longest if turn % 20 == 19 else s.chance.randrange(longest + 1)))
            for step in journal:
                s(f"append {step}", *["digest"] * (s.chance.random() < 0.3))
            s(*word(s.random_word(steps, 4)), *word(bytes(step for step in journal if s.chance.random() < 0.4)[:15]))
        s("check", "journals", "rows", "digest", *words(s.random_word(steps, 7) for _ in range(6)))
        s(*[f"row {s.chance.randrange(60)}" for _ in range(3)])


def random_damage(s):
    """Random journals, and random bytes written into either book; where that leaves a journal book, it is drawn anew."""
    for _ in range(40):
        s.books([s.random_word(range(4), 6) for _ in range(s.chance.randrange(1, 5))])
        rooms = 256 * 5, 64 * (s.last_row() + 2)
        for _ in range(8):
            books = s.chance.choices([1, 2], k=s.chance.randrange(1, 4))
            values = 0, 1, 2, 3, 255, s.chance.randrange(256)
            lines = ["check", "journals", "rows", "open", f"append {s.chance.randrange(18)}",
                     *words(s.random_word(range(4), 5) for _ in range(2)), f"row {s.chance.randrange(20)}", "digest", *REBUILD]
            s.with_written([(book, s.chance.randrange(rooms[book - 1]), [s.chance.choice(values)]) for book in books], lines)
            s("rebuild")


PARTS = guards, worked, lengths_and_steps, damage, rebuilt, wrong_sizes, word_records, row_numbers, garbage, chain, far_too_many_states, \
    random_damage, thousand_rows, random_journals
