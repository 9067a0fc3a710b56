"""The generated parts of the trial that try the list. Each fills a script from a seed of its own."""
import itertools

import model
from trial import runs

PAGES = 1, 2, 7, 4096
HUGE = 17, 255, 256, 65536, 2 ** 32, 2 ** 32 + 1, 2 ** 63, 2 ** 64 - 1
TWO = b"\1\2\1", b"\1\1\2"
THREE = b"\1\2\1\3", b"\1\1\2", b"\3\1\2"


# Lines that ask for a page.

def ask(quorum, length, output=32, after=0, record=bytes(16)):
    """The list call with anything at all."""
    return f"{'after' if after else 'list'} {quorum} {length} {output}{runs(record)}"


def page(s, quorum, length, words, after=None):
    """A page with room for so many words, from the start, with bytes that are no word record, or after a word."""
    record = s.chance.randbytes(16) if after is None else model.steps_record(after, 16)
    return ask(quorum, length, 16 * words, after is not None, record)


def in_pages(s, quorum, length, pages=PAGES):
    """The list fetched until none remains, each page after the last word of the one before; for each size of a page."""
    for words in pages:
        s(page(s, quorum, length, words))
        while s.trial.more:
            s(page(s, quorum, length, words, model.steps_of(s.trial.listed[-1], model.LONGEST_WORD)))


def journals(s):
    return model.journals_of(s.trial.rooms[0][:model.JOURNAL_BOOK])


def first_words(s, quorum, length, most):
    """The list's first words by the model, to choose from."""
    return list(itertools.islice(model.words_by_quorum(journals(s), quorum, length, None), most))


# The parts.

def no_journal(s):
    """No journal at all: 8 for every quorum, with every length, from the start and after a word; 9 comes before."""
    s("fill 165", "clear")
    for quorum, length, after in itertools.product((0, 1, 2, 16, *HUGE), (0, 1, 15, 16), (0, 1)):
        s(ask(quorum, length, after=after))
    s("digest")


def worked(s):
    """P7, whole and in pages, and every quorum and length on the same books; the five words of the program's example. With
    quorum 2 the word 1 1 2 is skipped and 1 2 behind it is not. Then one empty journal: the empty word only. P10's books."""
    s.books(TWO)
    s("digest")
    for quorum, length in itertools.product((1, 2), range(17)):
        in_pages(s, quorum, length, (3, 1, 2, 7, 4096) if length == 3 else (1, 7))
    s("digest")
    s.books([b""])
    for quorum, length in itertools.product(range(3), (0, 1, 15)):
        in_pages(s, quorum, length)
    s.books([b"\1\1", b""])
    for more in [], ["append 1"]:
        s(*more)
        in_pages(s, 1, 5)
        in_pages(s, 2, 5)


def quorums(s):
    """Quorum 0 is refused, 1 to k are taken, k + 1 is refused, and so is a huge one: of one, two, five and sixteen journals."""
    for k in 1, 2, 5, 16:
        s.books([bytes(s.chance.choices((1, 2, 7), k=4)) for _ in range(k - 1)] + [b"\1\2\7\1"])
        for quorum in range(k + 3):
            s(f"fill {quorum}", page(s, quorum, 4, 7), page(s, quorum, 4, 4096), page(s, quorum, 4, 3, b"\1"))
        for quorum in HUGE:
            s(page(s, quorum, 4, 2), page(s, quorum, 4, 2, b"\1"))
        s("digest")


def lengths(s):
    """Length 0 to 15 is taken, 16 is refused, and so is a huge one: on journals of up to twenty steps, whose words of fifteen
    steps are listed and no longer one. Length 0 lists the empty word only. A word of 15 steps is after-word to itself."""
    s.books([b"\3" * 20, b"\3\5" * 8, b"\5" + b"\3" * 15])
    for length in [*range(17), *HUGE]:
        s("fill 255", page(s, 3, length, 4096), page(s, 3, length, 3), page(s, 2, length, 2, b""), page(s, 1, length, 7, b"\3"),
          page(s, 1, length, 4096), page(s, 3, length, 2, b"\3" * min(length, 15)), page(s, 1, length, 2, b"\5" * min(length, 15)))
    in_pages(s, 3, 15)
    in_pages(s, 2, 15, (7,))


def after_words(s):
    """After each word that is in the list, the last one among them, after which none remains. After words that are not:
    below the quorum, between two words, before all but the empty one, and after all others. Longer than the list length is
    10, and as long is not. Of wrong form is 10."""
    s.books([b"\1\2\1\7", b"\1\1\2\7", b"\2\1\7\1"])
    for quorum, length in (1, 3), (2, 4), (3, 2), (2, 15):
        listed = first_words(s, quorum, length, 40)
        below = [w for w in model.words_to(3, (1, 2, 7)) if len(w) <= length and w not in listed]
        between = [w + bytes([step]) for w in listed if len(w) < length for step in (0, 3, 15)]
        others = [w for words in (below, between) for w in s.chance.sample(words, min(len(words), 20))]
        for word in [*listed, *others, bytes(length), bytes([15]) * length]:
            s(page(s, quorum, length, s.chance.choice([1, 2, 3]), word), page(s, quorum, length, 40, word))
        for word in [w for w in model.words_to(3, (1, 7)) if len(w) == length + 1] + [bytes(15), bytes([1]) * 15]:
            s(page(s, quorum, length, 2, word))
    for length in range(16):
        s(page(s, 2, length, 2, bytes([1]) * length), page(s, 2, length, 2, bytes([1]) * min(length + 1, 15)))
    for record in wrong_records():
        s(ask(2, 15, after=1, record=record), ask(2, 2, after=1, record=record), ask(2, 15, record=record))


def wrong_records():
    """Word records of wrong form: a length above 15, a step above 15, first, last and behind the length, bytes that are not
    zero behind the length. Right ones stand beside them."""
    for length, step in itertools.product((15, 16, 17, 128, 255), (0, 1, 15, 16, 255)):
        yield [length] + [step] * 15
    for length, at, value in itertools.product((0, 1, 7, 14, 15), range(1, 16), (1, 16)):
        yield [length] + [value if i == at else 0 for i in range(1, 16)]


def sizes(s):
    """A word record of wrong size is 1, from the start too, where its content is nothing to the call; bytes of the right size
    that are no word record are taken there. Outputs of every kind, and books of wrong size."""
    s.books(THREE)
    for size, after in itertools.product([*range(20), 31, 32, 33, 48, 256], (0, 1)):
        s(ask(1, 3, after=after, record=bytes(size)), ask(1, 3, after=after, record=b"\1" * size))
    for record in [255] * 16, [16] + [0] * 15, [1, 16] + [0] * 14, [3] * 16:
        s(ask(1, 3, 64, record=record))
    for output in [*range(34), 40, 48, 56, 64, 100, 112, 120, 128, 1024, 4096, 65519, 65520, 65528, 65535, 65536, 65537, 65544,
                   65552]:
        s(f"fill {output % 251}", ask(1, 3, output), ask(2, 3, output, 1, model.steps_record(b"\1", 16)))
    for book, room in (1, (0, 256, 4095, 4097, 4352)), (2, (0, 64, 63999, 64001, 64064)):
        for length in room:
            s.with_lent(book, length, [ask(1, 3), ask(1, 3, after=1), ask(9, 16, after=1, record=[255] * 16)])
    in_pages(s, 2, 3)


def number_order(s):
    """Every choice of a wrong size, damage, a wrong length, a wrong quorum and a wrong word together, for the order of their
    numbers. Each refusal leaves every byte of the output."""
    lines = [ask(high, 16 if length else 14, 24 if size else 48, 1, record)
             for size, length, quorum, word in itertools.product((False, True), repeat=4)
             for high in ((3, 0, 2 ** 64 - 1) if quorum else (2,))
             for record in (([1, 16] + [0] * 14, [15] + [1] * 15) if word else ([1, 1] + [0] * 14,))]
    s.books(TWO)
    s("fill 60", *lines)
    s.with_written([(1, 3, [16])], lines)
    s.with_written([(2, 48, [1])], lines)
    s.with_lent(2, model.ROW_BOOK + 1, lines)


def damaged(s, rows, last):
    """One byte of each field of both books; three journals with more states than there are rows; no journal beside rows."""
    for n, at in itertools.product((0, 1, last, last + 1, 999), (0, 2, 3, 15, 16, 18, 19, 47, 48, 49, 63)):
        yield [(2, 64 * n + at, [rows[64 * n + at] ^ 1])]
    fields = (0, 0), (0, 1), (0, 2), (1, 2), (1, 201), (2, 5), (2, 16), (201, 1), (255, 1)
    for i, (at, value) in itertools.product((0, 2, 3, 15), fields):
        yield [(1, 256 * i + at, [value])]
    yield [(1, 256 * i, bytes([1, 200]) + bytes(s.chance.choices(range(16), k=200))) for i in range(3)]
    yield [(1, 0, bytes(model.JOURNAL_BOOK))]


def damage(s):
    """Damaged books are 2, and no byte is written. Where the bytes are put back, the list is there again."""
    s.books(THREE)
    s("fill 119")
    for writes in damaged(s, s.trial.rooms[1], s.last_row()):
        s.with_written(writes, [page(s, 1, 3, 2), page(s, 1, 3, 2, b"\1")])
        s(page(s, 2, 2, 2))
    s("digest")


def equal_journals(s):
    """Equal journals count separately: three equal ones of five reach quorum 3; sixteen equal ones reach every quorum."""
    s.books([b"\4\5\4", b"\5\4", b"\4\5\4", b"\4\5\4", b""])
    for quorum in range(1, 7):
        in_pages(s, quorum, 3, (2, 7))
    s.books([b"\0\17\0"] * 16)
    for quorum in 1, 2, 15, 16, 17:
        in_pages(s, quorum, 3, (1, 7))
    s.books([bytes(range(16))] * 2 + [bytes(reversed(range(16)))])
    for quorum in 1, 2, 3:
        in_pages(s, quorum, 2, (7, 4096))


def bytes_that_stay(s):
    """Pages that the list does not fill, over many bytes: those behind the last word stay, and so do those behind the output.
    A full page, one word more and one word less than the list has."""
    s.books(THREE)
    for quorum in 1, 2, 3:
        words = first_words(s, quorum, 4, 4096)
        for byte, more in itertools.product((0, 1, 90, 255), (-1, 0, 1, 2, 4096 - len(words))):
            room = max(len(words) + more, 1)
            s(f"fill {byte}", page(s, quorum, 4, room), page(s, quorum, 4, room, b""), page(s, quorum, 4, 3, words[-2]))
    s("digest")


def all_steps(s):
    """All sixteen steps: the list of up to three of them, whole, in pages of 4,096; and its last page, after each step."""
    s.books([bytes(range(16)) * 3])
    in_pages(s, 1, 3, (4096,))
    for step in range(16):
        s(*[page(s, 1, 3, 5, bytes(word)) for word in ([step], [step, 15, 15], [15, 15, step])])


def random_journals(s):
    """Random journals: whole lists in pages of 1, 2, 7 and 4,096 words, with each quorum from 1 to k and a length from 0 to 15,
    the small pages where the list is short; k + 1 is refused; after words of all kinds; now and then the room is filled."""
    for _ in range(42):
        steps = s.chance.sample(range(16), s.chance.choice([1, 2, 2, 3, 4, 6, 16]))
        k = s.chance.choice([1, 2, 2, 3, 3, 4, 5, 7, 10, 16])
        s.books([s.random_word(steps, {1: 12, 2: 14, 3: 10, 4: 8, 5: 7}.get(k, 5)) for _ in range(k)])
        for quorum in range(1, k + 2):
            length = s.chance.randrange(16)
            words = len(first_words(s, min(quorum, k), length, 12 * PAGES[-1]))
            s(f"fill {s.chance.randrange(256)}")
            in_pages(s, quorum, length, [size for size in PAGES if words < 12 * size])
            for _ in range(2):
                s(page(s, quorum, length, s.chance.choice([1, 2, 7, 100]), s.random_word(steps, length)))
        s(page(s, k, 16, 2), page(s, 0, 15, 2))
    s("digest")


def near_thousand(s):
    """Books near 1,000 rows: pages of 4,096 words from the start and from the middle of lists that are too long to fetch, and
    whole lists, of short words or of a high quorum. Random journals, of which the last grows until a step is refused with 6;
    and books of just 1,000 rows."""
    for k, steps, longest in (2, 4, 100), (3, 3, 32), (4, 16, 30):
        s.books([bytes(s.chance.choices(range(steps), k=longest)) for _ in range(k - 1)])
        s("open")
        while not s.printed[-1].endswith("-> 6, taken 0\n"):
            s(f"append {s.chance.randrange(steps)}")
        s("digest", "rows")
        for quorum in range(1, k + 2):
            s(page(s, quorum, 15, 4096), page(s, quorum, 15, 4096, s.random_word(range(steps), 15)))
            s(page(s, quorum, 8, 4096, journals(s)[0][5:12]), page(s, quorum, 15, 7, s.random_word(range(steps), 15)))
            in_pages(s, quorum, 3, (4096,))
            in_pages(s, quorum, 2, (7, 4096))
            # The list of quorum 4 has few words, of any length.
            if quorum == 4 <= k:
                in_pages(s, quorum, 15, (7, 4096))
    s.books_at_once([bytes([step]) * 200 for step in range(4)] + [bytes([4]) * 199])
    for quorum in 1, 2, 5, 6:
        in_pages(s, quorum, 15, (7, 4096))
    s("digest")


PARTS = no_journal, worked, quorums, lengths, after_words, sizes, number_order, damage, equal_journals, bytes_that_stay, all_steps, \
    random_journals, near_thousand
