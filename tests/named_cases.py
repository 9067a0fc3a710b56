"""The loading program's cases that have a name: for each its entries, and its ask or None where there is no file. What must be
printed is what tests/program_model.py says. First those that are taken, then those where an entry is refused, then asks."""
import random

from program_model import EXAMPLE_ASK, EXAMPLE_ENTRIES


def entries(number, steps):
    """The entries of a journal; an empty one is only opened."""
    return bytes(byte for step in steps or [255] for byte in (number, step))


def journals(*all_steps):
    return b"".join(entries(number, steps) for number, steps in enumerate(all_steps))


def opened_first(*all_steps):
    """The same journals, each opened by an entry of its own."""
    return journals(*[[255, *steps] for steps in all_steps])


def round_five(stride, length):
    """Steps that go round five codes by a stride. Journals of different strides have many rows for their length."""
    return [6 + stride * at % 5 for at in range(length)]


TWO, ASK = EXAMPLE_ENTRIES, EXAMPLE_ASK
SIXTEEN, EMPTY_16 = journals(*[[number, 7] for number in range(16)]), journals(*[[]] * 16)
# Books of just 1,000 rows; the same with a last journal that is full; sixteen journals of which the last is full; as many
# entries as can be taken.
THOUSAND = journals([0] * 21, *[round_five(stride, 37) for stride in (1, 2, 3)], [4] * 5)
THOUSAND_AND_FULL = journals([0] * 32, round_five(1, 34), round_five(2, 34), [3], [4] * 166 + round_five(3, 34))
SIXTEENTH_FULL = journals(*[[0]] * 15, [0] * 200)
LONGEST = opened_first(*[[0] * 200] * 16)
UP, DOWN, TEN, DIGITS = list(range(16)), list(range(15, -1, -1)), list(range(3, 13)), list(range(10)) * 20

TAKEN = {
    "example": (TWO, ASK),
    "example_without_ask": (TWO, None),
    "example_with_an_empty_ask": (TWO, b""),
    "example_quorum_1": (TWO, bytes([1, 3])),
    "example_length_0": (TWO, bytes([2, 0])),
    "example_length_15": (TWO, bytes([1, 15])),
    "example_opened_first": (opened_first([1, 2, 1], [1, 1, 2]), ASK),
    "equal_journals_count_separately": (journals([3, 4], [3, 4], [3, 4], [5]), bytes([1, 2])),
    "one_journal": (journals([15, 0, 15]), None),
    "one_step": (b"\0\0", None),
    "one_empty_journal": (b"\0\xff", None),
    "one_empty_journal_length_0": (b"\0\xff", bytes([1, 0])),
    "empty_between_full": (journals([1, 2], [], [2, 1], []), bytes([2, 8])),
    "empty_journals_16": (EMPTY_16, None),
    "empty_journals_16_quorum_1": (EMPTY_16, bytes([1, 15])),
    "opened_by_255_then_steps": (opened_first([1, 2], [2, 1]), bytes([1, 8])),
    "row_of_no_word_goes": (journals([1, 1], [1]), bytes([1, 8])),
    "skips_what_is_below_the_quorum": (journals([0, 1, 5], [1, 5, 0], [5, 1, 0]), bytes([2, 15])),
    "journals_16": (SIXTEEN, bytes([1, 2])),
    "journals_16_quorum_16": (SIXTEEN, bytes([16, 15])),
    "journals_16_quorum_15": (journals(*[[1, 2, 3, 4][:4 - (number == 9)] for number in range(16)]), bytes([15, 15])),
    "every_step": (journals(UP, DOWN), bytes([1, 2])),
    "every_step_quorum_2": (journals(UP, DOWN), None),
    "length_cuts_at_15": (journals([6] * 40), bytes([1, 15])),
    "default_length_is_8": (journals([6] * 40, [6] * 40), None),
    "journal_of_200": (journals(DIGITS), bytes([1, 1])),
    "journals_16_of_200": (LONGEST, bytes([16, 15])),
    "rows_1000": (THOUSAND, bytes([1, 2])),
    "rows_1000_and_an_empty_journal": (THOUSAND + b"\5\xff", bytes([1, 1])),
    "rows_1000_and_a_sixth_journal": (THOUSAND + b"\5\0", bytes([2, 3])),
    "rows_1000_and_200_steps": (THOUSAND_AND_FULL, bytes([1, 1])),
    # A list may end just before, at and just behind the end of a page.
    "words_1023": (journals(TEN, TEN), bytes([2, 9])),
    "words_1024": (journals(TEN, TEN), bytes([2, 10])),
    "words_1025": (journals(TEN, [15]), bytes([1, 15])),
    "words_4096": (journals(UP[:12]), bytes([1, 15])),
    "words_7099": (journals(UP[3:], UP[3:]), None),
}

REFUSED_ENTRIES = {
    "lone_byte": (b"\0", None),
    "lone_byte_of_a_wrong_number": (b"\7", ASK),
    "lone_byte_at_the_end": (TWO + b"\1", ASK),
    "lone_byte_line_end": (TWO + b"\n", ASK),
    "lone_byte_of_the_next": (TWO + b"\2", None),
    "number_1_first": (b"\1\0", None),
    "number_255_first": (b"\xff\0", None),
    "number_skips_one": (TWO + b"\3\0", ASK),
    "number_skips_one_with_255": (TWO + b"\3\xff", ASK),
    "number_of_an_earlier_journal": (TWO + b"\0\1", ASK),
    "number_of_an_earlier_journal_with_255": (TWO + b"\0\xff", ASK),
    "number_255": (TWO + b"\xff\1", ASK),
    **{f"step_{step}_appended": (TWO + bytes([1, step]), ASK) for step in (16, 17, 128, 254)},
    **{f"step_{step}_opening": (TWO + bytes([2, step]), ASK) for step in (16, 17, 128, 254)},
    "step_16_first": (b"\0\x10", None),
    "open_twice": (b"\0\xff\0\xff", None),
    "open_already": (TWO + b"\1\xff", ASK),
    "numbers_17": (SIXTEEN + b"\x10\0", ASK),
    "numbers_17_only_opened": (SIXTEEN + b"\x10\xff", ASK),
    "numbers_17_empty_ones": (EMPTY_16 + b"\x10\xff", None),
    "numbers_17_step_16": (SIXTEEN + b"\x10\x10", ASK),
    "numbers_17_step_254": (SIXTEEN + b"\x10\xfe", ASK),
    "numbers_17_lone_byte": (SIXTEEN + b"\x10", ASK),
    "number_17_with_16_open": (SIXTEEN + b"\x11\0", ASK),
    "number_15_with_16_open_and_255": (SIXTEEN + b"\x0f\xff", ASK),
    "steps_201": (journals([0] * 201), None),
    "steps_201_opened_first": (opened_first([9] * 201), None),
    "steps_201_in_the_second": (journals([5], DIGITS + [0]), bytes([1, 1])),
    "steps_201_step_16": (journals([0] * 200 + [16]), None),
    "rows_1001": (THOUSAND + b"\4\4", bytes([1, 2])),
    "rows_1001_by_opening": (THOUSAND + b"\5\5", bytes([1, 2])),
    "rows_1001_behind_an_empty_journal": (THOUSAND + b"\5\xff\5\5", bytes([1, 2])),
    "rows_1001_step_16": (THOUSAND + b"\4\x10", bytes([1, 2])),
    "rows_1001_lone_byte": (THOUSAND + b"\4", bytes([1, 2])),
    "steps_201_before_rows_1001": (THOUSAND_AND_FULL + b"\4\4", bytes([1, 1])),
    "longest_and_a_lone_byte": (LONGEST + b"\x0f", None),
    "sixteenth_full_and_a_journal": (SIXTEENTH_FULL + b"\x10\0", None),
    "sixteenth_full_and_an_opening": (SIXTEENTH_FULL + b"\x10\xff", None),
    "sixteenth_full_and_a_broken_step": (SIXTEENTH_FULL + b"\x10\x10", None),
    # The first refusal ends it, whatever stands behind and in the ask.
    "refused_first_of_two": (TWO + b"\1\x10\1\1\3\0\0", ASK),
    "refused_before_an_ask_of_1": (TWO + b"\3\1", b"\2"),
    "refused_before_an_ask_of_3": (TWO + b"\1", b"\2\3\0"),
    "refused_before_a_length_of_16": (TWO + b"\1\x10", bytes([0, 16])),
    "refused_early_and_much_behind": (TWO + b"\3\0" + bytes(range(256)) * 64 + b"\1", ASK),
    "refused_at_201_and_much_behind": (journals([0] * 20000), None),
    "text_as_input": (b"0 1\n0 2\n", None),
}

# With those next to them that are taken.
REFUSED_ASKS = {
    "no_journal_ask_missing": (b"", None),
    "no_journal_ask_empty": (b"", b""),
    **{f"no_journal_ask_{quorum}_{length}": (b"", bytes([quorum, length])) for quorum, length in ((0, 8), (1, 8), (1, 16))},
    "no_journal_ask_of_1": (b"", b"\0"),
    "no_journal_ask_of_3": (b"", b"\0\x08\0"),
    **{f"quorum_{quorum}_of_2": (TWO, bytes([quorum, 3])) for quorum in (0, 3, 16, 17, 255)},
    **{f"length_{length}": (TWO, bytes([2, length])) for length in (16, 17, 255)},
    "quorum_17_of_16": (SIXTEEN, bytes([17, 1])),
    "quorum_2_of_1_empty": (b"\0\xff", bytes([2, 0])),
    # Order: 12, 9, 8.
    "order_9_8_below": (TWO, bytes([0, 16])),
    "order_9_8_above": (TWO, bytes([3, 255])),
    "order_12_9_8_of_1": (TWO, b"\xff"),
    "order_12_9_8_of_3": (TWO, bytes([0, 16, 0])),
    "ask_of_1": (TWO, b"\2"),
    "ask_of_3": (TWO, ASK + b"\0"),
    "ask_of_3_with_a_line_end": (TWO, ASK + b"\n"),
    "ask_of_4": (TWO, ASK * 2),
    "ask_of_5000": (TWO, ASK * 2500),
}

CASES = {**TAKEN, **REFUSED_ENTRIES, **REFUSED_ASKS}
# Tried with much behind it alone: no more of it is read than this, and so nothing tells whether there is more.
BEFORE_MUCH = {"longest_and_a_step": (LONGEST + b"\x0f\0", None)}


def random_case(chance):
    """Journals over a few steps, now and then with an entry that may be broken, and an ask; the list is not too long."""
    steps = chance.sample(range(16), chance.choice([1, 2, 2, 3, 3, 4]))
    taken = bytearray()
    k = chance.choice([0, 1, 2, 2, 3, 3, 4, 5, 16])
    for number in range(k):
        if chance.randrange(3) == 0:
            taken += bytes([number, 255])
        for step in chance.choices(steps, k=chance.randrange(9 if k < 16 else 4)):
            taken += bytes([number, step])
    if chance.randrange(4) == 0:
        at = 2 * chance.randrange(len(taken) // 2 + 1)
        taken[at:at] = bytes([chance.choice([0, max(k - 1, 0), k, k + 1, 255]), chance.choice([0, 15, 16, 254, 255])])
    if chance.randrange(12) == 0:
        taken += b"\0"
    if chance.randrange(5) == 0:
        return bytes(taken), chance.choice([None, b"", bytes([1]), bytes([1, 2, 3])])
    quorum = chance.choice([0, 1, 1, 2, 2, k, k, k + 1]) if chance.randrange(8) == 0 else chance.randrange(1, k + 1) if k else 1
    return bytes(taken), bytes([quorum, chance.choice([0, 1, 2, 3, 3, 4, 4, 5, 15, 16])])


def random_cases(seed, number=200):
    """So many random cases, by what is in them."""
    chance = random.Random(seed)
    cases = [random_case(chance) for _ in range(number)]
    return {f"random {n}: {stdin.hex()} ask {ask.hex() if ask is not None else 'missing'}": (stdin, ask)
            for n, (stdin, ask) in enumerate(cases)}
