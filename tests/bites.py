#!/usr/bin/env python3
"""Shows that the trial's parts and the program's cases can fail: breaks tests/model.py and tests/program_model.py in many ways,
those that document 01 has seen go wrong among them, and prints for each the first line of a part, or the case, that tells.
Ends with an error where none does. It takes some minutes, and is no part of the gate.

    python3 tests/bites.py [books] [list] [cases]
"""
import concurrent.futures
import os
import sys
import types

import named_cases
import program_model
import run_parts
import trial

# What is wrong, the text of the model, and what stands there instead. First texts that change places.
SOUND = "    if check(journals, rows)[0] != 0:\n        return 2\n"
NOW = "    now = journals_of(journals)\n"
IS_3 = "    if step >= STEPS:\n        return 3\n"
IS_4 = "    if not now:\n        return 4\n"
IS_5 = "    if len(now[-1]) == LONGEST_JOURNAL:\n        return 5\n"
IS_6 = "    after = now[:-1] + (now[-1] + bytes([step]),)\n    if picture(after) is None:\n        return 6\n"
IS_1 = "    if not sized(journals, rows):\n        return 1\n"
REBUILD_2 = "    if first_wrong(journals) != JOURNALS:\n        return 2\n"
RECORD_10 = "    word = steps_of(record, LONGEST_WORD)\n    if word is None:\n        return 10, 0\n"
FORM_2 = "    if first_wrong(journals) != JOURNALS:\n        return 2, 0\n"

WRONG_BOOKS = [
    ("counts distinct places", "return len(state) - state.count(LOST)", "return len(set(state) - {LOST})"),
    ("keeps states that no word reaches", "reached, words = {}, [bytes(len(journals))]",
     "reached, words = {}, [bytes(len(journals)), *(journals[-1:] > (b'',) and live_states(journals[:-1] + (journals[-1][:-1],)) or [])]"),
    ("lost is the smallest place", "return sorted(states)", "return sorted(states, key=lambda state: [(place + 1) % 256 for place in state])"),
    ("a row for what is lost everywhere", "return state.count(LOST) < len(state)", "return len(state) > 0"),
    ("an arc to row 1 where there is none", "number.get(end, 0)", "number.get(end, 1)"),
    ("equal journals count once", "for journal in journals)\n\n\n# The two", "for journal in set(journals))\n\n\n# The two"),
    ("steps in any order", "journal = journal[journal.index(step) + 1:]", "pass"),
    ("arcs of one byte", "arc = rows[low] + 256 * rows[low + 1]", "arc = rows[low]"),
    ("200 steps are too many", "16, 16, 200, 15, 255", "16, 16, 199, 15, 255"),
    ("201 steps are right", "16, 16, 200, 15, 255", "16, 16, 201, 15, 255"),
    ("15 journals are all", "16, 16, 200, 15, 255", "16, 15, 200, 15, 255"),
    ("step 15 is refused", "    if step >= STEPS:\n", "    if step >= STEPS - 1:\n"),
    ("step 16 is taken", "    if step >= STEPS:\n", "    if step > STEPS:\n"),
    ("words of 16 steps", "16, 16, 200, 15, 255", "16, 16, 200, 16, 255"),
    ("999 rows are all", "64000, 64, 1000, 16", "64000, 64, 999, 16"),
    ("1,001 rows are right", "if len(reached) == ROWS:", "if len(reached) == ROWS + 1:"),
    ("bytes behind the length are not looked at", " and is_zero(behind)", ""),
    ("open after a gap", "if not right or is_open and shut:", "if not right:"),
    ("the gap is named", "            return i, ()\n", "            return i - (right and is_open and shut), ()\n"),
    ("the last record of 1,000 is named", "return 2, 2, ROWS, 0", "return 2, 2, ROWS - 1, 0"),
    ("the byte counts from the book's start", "at % ROW_RECORD", "at"),
    ("open: 7 before 2", SOUND + NOW + "    if len(now) == JOURNALS:\n        return 7\n",
     "    if all(journals[256 * i] == 1 for i in range(16)):\n        return 7\n" + SOUND + NOW),
    ("append: 3 before 2", SOUND + IS_3, IS_3 + SOUND),
    ("append: 4 before 3", IS_3 + NOW + IS_4, NOW + IS_4 + IS_3),
    ("append: 5 before 3", IS_3 + NOW + IS_4 + IS_5, NOW + IS_5.replace("if ", "if now and ") + IS_3 + IS_4),
    ("append: 6 before 5", IS_5 + IS_6, IS_6 + IS_5),
    ("append writes before it refuses with 6", "    if picture(after) is None:\n", "    journals[:] = journal_book(after)\n    if picture(after) is None:\n"),
    ("append writes nothing", "    write_books(journals, rows, after)\n", ""),
    ("rebuild: wants sound books", REBUILD_2 + "    drawn", SOUND + "    drawn"),
    ("rebuild: 2 before 1", IS_1 + REBUILD_2, "    if len(journals) >= JOURNAL_BOOK and first_wrong(journals) != JOURNALS:\n        return 2\n" + IS_1),
    ("rebuild: journals without their form are drawn", REBUILD_2, ""),
    ("rebuild: 2 for too many states", "    if drawn is None:\n        return 6\n", "    if drawn is None:\n        return 2\n"),
    ("rebuild clears the rows before it refuses with 6", "    if drawn is None:\n", "    rows[:] = bytes(ROW_BOOK)\n    if drawn is None:\n"),
    ("rebuild draws nothing", "    rows[:] = drawn\n", ""),
    ("rebuild leaves a row book whose first row is right", "    rows[:] = drawn\n", "    rows[:] = rows if rows[:ROW_RECORD] == drawn[:ROW_RECORD] else drawn\n"),
    ("rebuild leaves what stands behind the live rows", "    rows[:] = drawn\n", "    end = ROW_RECORD * len(live_states(journals_of(journals)))\n    rows[:end] = drawn[:end]\n"),
    ("table count: steps are tested on the way", "if any(step >= STEPS for step in word):", "if any(step >= STEPS for step in word[:1]):"),
    ("table count: row 0 is not looked at", "    if counted > 16:\n        return 2, 0\n    if counted == 0:\n        return 0, 0\n", ""),
    ("table count: an arc to its own row", "if arc <= present or", "if arc < present or"),
    ("table count: an arc of 1,000", "arc >= ROWS", "arc > ROWS"),
    ("table count: 0 on the way is 0", "        if counted == 0 or counted > 16:\n            return 2, 0\n", "        if counted > 16:\n            return 2, 0\n"),
    ("journal count: 2 before 10", RECORD_10 + FORM_2, FORM_2 + RECORD_10),
    ("row record: 13 before 1", "    if len(rows) != ROW_BOOK:\n        return 1\n    return 13 if", "    if len(rows) != ROW_BOOK:\n        return 13 if n >= ROWS else 1\n    return 13 if"),
    ("row record: row 1,000", "return 13 if n >= ROWS else 0", "return 13 if n > ROWS else 0"),
    ("row record: the next row", "return rows[ROW_RECORD * n:ROW_RECORD * (n + 1)]", "return rows[ROW_RECORD * (n + 1):ROW_RECORD * (n + 2)]"),
    ("the journals of a book that lacks its form", "        return 2, 0\n    return 0, len(journals_of(journals))", "        pass\n    return 0, journals[::256].tolist().count(1)"),
    ("journals: 2 before 1", "    if len(journals) != JOURNAL_BOOK:\n        return 1, 0\n    if first_wrong",
     "    if len(journals) >= JOURNAL_BOOK and first_wrong(journals) != JOURNALS:\n        return 2, 0\n    if len(journals) != JOURNAL_BOOK:\n        return 1, 0\n    if first_wrong"),
    ("a journal that is empty is not open", "return 0, len(journals_of(journals))", "return 0, len([j for j in journals_of(journals) if j])"),
    ("the rows of damaged books", "        return 2, 0\n    return 0, len(live_states(journals_of(journals)))", "        pass\n    return 0, sum(any(rows[a:a + 64]) for a in range(0, len(rows), 64))"),
    ("the empty word has no row", "return 0, len(live_states(journals_of(journals)))", "return 0, max(len(live_states(journals_of(journals))) - 1, 0)"),
    ("clear leaves the row book", "journals[:], rows[:] = bytes(JOURNAL_BOOK), bytes(ROW_BOOK)", "journals[:] = bytes(JOURNAL_BOOK)"),
    ("a row book that is too long is taken", "len(journals) == JOURNAL_BOOK and len(rows) == ROW_BOOK", "len(journals) == JOURNAL_BOOK and len(rows) >= ROW_BOOK"),
]

LISTED = "itertools.islice(words_by_quorum(now, quorum, length, word), fit + 1)"
SIZES = "not sized(journals, rows) or len(record) != WORD_RECORD or not right_output(out)"
IS_9 = "    if length > LONGEST_WORD:\n        return 9, 0, False\n"
IS_8 = "    now = journals_of(journals)\n    if not 1 <= quorum <= len(now):\n        return 8, 0, False\n"
IS_2 = "    if check(journals, rows)[0] != 0:\n        return 2, 0, False\n"
IS_10 = "    word = steps_of(record, LONGEST_WORD) if after else None\n    if after and (word is None or len(word) > length):\n        return 10, 0, False\n"

WRONG_LISTS = [
    ("a word is dropped where a longer one is listed", "    if after is None:\n        yield b\"\"\n",
     "    if after is None and not (length and any(len(what_follows(journals, step)) >= quorum for step in range(STEPS))):\n        yield b\"\"\n"),
    ("stops at the first word below the quorum", LISTED,
     "itertools.islice(itertools.takewhile(lambda w: count(now, w) >= quorum, words_by_quorum(now, 0, length, word)), fit + 1)"),
    ("stops at the first step below the quorum", "        rest = after[1:]", "        if len(what_follows(journals, step)) < quorum:\n            return\n        rest = after[1:]"),
    ("after repeats the word", "    if after is None:\n        yield", "    if not after:\n        yield"),
    ("after skips the word's extensions", "    first = after[0] if after else 0\n", "    if after == b\"\":\n        return\n    first = after[0] if after else 0\n"),
    ("after a word that is not in the list comes none", LISTED, "[] if after and count(now, word) < quorum else " + LISTED),
    ("after a word that is not in the list comes all", LISTED, LISTED.replace("word)", "word if after and count(now, word) >= quorum else None)")),
    ("a last word too many", "for word in words[:fit])", "for word in words[:fit + 1])"),
    ("says a word too many", "return 0, len(words[:fit]),", "return 0, len(words),"),
    ("a last word too few", "for word in words[:fit])", "for word in words[:max(fit - 1, 1)])"),
    ("more is always no", "len(words) > fit\n", "False\n"),
    ("more where the page is full", "len(words) > fit\n", "len(words) >= fit\n"),
    ("only the empty word", LISTED, "[] if after else [b\"\"]"),
    ("no empty word", "    if after is None:\n        yield b\"\"\n", "    if after is None and len(journals) < 0:\n        yield b\"\"\n"),
    ("the higher step first", "range(first, STEPS)", "reversed(range(first, STEPS))"),
    ("only words as long as the length", "    if after is None:\n        yield b\"\"\n    if length == 0:\n        return\n", "    if length == 0:\n        if after is None:\n            yield b\"\"\n        return\n"),
    ("step 15 is left out", "range(first, STEPS)", "range(first, STEPS - 1)"),
    ("words shorter than the length", "    if length == 0:\n        return\n", "    if length <= 1:\n        return\n"),
    ("equal journals count once", "    if len(journals) < quorum:\n", "    if len(set(journals)) < quorum:\n"),
    ("above the quorum only", "    if len(journals) < quorum:\n", "    if len(journals) <= quorum:\n"),
    ("steps in any order", "tuple(journal[journal.index(step) + 1:] for", "tuple(journal for"),
    ("quorum k + 1 is taken", "1 <= quorum <= len(now)", "1 <= quorum <= len(now) + 1"),
    ("quorum k is refused", "1 <= quorum <= len(now)", "1 <= quorum < len(now)"),
    ("quorum 0 is taken", "1 <= quorum <= len(now)", "quorum <= len(now)"),
    ("a quorum of four bytes", "1 <= quorum <= len(now)", "1 <= quorum % 2 ** 32 <= len(now)"),
    ("length 16 is taken", "if length > LONGEST_WORD:", "if length > LONGEST_WORD + 1:"),
    ("length 15 is refused", "if length > LONGEST_WORD:", "if length >= LONGEST_WORD:"),
    ("a length of one byte", "if length > LONGEST_WORD:", "length %= 256\n    if length > LONGEST_WORD:"),
    ("8 before 9", IS_9 + IS_8, IS_8 + IS_9),
    ("9 before 2", IS_2 + IS_9, IS_9 + IS_2),
    ("10 before 8", IS_8 + IS_10, IS_10 + IS_8),
    ("10 before 9", IS_9 + IS_8 + IS_10, IS_10 + IS_9 + IS_8),
    ("damage is not looked at", IS_2, "    if first_wrong(journals) != JOURNALS:\n        return 2, 0, False\n"),
    ("an after-word longer than the list length", "word is None or len(word) > length", "word is None"),
    ("an after-word as long as the list length is refused", "len(word) > length", "len(word) >= length"),
    ("an after-word of wrong form is taken", "word = steps_of(record, LONGEST_WORD) if after", "word = bytes(record[1:1 + record[0]]) if after"),
    ("from the start looks at the word", "if after and (word is None", "if steps_of(record, LONGEST_WORD) is None or after and (word is None"),
    ("from the start takes any size of word", SIZES, SIZES.replace("len(record)", "after and len(record)")),
    ("an output of 0 bytes", "WORD_RECORD <= len(out) <=", "len(out) <="),
    ("an output of 24 bytes", "len(out) % WORD_RECORD == 0", "len(out) % 8 == 0"),
    ("an output of 65,552 bytes", "LARGEST_OUTPUT = 65536", "LARGEST_OUTPUT = 65552"),
    ("an output of 65,536 bytes is refused", "LARGEST_OUTPUT = 65536", "LARGEST_OUTPUT = 65535"),
    ("bytes behind the last word are cleared", "out[:len(page)] = page", "out[:] = page.ljust(len(out), b\"\\0\")"),
    ("bytes behind a word's steps stay", "out[:len(page)] = page", "\n    for n, word in enumerate(words[:fit]):\n        out[16 * n:16 * n + 1 + len(word)] = bytes([len(word)]) + word"),
    ("a refusal clears the output", "        return 8, 0, False\n", "        out[:] = bytes(len(out))\n        return 8, 0, False\n"),
]

IS_12 = "    if len(ask) != 2:\n        return 12, 0, 0\n"
ASK_9 = "    if length > model.LONGEST_WORD:\n        return 9, 0, 0\n"
ASK_8 = "    if quorum < 1 or quorum > every:\n        return 8, 0, 0\n"

WRONG_PROGRAMS = [
    ("step 16 is a step", "model.STEPS <= step < ONLY_OPENS", "model.STEPS < step < ONLY_OPENS"),
    ("step 254 is not broken", "step < ONLY_OPENS or", "step < ONLY_OPENS - 1 or"),
    ("255 is taken for the journal already open", " or step == ONLY_OPENS and number == k - 1", ""),
    ("any earlier journal is appended to", "number not in (k - 1, k)", "number > k"),
    ("number 16 is always broken", "number not in (k - 1, k)", "number not in (k - 1, k) or number == 16"),
    ("7 before 11", "    if broken(k, entry):\n", "    if k == 16 and entry[0] == 16:\n        return 7\n    if broken(k, entry):\n"),
    ("an entry that opens and appends only opens", "model.open_journal(*opened) or model.append(*opened, step)", "model.open_journal(*opened)"),
    ("records count from 1", "return books, at // 2, refused", "return books, at // 2 + 1, refused"),
    ("records count bytes", "return books, at // 2, refused", "return books, at, refused"),
    ("a lone last byte is passed over", "range(len(begun), len(entries), 2)", "range(len(begun), len(entries) - 1, 2)"),
    ("a refused entry is passed over", "        if refused:\n            keep(", "        if refused == 6:\n            keep("),
    ("no ask is length 9", "EMPTY_OR_MISSING_LENGTH = 255, 8", "EMPTY_OR_MISSING_LENGTH = 255, 9"),
    ("no ask is quorum 1", "bytes([every, EMPTY_OR_MISSING_LENGTH])", "bytes([1, EMPTY_OR_MISSING_LENGTH])"),
    ("an empty ask file is 12", "    if not ask:\n", "    if ask is None:\n"),
    ("an ask of 3 bytes is cut", IS_12, "    ask = ask[:2]\n" + IS_12),
    ("an ask of 1 byte is a quorum", IS_12, "    ask = ask + b\"\\3\" if len(ask) == 1 else ask\n" + IS_12),
    ("8 before 9", ASK_9 + ASK_8, ASK_8 + ASK_9),
    ("length 16 is taken", "length > model.LONGEST_WORD", "length > model.LONGEST_WORD + 1"),
    ("length 15 is refused", "length > model.LONGEST_WORD", "length >= model.LONGEST_WORD"),
    ("quorum k + 1 is taken", "quorum > every:", "quorum > every + 1:"),
    ("quorum k is refused", "quorum > every:", "quorum >= every:"),
    ("quorum 0 stands for 1", "    quorum, length = ask\n", "    quorum, length = max(ask[0], 1), ask[1]\n"),
    ("a refused ask before a refused entry", "    if refused:\n        return line(\"refused\", refused, \"record\"",
     "    if refused and not asked(books, ask)[0]:\n        return line(\"refused\", refused, \"record\""),
    ("the count before the length", "line(len(word), model.count(journals, word), *word)", "line(model.count(journals, word), len(word), *word)"),
    ("the count is left out", "line(len(word), model.count(journals, word), *word)", "line(len(word), *word)"),
    ("the last line counts the words but one", "line(\"end\", len(words))", "line(\"end\", len(words) - 1)"),
    ("the empty word is not counted as a row", "model.live_rows(*books)[1]", "model.live_rows(*books)[1] - 1"),
    ("empty journals are no texts", "line(\"texts\", model.open_journals(books[0])[1]", "line(\"texts\", len([j for j in journals if j])"),
    ("lines end like a typewriter's", "map(str, parts)) + \"\\n\"", "map(str, parts)) + \"\\r\\n\""),
]

WRONG = {"books": ("model.py", WRONG_BOOKS), "list": ("model.py", WRONG_LISTS), "cases": ("program_model.py", WRONG_PROGRAMS)}


def broken(name, old, new):
    """A model with one text in the place of another."""
    with open(os.path.join(os.path.dirname(os.path.abspath(__file__)), name)) as file:
        text = file.read()
    if text.count(old) != 1:
        sys.exit(f"{name} has {text.count(old)} times: {old}")
    module = types.ModuleType("broken")
    exec(text.replace(old, new), module.__dict__)
    return module


def answer(do, *args):
    """What a broken model says; where that breaks off, a line that nothing prints."""
    try:
        return do(*args)
    except Exception as error:
        return f"broke off: {error!r}\n"


def telling_line(calls, scripts):
    """The first line that a broken model of the calls prints otherwise."""
    for part, lines, printed in scripts:
        state = trial.Trial(calls)
        for n, (line, right) in enumerate(zip(lines, printed), 1):
            seen = answer(state.line, line)
            if seen != right:
                return f"{part}, line {n} is `{seen.strip()[-90:]}` and not `{right.strip()[-90:]}`"
    return None


def telling_case(program, cases):
    """The first case, of the short ones first, whose text a broken program prints otherwise."""
    return next((name for name, stdin, ask, right in cases if answer(program.printed, stdin, ask) != right), None)


def scripts_of(kind):
    """What the wrong models of a kind are tried on: the short ones first."""
    if kind == "cases":
        return sorted(((name, stdin, ask, program_model.printed(stdin, ask)) for name, (stdin, ask) in named_cases.CASES.items()),
                      key=lambda case: len(case[1]))
    made = [(name, *run_parts.made(name)) for name in run_parts.PARTS if name.startswith(kind)]
    return sorted(((name, script.decode().splitlines(), due.decode().splitlines(keepends=True)) for name, script, due in made),
                  key=lambda part: len(part[1]))


def bite(kind):
    """Every wrong model of a kind."""
    file, wrong = WRONG[kind]
    scripts, tells = scripts_of(kind), telling_case if kind == "cases" else telling_line
    for name, old, new in wrong:
        told = tells(broken(file, old, new), scripts)
        if told is None:
            sys.exit(f"{name}: nothing tells")
        print(f"{kind}, {name}: {told}", flush=True)
    return f"{kind}: {len(wrong)} wrong models, and each is found"


if __name__ == "__main__":
    if not set(sys.argv[1:]) <= set(WRONG):
        sys.exit(__doc__)
    with concurrent.futures.ProcessPoolExecutor(os.cpu_count()) as pool:
        for found in pool.map(bite, sys.argv[1:] or WRONG):
            print(found)
