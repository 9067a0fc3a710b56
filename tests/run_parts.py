#!/usr/bin/env python3
"""Makes each generated part of the trial (tests/books_parts.py, tests/list_parts.py), runs the trial on it, and compares what
it prints with what the model says. Prints a line for each part, and last `parts: N passed, M failed`.

    python3 tests/run_parts.py PROGRAM [PART ..]    all parts, or some
    python3 tests/run_parts.py --keep [PART ..]     writes their lines in tests/digests.txt

A part passes if the program prints the model's text, ends by itself and without an error, and the part's line is the kept one.
"""
import concurrent.futures
import os
import subprocess
import sys

import books_parts
import built
import kept
import list_parts
import trial

MOST_SECONDS = 600
BROKEN_LINES = "broken lines"
PARTS = {f"{module.__name__[:-6]} {part.__name__}": part for module in (books_parts, list_parts) for part in module.PARTS}
# Lines that are no command: an unknown name, other text, numbers too few, too many or too large, places beyond a room.
BROKEN = ["close", "Open", " open", "open 1  2", "open 1 ", "open 1,2", "open\t1", "append x", "append -1", "append 2*", "append *2",
          "append 2*3*4", "append 8193*1", "table 256", "count 1 2.5", "clear 1", "rebuild 1", "check 0", "digest 1", "row", "row 1 1", "lend 1",
          "lend 1 1 1", "lend 3 1", "write 1", "write 0 1 1", "write 1 4352 1", "write 2 64064 1", "write 2 18446744073709551615 1",
          "fill", "fill 1 1", "fill 256", "list 1 1", "list 1 1 65553", "after 1 1 18446744073709551615 1", "lend 1 4353\ncheck",
          "lend 2 64065\nopen"]


def made(name):
    """A part's script, and what it prints by the model."""
    script = trial.Script(kept.seed(name))
    script.guard()
    PARTS[name](script)
    return "\n".join(script.lines).encode() + b"\n", "".join(script.printed).encode()


def broken_lines():
    """Each line that is none ends its run, and nothing behind it is carried out."""
    for lines in BROKEN:
        script = f"digest\n{lines}\nclear\n"
        yield script.encode(), "".join(trial.Trial().printed(script.splitlines())).encode()


def difference(seen, due):
    """The first line that differs."""
    pairs = zip(seen.split(b"\n") + [b"(the end)"], due.split(b"\n") + [b"(the end)"])
    return next(f"line {n} is {a[-90:]!r} and not {b[-90:]!r}" for n, (a, b) in enumerate(pairs, 1) if a != b)


def wrong_run(program, script, due):
    """What a run does wrong, or None."""
    try:
        ran = subprocess.run(program, input=script, capture_output=True, timeout=MOST_SECONDS)
    except subprocess.TimeoutExpired:
        return f"did not end within {MOST_SECONDS} s"
    if ran.returncode or ran.stderr:
        return f"ended with {ran.returncode}, {ran.stderr[:60]!r}"
    return None if ran.stdout == due else difference(ran.stdout, due)


def tried(name, program):
    """A part's line, and what is wrong, if anything is."""
    runs = list(broken_lines()) if name == BROKEN_LINES else [made(name)]
    size = f"{sum(script.count(10) for script, _ in runs)} lines"
    line = kept.line(name, kept.seed(name), size, *[text for run in runs for text in run])
    if program is None:
        return line, None
    wrong = next(filter(None, (wrong_run(program, *run) for run in runs)), None)
    return line, wrong or (None if kept.holds(name, line) else "tests/digests.txt has another line for it")


def main(program, names):
    passed, failed, lines = 0, 0, []
    with concurrent.futures.ProcessPoolExecutor(os.cpu_count()) as pool:
        for line, wrong in pool.map(tried, names, [program] * len(names)):
            print(line, flush=True)
            lines.append(line)
            passed, failed = passed + (wrong is None), failed + (wrong is not None)
            if wrong:
                print(f"  {wrong}", flush=True)
    if program is None:
        kept.keep(lines)
    print(f"parts: {passed} passed, {failed} failed")
    return 0 if failed == 0 and passed > 0 else 1


if __name__ == "__main__":
    every = [*PARTS, BROKEN_LINES]
    if len(sys.argv) < 2 or not set(sys.argv[2:]) <= set(every):
        sys.exit(__doc__)
    sys.exit(main(None if sys.argv[1] == "--keep" else built.words(sys.argv[1]), sys.argv[2:] or every))
