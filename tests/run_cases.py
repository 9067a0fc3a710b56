#!/usr/bin/env python3
"""Runs the loading program on the named cases and on random ones (tests/named_cases.py), and on input and output that come in
pieces, are large, or fail. Prints a line for each that goes wrong, and last `cases: N passed, M failed`.

    python3 tests/run_cases.py PROGRAM
    python3 tests/run_cases.py --keep     writes the lines of both kinds of cases in tests/digests.txt

Each run has a folder of its own, with nothing in it but the ask.bin of the case. It must end by itself within a minute, not
by a signal, and leave the folder as it was; and of standard output every byte is compared. On standard error nothing may
stand, but for the name of what couldn't be read or written.
"""
import multiprocessing
import os
import pty
import resource
import signal
import socket
import subprocess
import sys
import tempfile
import threading
import time
import tty
from functools import lru_cache

import built
import kept
import named_cases
import program_model

MOST_SECONDS = 60 * built.SLOWER
LARGE = 100 << 20
INPUT, OUTPUT, ASK = b"standard input", b"standard output", b"ask.bin"
# The ask file: bytes, none, or one that is there and can't be read.
MISSING, DIRECTORY, LOOP = None, "a directory", "a link to itself"


class Wrong(Exception):
    """What a run did wrong."""


def put_ask(path, ask):
    if ask == DIRECTORY:
        os.mkdir(path)
    elif ask == LOOP:
        os.symlink("ask.bin", path)
    elif ask is not MISSING:
        with open(path, "wb") as file:
            file.write(ask)


def is_left(folder, ask):
    """Whether the folder is as it was."""
    if os.listdir(folder) != ([] if ask is MISSING else ["ask.bin"]):
        return False
    if isinstance(ask, bytes):
        with open(os.path.join(folder, "ask.bin"), "rb") as file:
            return file.read() == ask
    return True


class Load:
    """The loading program: it finds the ask in its folder, and names on standard error what failed, or says nothing. An input
    or output that is closed from the start fails."""
    closed_fails = True

    def __init__(self, path):
        self.words = built.words(path)

    def command(self, ask):
        return self.words

    def hold(self, ended, failed, printed):
        """Holds how a run ended to what failed, if anything, and to what was printed."""
        said, _ = ended
        if not failed and said or failed and (not said.startswith(failed + b": ") or said.count(b"\n") != 1 or said[-1:] != b"\n"):
            raise Wrong(f"says {said[:60]!r} on standard error, and {failed or 'nothing'!r} failed")


def same(seen, due):
    if seen != due:
        at = next((i for i, (a, b) in enumerate(zip(seen, due)) if a != b), min(len(seen), len(due)))
        start = seen.rfind(b"\n", 0, at) + 1
        raise Wrong(f"line {seen[:at].count(10) + 1} is {seen[start:start + 60]!r} and not {due[start:start + 60]!r}")


# One run.

def ends(pair):
    """Two ends that only those hold to whom they are given."""
    for end in pair:
        os.set_inheritable(end, False)
    return pair


def write_end(end, pieces, pause):
    """Writes piece by piece, up to the end or until nobody reads."""
    try:
        for piece in pieces:
            while piece:
                piece = piece[os.write(end, piece):]
            time.sleep(pause)
    except BrokenPipeError:
        pass
    finally:
        os.close(end)


def wait(child, beside):
    """Waits for the program and for what is done beside it."""
    try:
        child.wait(MOST_SECONDS)
    except subprocess.TimeoutExpired:
        child.kill()
        child.wait()
        raise Wrong(f"did not end within {MOST_SECONDS} s")
    finally:
        for thread in beside:
            thread.join(MOST_SECONDS)


def run(program, ask, stdin, stdout, drain=None, pause=0.0, before=None, signals=()):
    """Runs the program. Standard input is an end, or pieces that are written into a pipe; output is an end, which drain reads
    beside it. Both ends are closed here once the program has them. Gives back what it says on standard error, and its status."""
    work = [drain] if drain else []
    if isinstance(stdin, list):
        pieces, (stdin, mine) = stdin, ends(os.pipe())
        work.append(lambda: write_end(mine, pieces, pause))
    with tempfile.TemporaryDirectory() as folder:
        put_ask(os.path.join(folder, "ask.bin"), ask)
        child = subprocess.Popen(program.command(ask), cwd=folder, stdin=stdin, stdout=stdout, stderr=subprocess.PIPE, preexec_fn=before)
        for end in stdin, stdout:
            os.close(end)
        beside = [threading.Thread(target=each, daemon=True) for each in work]
        for thread in beside:
            thread.start()
        wait(child, beside)
        if child.returncode < 0 and -child.returncode not in signals:
            raise Wrong(f"ended by signal {-child.returncode}")
        if not is_left(folder, ask):
            raise Wrong("changed the folder")
        with child.stderr:
            return child.stderr.read(), child.returncode


def text(program, ask, stdin, pause=0.0, before=None, failed=b""):
    """What it prints into a pipe; failed is what can't be read."""
    out = []
    mine, its = ends(os.pipe())

    def drain():
        with os.fdopen(mine, "rb") as file:
            out.append(file.read())

    ended = run(program, ask, stdin, its, drain, pause, before)
    program.hold(ended, failed, out[0])
    return out[0]


def null(mode=os.O_RDONLY):
    return os.open(os.devnull, mode)


def file_of(data):
    """An end of a file that has these bytes."""
    with tempfile.TemporaryFile() as file:
        file.write(data)
        file.seek(0)
        return os.dup(file.fileno())


def failing_behind(data):
    """An end that gives these bytes and then an error: that of a terminal which nobody holds any more."""
    its, mine = ends(pty.openpty())
    tty.setraw(mine)
    os.write(mine, data)
    os.close(mine)
    return its


# What the runs are held to. Each yields a name and what is to be done.

@lru_cache(maxsize=None)
def case(name):
    """Standard input, the ask and what must be printed of a named case."""
    stdin, ask = (named_cases.CASES | named_cases.BEFORE_MUCH)[name]
    return stdin, ask, program_model.printed(stdin, ask)


@lru_cache(maxsize=None)
def part(name):
    """The cases of a part, what must be printed of each, and the part's line."""
    seed = kept.seed(name)
    cases = named_cases.CASES if name == "cases named" else named_cases.random_cases(seed)
    tried = [(each, stdin, ask, program_model.printed(stdin, ask)) for each, (stdin, ask) in cases.items()]
    texts = [data if data is not None else b"no file" for _, *three in tried for data in three]
    return tried, kept.line(name, seed, f"{len(tried)} cases", *texts)


def hold_line(name, line):
    print(line, flush=True)
    if not kept.holds(name, line):
        raise Wrong("tests/digests.txt has another line for them")


def cases(program):
    for name in "cases named", "cases random":
        tried, line = part(name)
        yield name, lambda: hold_line(name, line)
        for each, stdin, ask, due in tried:
            yield each, lambda: same(text(program, ask, [stdin]), due)


def pieces(program):
    """Standard input as it may come: from a file, in single bytes, in pieces that cut entries, slowly."""
    stdin, ask, due = case("example")
    yield "input from a file", lambda: same(text(program, ask, file_of(stdin)), due)
    for size, pause in (1, 0.05), (3, 0.05), (5, 0.2):
        cut = [stdin[at:at + size] for at in range(0, len(stdin), size)]
        yield f"input in pieces of {size}", lambda: same(text(program, ask, cut, pause), due)
    yield "input of one byte", lambda: same(text(program, ask, [b"\0"], 0.2), b"refused 11 record 0\n")
    alone = [bytes([b]) for b in stdin + b"\1"]
    yield "input in single bytes, the last alone", lambda: same(text(program, ask, alone, 0.02), b"refused 11 record 6\n")
    yield "no input", lambda: same(text(program, MISSING, null()), b"refused 8 ask\n")
    yield "no input, ended late", lambda: same(text(program, MISSING, [b""], 0.3), b"refused 8 ask\n")
    long, ask_long, due_long = case("rows_1000_and_200_steps")
    cut_long = [long[at:at + 101] for at in range(0, len(long), 101)]
    yield "long input in pieces of 101", lambda: same(text(program, ask_long, cut_long, 0.01), due_long)


def large(program):
    """What stands behind a refused entry doesn't count, however much it is."""
    for name in *named_cases.BEFORE_MUCH, "steps_201", "number_skips_one":
        stdin, ask, due = case(name)
        chunk = stdin[-2:] * (1 << 19)
        yield f"{name}, and {LARGE} bytes behind", lambda: same(text(program, ask, [stdin, *[chunk] * (LARGE // len(chunk))]), due)


def failing_input(program):
    """Where standard input or the ask can't be read, nothing is printed: what couldn't be read is not empty or missing."""
    stdin, ask, _ = case("example")
    here = os.path.dirname(os.path.abspath(__file__))
    yield "input is a directory", lambda: same(text(program, ask, os.open(here, os.O_RDONLY), failed=INPUT), b"")
    failed, due = (INPUT, b"") if program.closed_fails else (b"", program_model.printed(b"", ask))
    yield "input is closed", lambda: same(text(program, ask, null(), before=lambda: os.close(0), failed=failed), due)
    yield "input is open for writing only", lambda: same(text(program, ask, null(os.O_WRONLY), failed=INPUT), b"")
    yield "input fails behind good entries", lambda: same(text(program, ask, failing_behind(stdin), failed=INPUT), b"")
    yield "ask is a directory", lambda: same(text(program, DIRECTORY, [stdin], failed=ASK), b"")
    yield "ask is a link to itself", lambda: same(text(program, LOOP, [stdin], failed=ASK), b"")
    yield "refused before the ask, a directory", lambda: same(text(program, DIRECTORY, [stdin + b"\1"]), b"refused 11 record 6\n")


def up_to(program, name, most):
    """Output into a file that can't grow beyond so many bytes: the beginning of the text, and all of it where it fits."""
    stdin, ask, due = case(name)

    def before():
        signal.signal(signal.SIGXFSZ, signal.SIG_IGN)
        resource.setrlimit(resource.RLIMIT_FSIZE, (most, most))

    with tempfile.TemporaryFile() as file:
        ended = run(program, ask, [stdin], os.dup(file.fileno()), before=before)
        file.seek(0)
        seen = file.read()
    program.hold(ended, OUTPUT if most < len(due) else b"", seen)
    same(seen, due if most >= len(due) else due[:len(seen)])


def no_large_writes(program, name):
    """Output into a socket that takes small writes and fails at large ones: the whole text, or no last line."""
    stdin, ask, due = case(name)
    mine, its = socket.socketpair(socket.AF_UNIX, socket.SOCK_SEQPACKET)
    its.setsockopt(socket.SOL_SOCKET, socket.SO_SNDBUF, 1)
    out = []

    def drain():
        with mine:
            while piece := mine.recv(1 << 20):
                out.append(piece)

    ended = run(program, ask, [stdin], its.detach(), drain)
    seen = b"".join(out)
    program.hold(ended, OUTPUT if seen != due else b"", seen)
    if seen != due and (b"end" in seen or not due.startswith(seen)):
        raise Wrong(f"a write failed, and it goes on: {seen[-60:]!r}")


def reader_leaves(program, name, ignored):
    """Output into a pipe whose reader takes a little and leaves; it may end by the signal for that, if it isn't ignored."""
    stdin, ask, due = case(name)
    mine, its = ends(os.pipe())
    out = []

    def drain():
        with os.fdopen(mine, "rb", buffering=0) as file:
            out.append(file.read(10))

    before = (lambda: signal.signal(signal.SIGPIPE, signal.SIG_IGN)) if ignored else None
    run(program, ask, [stdin], its, drain, before=before, signals=() if ignored else (signal.SIGPIPE,))
    same(out[0], due[:len(out[0])])


def to_end(program, name, stdout, before=None, failed=OUTPUT):
    """Output that nobody can look at: it has to end, and to say so if it fails."""
    stdin, ask, due = case(name)
    program.hold(run(program, ask, [stdin], stdout, before=before), failed, due)


def failing_output(program):
    """Where a write fails, it ends without the last line."""
    for name in "example", "words_7099", "lone_byte", "ask_of_1":
        yield f"{name} to a full device", lambda: to_end(program, name, os.open("/dev/full", os.O_WRONLY))
        failed = OUTPUT if program.closed_fails else b""
        yield f"{name} to a closed output", lambda: to_end(program, name, null(os.O_WRONLY), lambda: os.close(1), failed)
        yield f"{name} to an output open for reading only", lambda: to_end(program, name, null())
        for ignored in False, True:
            yield f"{name}, the reader leaves, {ignored=}", lambda: reader_leaves(program, name, ignored)
        size = len(case(name)[2])
        for most in sorted({0, 1, 7, 15, 16, 5000, 65536, size - 7, size - 1, size}):
            yield f"{name} where {most} bytes fit", lambda: up_to(program, name, most)
    for name in "example", "words_1025", "words_7099":
        yield f"{name} where large writes fail", lambda: no_large_writes(program, name)


EVERY = large, cases, pieces, failing_input, failing_output


def share(program, every, begun, ended):
    """Goes through all runs and does those that no other process has begun. Hands on how many passed and failed, and the longest."""
    passed, failed, longest = 0, 0, (0.0, "none")
    for at, (name, do) in enumerate(one for runs in every for one in runs(program)):
        with begun:
            if at < begun.value:
                continue
            begun.value = at + 1
        start = time.monotonic()
        try:
            do()
            passed += 1
        except Wrong as wrong:
            failed += 1
            print(f"{name}: {wrong}", flush=True)
        longest = max(longest, (time.monotonic() - start, name))
    ended.put((passed, failed, longest))


def main(called, program, every=EVERY):
    """Runs all, as many at a time as there are processors. What the models say is made first, for all processes."""
    for name in "cases named", "cases random":
        part(name)
    for name in named_cases.BEFORE_MUCH:
        case(name)
    forked = multiprocessing.get_context("fork")
    begun, ended = forked.Value("i", 0), forked.Queue()
    workers = [forked.Process(target=share, args=(program, every, begun, ended)) for _ in range(os.cpu_count())]
    for worker in workers:
        worker.start()
    for worker in workers:
        worker.join()
    whole = [ended.get() for worker in workers if worker.exitcode == 0]
    passed = sum(each[0] for each in whole)
    failed = sum(each[1] for each in whole) + len(workers) - len(whole)
    longest = max((each[2] for each in whole), default=(0.0, "none"))
    print(f"longest run: {longest[0]:.1f} s, {longest[1]}")
    print(f"{called}: {passed} passed, {failed} failed")
    return 0 if failed == 0 and passed > 0 else 1


if __name__ == "__main__":
    if len(sys.argv) != 2:
        sys.exit(__doc__)
    if sys.argv[1] == "--keep":
        sys.exit(kept.keep([part(name)[1] for name in ("cases named", "cases random")]))
    sys.exit(main("cases", Load(sys.argv[1])))
