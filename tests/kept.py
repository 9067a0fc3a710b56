"""The digests that are kept of what is generated, one line for each part (tests/digests.txt), so that a change of a generator
or of a model is seen.

Each part has a seed of its own, which stands there too. SEED=N in the environment takes N for every part instead, for longer
runs; then no digest is held.
"""
import hashlib
import os

PATH = os.path.join(os.path.dirname(os.path.abspath(__file__)), "digests.txt")
OTHER_SEED = os.environ.get("SEED")


def read():
    """For each part its seed, and all of its line."""
    with open(PATH) as file:
        lines = [line.strip() for line in file if line.strip() and not line.startswith("#")]
    return {line.split(":")[0]: (int(line.split()[line.split().index("seed") + 1].strip(",")), line) for line in lines}


def seed(part):
    return int(OTHER_SEED) if OTHER_SEED else read()[part][0]


def line(part, its_seed, size, *texts):
    """The line of a part: its seed, its size, and a digest of what was made."""
    digest = hashlib.sha256(b"\0".join(texts)).hexdigest()[:16]
    return f"{part}: seed {its_seed}, {size}, digest {digest}"


def holds(part, due):
    """Whether a part's line is the kept one."""
    return bool(OTHER_SEED) or read()[part][1] == due


def keep(lines):
    """Writes these lines in the place of those that the parts have."""
    with open(PATH) as file:
        text = file.read().splitlines()
    now = {due.split(":")[0]: due for due in lines}
    text = [now.get(line.split(":")[0], line) for line in text]
    with open(PATH, "w") as file:
        file.write("\n".join(text) + "\n")
