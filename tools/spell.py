#!/usr/bin/env python3
"""Brings the repository's own definitions and lemmas to the spelling of today's Rattle: snake case, in place of camel case and of dashes.

    python3 tools/spell.py

It is run once, at the top of the checkout, on what port.py left. Functions of src/, exported names, strings and file names stay. A name that another
library gives, or that the prover makes of the code, stays too. Where two names would fall together, the lemma gets the ending `_lem` and the field of a
record the ending `_is`. Pages are turned between backquotes alone, and edits in their `old:` and `new:` lines.
"""
import glob
import re
import sys

# Words that would fall together with a call's own name.
CHOSEN = {"liveRows": "live_rows_answer", "openJournals": "open_journals_answer", "oneMore": "one_call_more", "rowRecord": "record_of_row"}
NAME = r"[A-Za-z_][A-Za-z0-9_'₀-₉]*(?:-[A-Za-z0-9_'₀-₉]+)*"
CAMEL = re.compile(r"(?<![A-Za-z0-9_'₀-₉-])([a-z]+[a-z0-9]*(?:[A-Z][a-z0-9]*)+)(?![A-Za-z0-9_'₀-₉-])")
TOKEN = re.compile(rf"(?<![A-Za-z0-9_'₀-₉-]){NAME}(?![A-Za-z0-9_'₀-₉-])")
DECLARED = re.compile(rf"^\s*(?:(?:abbrev|unfoldable|pub|record|data|let|where|opaque)\s+)*({NAME})(?:\s+\([^)]*\)|\s+\{{[^}}]*\}}|\s+[a-z']+)*\s*:\s")
FIELD = re.compile(rf"^  pub ({NAME})\s*:\s")
IMPORT = re.compile(r"use ([\w.·'-]+)\.\{([^}]*)\}")


def crates():
    with open("crates.txt") as file:
        return [line.split(":")[0].split()[0] for line in file if ":" in line and not line.startswith("#")]


def snake(name):
    """A name in snake case."""
    apart = re.sub(r"(?<=[a-z0-9])([A-Z])", lambda found: "_" + found.group(1).lower(), name)
    return apart.replace("-", "_")


def sources(ending):
    return sorted(path for path in glob.glob(f"crates/*/**/*{ending}", recursive=True) if "/out/" not in path)


def function_proof(path):
    """Whether a file is the proof of one function, whose names the prover gives."""
    return path.endswith(("/Proof.antt", "/Answers.antt", "/Invariants.antt"))


def declared():
    """The own names by kind: those of specs/, of lemmas, and of records' fields."""
    words, lemmas, fields = set(), set(), set()
    for path in sources(".antt"):
        for line in open(path):
            found = DECLARED.match(line)
            if not found or function_proof(path):
                continue
            name = found.group(1)
            if FIELD.match(line):
                fields.add(name)
            elif "/specs/" in path:
                words.add(name)
            else:
                lemmas.add(name)
    return words, lemmas, fields


def turned():
    """What each own name becomes. The words of specs/ come first, then fields, then lemmas."""
    words, lemmas, fields = declared()
    table, taken = {}, set()
    for kind, ending in ((words, "_word"), (fields, "_is"), (lemmas, "_lem")):
        for name in sorted(kind - set(table), key=lambda name: (snake(name) != name, name)):
            new = CHOSEN.get(name) or (name if re.match("[A-Z]", name) else snake(name))
            if new in taken:
                print(f"spell: {name} falls together with another, so it is {new + ending}")
                new += ending
            if new in taken:
                sys.exit(f"spell: {new} stands already")
            taken.add(new)
            table[name] = new
    return {name: new for name, new in table.items() if name != new}


def foreign(text, own):
    """The names that a file takes from libraries that aren't the repository's."""
    names = set()
    for path, items in IMPORT.findall(text):
        parts = re.split(r"[.·]", path)
        if parts[0] != "Rattle" or len(parts) < 2 or parts[1] not in own:
            names |= {part.strip() for item in items.split(",") for part in item.split(" as ")}
    return names


def respell(text, table, kept):
    """A piece of text with its names turned: first those of the table, then variables in camel case."""
    text = TOKEN.sub(lambda found: table.get(found.group(), found.group()) if found.group() not in kept else found.group(), text)
    return CAMEL.sub(lambda found: snake(found.group()) if found.group() not in kept else found.group(), text)


def respell_comment(text, table):
    """A comment: names in camel case, since a dash in a sentence is no name's."""
    return CAMEL.sub(lambda found: table.get(found.group(), found.group()), text)


def turn_antt(text, table, kept):
    lines = []
    for line in text.split("\n"):
        code, dashes, comment = line.partition("--") if re.match(r"\s*--", line) else (line, "", "")
        if not dashes and " -- " in line:
            code, dashes, comment = line.partition(" -- ")
        lines.append(respell(code, table, kept) + dashes + respell_comment(comment, table))
    return "\n".join(lines)


def turn_rt(text, table):
    """In code only names in camel case are turned, which are those of clauses, and no text between quotes."""
    parts = re.split(r'("(?:[^"\\\n]|\\.)*")', text)
    return "".join(part if at % 2 else CAMEL.sub(lambda found: table.get(found.group(), found.group()), part) for at, part in enumerate(parts))


def turn_edit(text, table):
    return "\n".join(respell(line, table, set()) if re.match("(old|new):", line) and "\"" not in line else line for line in text.split("\n"))


def turn_page(text, table):
    return re.sub(r"`([^`\n]+)`", lambda found: found.group() if "/" in found.group(1) else "`" + respell(found.group(1), table, set()) + "`", text)


def main():
    own, table = set(crates()), turned()
    changed = 0
    for path in sources(".antt") + sources(".rt") + sources(".edit") + sorted(glob.glob("*.md") + glob.glob("docs/*.md")):
        with open(path) as file:
            text = file.read()
        if path.endswith(".antt"):
            new = turn_antt(text, table, foreign(text, own))
        elif path.endswith(".rt"):
            new = turn_rt(text, table)
        elif path.endswith(".edit"):
            new = turn_edit(text, table)
        else:
            new = turn_page(text, table)
        if new != text:
            changed += 1
            with open(path, "w") as file:
                file.write(new)
    print(f"spell: {len(table)} names, {changed} files")


if __name__ == "__main__":
    main()
