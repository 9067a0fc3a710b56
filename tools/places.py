#!/usr/bin/env python3
"""Counts the places of each point of docs/DESIGN-PASS.md in the code, src/ of every crate.

    python3 tools/places.py [-v] [COMMIT]

Of the checkout as it is, or of a commit. With -v it prints each place. What is counted stands beside each point below. It reads text and not meaning: what
it finds is looked at by a person, and the page says what each place became.
"""
import collections
import os
import re
import subprocess
import sys

HEAD = re.compile(r"^( *)(?:pub(?:\(crate\))? )?(?:extern \"C\" )?(fn|struct|enum|impl)\b ?([^\n]*)", re.M)
NUMBER = r"\b(?:u8|usize)\b"


def sources(commit):
    """The path and the text of each source file."""
    if commit is None:
        paths = subprocess.run(["git", "ls-files", "crates/*/src/*.rt"], capture_output=True, text=True, check=True).stdout.split()
        return {it: open(it, encoding="utf-8").read() for it in paths if os.path.exists(it)}
    paths = subprocess.run(["git", "ls-tree", "-r", "--name-only", commit, "crates"], capture_output=True, text=True, check=True).stdout.split()
    paths = [it for it in paths if re.fullmatch(r"crates/\w+/src/\w+\.rt", it)]
    return {it: subprocess.run(["git", "show", f"{commit}:{it}"], capture_output=True, text=True, check=True).stdout for it in paths}


def items(text):
    """Each fn, struct, enum and impl: its kind, its head up to the body, and the comment lines above it."""
    lines = text.split("\n")
    for i, line in enumerate(lines):
        m = re.match(r"^ *(?:pub(?:\(crate\))? )?(?:extern \"C\" )?(fn|struct|enum|impl)\b", line)
        if not m:
            continue
        head, j = [], i
        while j < len(lines) and not re.match(r"^ *(requires|ensures)\b|^ *\{$", lines[j]) and (j == i or not lines[j - 1].rstrip().endswith("{")):
            head.append(lines[j].strip())
            j += 1
        clauses = []
        while j < len(lines) and re.match(r"^ *(requires|ensures)\b", lines[j]):
            clauses.append(lines[j].strip())
            j += 1
        body, depth, k = [], 0, i
        while k < len(lines):
            depth += lines[k].count("{") - lines[k].count("}")
            body.append(lines[k])
            if k >= j - (0 if clauses else 1) and depth <= 0 and ("}" in lines[k] or lines[k].rstrip().endswith(";")):
                break
            k += 1
        above, k = [], i - 1
        while k >= 0 and re.match(r"^ *(//|#\[)", lines[k]):
            above.append(lines[k].strip())
            k -= 1
        yield m.group(1), i + 1, " ".join(head), clauses, "\n".join(body), " ".join(reversed(above))


def lines_with(text, pattern):
    return [(i + 1, it.strip()) for i, it in enumerate(text.split("\n")) if re.search(pattern, it) and not it.lstrip().startswith("//")]


def parameters(head):
    """The names of a function's parameters in their order."""
    m = re.search(r"\((.*)\)(?: ->|$| \{)", head)
    return [it.group(1) for it in re.finditer(r"(?:^|[,(] ?)(?:mut )?(\w+): ", m.group(1) + ",")] if m else []


def shape(body):
    """A function's body with every name, number and type made alike."""
    inner = body[body.index("{", body.rfind("ensures")) + 1:] if "ensures" in body and "{" in body else body
    inner = re.sub(r"//[^\n]*", "", inner[inner.rfind("}\n{") + 1:] if "}\n{" in inner else inner)
    return re.sub(r"\s+", " ", re.sub(r"\b\d\w*\b", "0", re.sub(r"\b(?!if\b|else\b|while\b|for\b|return\b|match\b|let\b|mut\b)[A-Za-z_]\w*\b", "x", inner))).strip()


def places(all_texts):
    found = collections.OrderedDict()
    shapes = {}

    def add(point, path, line, what):
        found.setdefault(point, []).append((path, line, what))

    runs, facts = collections.Counter(), collections.Counter()
    where_run, where_fact = {}, {}
    for path, text in sorted(all_texts.items()):
        for kind, line, head, clauses, body, above in items(text):
            if kind == "enum":
                add("1 enums of our own", path, line, head)
            if kind == "struct" and re.search(r"\b(number: u8|found: bool|whole: bool|read: io::Result|end: usize|says: |more: bool)", body):
                add("1 structs of a number or a flag with a value beside it", path, line, head)
            if kind == "fn" and re.search(r"-> u8\b", head) and "/selquorin" not in path:
                add("1 functions that answer a u8 (a refusal's number, a code, a byte or a count), but for those for C", path, line, head)
            if kind == "fn" and re.search(r"-> io::Result<bool>|-> bool\b", head):
                add("1 functions that answer a bool (whether something is so, or was done)", path, line, head)
            if kind == "fn" and re.search(r"[0-9],[0-9]{3} if|, or (the )?(16|length|0)\b|or 16|; the text's length|if none does|where none is|nowhere there", above):
                add("1 functions with a number that stands for none", path, line, head)
            if kind == "struct" and re.search(r"\blen: usize", body):
                add("6 buffers with a length beside them", path, line, head)
            if kind == "fn" and re.search(r"\b(t: &(mut )?\[u8\], n: usize|nexts: &\[u8\], k: usize|bytes: &\[u8; MOST\],? n: usize)", head):
                add("6 buffers with a length beside them", path, line, head)
            if kind == "fn" and len(shape(body)) > 80:
                shapes.setdefault(shape(body), []).append((path, line, head))
            if kind == "fn":
                names = parameters(head)
                for n in (2, 3, 4):
                    for a in range(len(names) - n + 1):
                        run = tuple(names[a:a + n])
                        runs[run] += 1
                        where_run.setdefault(run, (path, line))
                for clause in clauses:
                    if clause.startswith("requires"):
                        inner = re.sub(r"^requires \w* ?\{ ?| ?\}$", "", clause)
                        for fact in {re.sub(r"^\((.*)\)$", r"\1", it) for it in inner.split(" × ")}:
                            fact = re.sub(r"\b(rows|journals|scratch|picture|t|nexts|b|word)\.(now|old)", r"\1", fact)
                            facts[fact] += 1
                            where_fact.setdefault(fact, (path, line))
                if re.match(r"fn (same|comes_before|wide|whole|flag|digit|digits|to_bytes|number|put|copy_all|zero_all|fill_with|least|find|used)\b", re.sub(r"^pub(\(crate\))? ", "", head)):
                    add("4 equality, order, copying, conversion and printing by hand (functions)", path, line, head)
        for line, what in lines_with(text, r"^\s*('[a-z]+: )?(while|loop)\b"):
            add("3 loops by hand", path, line, what)
        for line, what in lines_with(text, r"\bas (u8|u16|u32|u64|usize)\b"):
            add("4 conversions by `as`", path, line, what)
        for line, what in lines_with(text, r"^\s*pub const [A-Z_]+: u8 = [0-9]+;") if re.search(r"/(number|name)\.rt$", path) else []:
            add("1 numbers for kinds and refusals", path, line, what)
        for line, what in lines_with(text, r"\bmatch "):
            add("7 matches", path, line, what)
        for line, what in lines_with(text, r"\b(dyn |fn\(|Fn\()"):
            add("7 closures and tables of functions", path, line, what)
    for same in shapes.values():
        if len(same) > 1:
            path, line, _ = same[0]
            add("2 functions with bodies alike but for names, numbers and types (groups)", path, line, "; ".join(it[2][:60] for it in same))
    for fact, n in sorted(facts.items(), key=lambda it: -it[1]):
        if n >= 3:
            add("5 facts that three or more functions require", *where_fact[fact], f"{n}: {fact}")
    for run, n in sorted(runs.items(), key=lambda it: (-it[1], it[0])):
        longer = any(len(it) > len(run) and m >= n and any(it[a:a + len(run)] == run for a in range(len(it))) for it, m in runs.items())
        if n >= 3 and not longer:
            add("5 parameters that travel together through three or more functions", *where_run[run], f"{n}: {', '.join(run)}")
    return found


def proofs(commit):
    """How many files of answers there are, and answers in them."""
    if commit is None:
        paths = subprocess.run(["git", "ls-files", "crates/*/proofs/*Answers.antt"], capture_output=True, text=True, check=True).stdout.split()
        texts = [open(it, encoding="utf-8").read() for it in paths if os.path.exists(it)]
    else:
        paths = subprocess.run(["git", "ls-tree", "-r", "--name-only", commit, "crates"], capture_output=True, text=True, check=True).stdout.split()
        paths = [it for it in paths if it.endswith("/Answers.antt")]
        texts = [subprocess.run(["git", "show", f"{commit}:{it}"], capture_output=True, text=True, check=True).stdout for it in paths]
    return len(texts), sum(len(re.findall(r"^pub [^ ]+ : goal\.", it, re.M)) for it in texts)


def main():
    args = [it for it in sys.argv[1:] if it != "-v"]
    found = places(sources(args[0] if args else None))
    for point in sorted(found):
        print(f"{len(found[point]):4} {point}")
        if "-v" in sys.argv:
            for path, line, what in found[point]:
                print(f"       {path}:{line}: {what}")
    files, answers = proofs(args[0] if args else None)
    print(f"{files:4} 8 files of answers in proofs/")
    print(f"{answers:4} 8 answers in them")


main()
