#!/usr/bin/env python3
"""Holds the pages to the tree: every path, definition, theorem, function and wrong version that they name is there.

    python3 tests/pages.py

Read are the words between backquotes. One with a slash or with the ending of a file is a path, from the root or from
crates/. On a page of docs/ and in CONTRIBUTING.md every other single name is one of something: behind "`FILE`:" of that
file, behind "`CRATE`:" of that crate, where it may be a wrong version too, and elsewhere of any source. The other way round,
docs/PROMISES.md names every wrong version. Prints a line for each that is missing, and last `pages: N passed, M failed`.
"""
import glob
import os
import re
import sys

ROOT = os.path.join(os.path.dirname(os.path.abspath(__file__)), "..")
PAGES = sorted(glob.glob("*.md", root_dir=ROOT) + glob.glob("docs/**/*.md", root_dir=ROOT, recursive=True))
SOURCES = [path for ending in ("rt", "antt", "py", "rs", "h", "c") for path in glob.glob(f"**/*.{ending}", root_dir=ROOT, recursive=True)
           if not {"target", "out"} & set(path.split("/"))]
# What a page speaks of and the tree has not: files that a run reads or makes.
ELSEWHERE = re.compile(r"ask\.bin|Cargo\.toml|.*….*|target/.*|crates/\w+/out/.*|lib\w+\.a|/dev/\w+")
FILE = re.compile(r"[\w.*/-]+/[\w.*/-]*|[\w-]+\.(md|rt|antt|edit|py|sh|rs|h|c|txt|bin|toml)")
NAME = re.compile(r"[A-Za-z][\w'-]*")
KEYWORDS = r"pub(?:\(crate\))?|abbrev|unfoldable|record|data|unsafe|extern \"C\"|fn|struct|enum|const|type|mod|impl|def|class|static|inline|uint\d+_t|#define"
DECLARED = re.compile(rf"^[ ]*(?:(?:{KEYWORDS})[ ]+)*([A-Za-z][\w'-]*)", re.M)


def read(path):
    with open(os.path.join(ROOT, path)) as file:
        return file.read()


def there(path):
    """The paths that one on a page stands for; a star is any name, and a folder that crates have is that of one of them."""
    return [base + found for base in ("", "crates/", "crates/words/") for found in glob.glob(path.rstrip("/"), root_dir=os.path.join(ROOT, base))]


class Tree:
    """What the sources declare, and the wrong versions."""

    def __init__(self):
        self.names = {path: set(DECLARED.findall(read(path))) for path in SOURCES}
        self.crates = {os.path.basename(path) for path in glob.glob("crates/*", root_dir=ROOT)}
        self.edits = {path: os.path.basename(path)[:-len(".edit")] for path in glob.glob("crates/*/must-fail/*.edit", root_dir=ROOT)}

    def below(self, folder):
        """The names of everything below a folder or of one file."""
        under = [names for path, names in self.names.items() if path == folder or path.startswith(folder.rstrip("/") + "/")]
        return set().union(*under) | {name for path, name in self.edits.items() if path.startswith(folder.rstrip("/") + "/")}


def missing(page, tree):
    """What a page names and the tree has not, and how many it names."""
    seen, wrong, names = 0, [], page.startswith("docs/") or page == "CONTRIBUTING.md"
    for number, line in enumerate(read(page).splitlines(), 1):
        where, named, end = "", "", 0
        for span in re.finditer(r"`([^`]+)`", line):
            text, between = span.group(1), line[end:span.start()]
            where = named if between.startswith(":") else where if re.fullmatch(r",? (and )?", between) else ""
            end, named = span.end(), ""
            if ELSEWHERE.fullmatch(text):
                continue
            if FILE.fullmatch(text):
                found = there(text)
                seen, named = seen + 1, found[0] if found else ""
                if not found:
                    wrong.append(f"{page}:{number}: no {text}")
            elif names and text in tree.crates:
                named = f"crates/{text}"
            elif names and NAME.fullmatch(text):
                seen += 1
                if text not in tree.below(where):
                    wrong.append(f"{page}:{number}: no {text} in {where or 'any source'}")
    return seen, wrong


def main():
    tree = Tree()
    tree.names[""] = tree.below("crates") | tree.below("tests") | tree.below("rust") | tree.below("include")
    named, wrong = 0, []
    for page in PAGES:
        seen, lacks = missing(page, tree)
        named, wrong = named + seen, wrong + lacks
    promises = read("docs/PROMISES.md")
    named += len(tree.edits)
    wrong += [f"docs/PROMISES.md: nothing of {path}" for path, name in sorted(tree.edits.items()) if f"`{name}`" not in promises and path[len("crates/"):] not in promises]
    print("\n".join(wrong + [f"pages: {named - len(wrong)} passed, {len(wrong)} failed"]))
    sys.exit(bool(wrong))


if __name__ == "__main__":
    main()
