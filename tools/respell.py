#!/usr/bin/env python3
"""Spells this repository's own definitions and lemmas as today's Rattle does: types in camel case, all else in snake case.

usage: tools/respell.py [--check]      at the top of the repository, once, after the toolchain's port.py

A name counts as the repository's own if it is declared in specs/ or proofs/ of a crate and has a dash. Names that Rattle makes,
as `returns-then-covers` in an Answers.antt, stay, and so does a name in a file that takes it from a library.
In comments and pages only what stands between backticks is turned.
A definition may have the name of the function that answers it, as in the toolchain's own crates. A name that would fall
together with any other word of the repository is said, and nothing is written.
"""
import os
import re
import sys

ENDS = "\\s(){}\\[\\].,;:\"`⟨⟩"
WORD = re.compile("[^" + ENDS + "]+")
DECLARED = re.compile(r"^(\s*)((?:(?:abbrev|pub|unfoldable|pattern)\s+)*)(record\s+|data\s+)?([^\s:(){}]+)((?:\s*\{[^}]*\}|\s*\([^)]*\))*)\s*:\s")
IMPORT = re.compile(r"^\s*(?:pub\s+)?(?:ghost\s+)?use\s+([^\s{;]+)\.\{([^}]*)\}", re.M)
MADE = ("Answers.antt", "Invariants.antt", "Choices.antt")
OTHERS = {"getD-length": "get_or_length"}


def texts():
    for top in ("crates", "docs"):
        for folder, dirs, files in os.walk(top):
            dirs[:] = sorted(d for d in dirs if d not in ("out", ".git"))
            for f in sorted(files):
                if f.endswith((".antt", ".rt", ".edit", ".md")):
                    yield os.path.join(folder, f)
    yield "README.md"


def read(path):
    with open(path, encoding="utf-8") as f:
        return f.read()


def is_type(lines, i, name, start):
    """Whether the declaration that begins at line i ends in a universe."""
    said = [lines[i][start:]]
    for line in lines[i + 1:]:
        if not line.strip() or re.match(r"\s*" + re.escape(name) + r"(\s|$)", line):
            break
        said.append(line)
    return re.search(r"(→|^)\s*Type\b[^→]*$", " ".join(said).strip()) is not None


def declared(path, text):
    lines = text.split("\n")
    for i, line in enumerate(lines):
        m = DECLARED.match(line)
        if m:
            name = m.group(4)
            yield name, bool(m.group(3)) or is_type(lines, i, name, m.end())


def respelled(name, a_type):
    if name in OTHERS:
        return OTHERS[name]
    if a_type:
        return "".join(w[:1].upper() + w[1:] for w in name.split("-"))
    return "_".join(w.lower() if w.isascii() else w for w in name.split("-"))


def own_names(files):
    names = {}
    for path, text in files.items():
        if not path.endswith(".antt") or os.path.basename(path) in MADE:
            continue
        for name, a_type in declared(path, text):
            if "-" in name.strip("-"):
                names[name] = names.get(name, False) or a_type
    return {name: respelled(name, a_type) for name, a_type in names.items()}


def of_libraries(text, crates):
    """The words that a file takes from a library."""
    words = set()
    for path, items in IMPORT.findall(text):
        parts = path.split(".")
        if not (parts[0] == "Rattle" and len(parts) > 1 and parts[1] in crates):
            words.update(w.strip().split(" as ")[-1] for w in items.split(","))
    return words


def in_code(line, table):
    return WORD.sub(lambda m: table.get(m.group(0), m.group(0)), line)


def in_ticks(line, table):
    return re.sub(r"`[^`]*`", lambda m: in_code(m.group(0), table), line)


def turned(path, text, table):
    if path.endswith(".md"):
        return in_ticks(text, table)
    mark = "--" if path.endswith(".antt") else "//"
    out = []
    for line in text.split("\n"):
        if line.lstrip().startswith(mark):
            out.append(in_ticks(line, table))
        else:
            out.append(in_code(line, table))
    return "\n".join(out)


def main():
    files = {path: read(path) for path in texts()}
    crates = set(os.listdir("crates"))
    table = own_names(files)
    words = set()
    functions = set()
    for path, text in files.items():
        if not path.endswith(".md"):
            words.update(WORD.findall(text))
        if path.endswith(".rt"):
            functions.update(re.findall(r"\bfn (\w+)", text))
    news = {}
    bad = False
    for old, new in sorted(table.items()):
        if new in words - functions:
            print(f"{old}: {new} stands in the repository already")
            bad = True
        if new in news:
            print(f"{old}, {news[new]}: both would be {new}")
            bad = True
        news[new] = old
    print(f"{len(table)} names")
    if bad:
        raise SystemExit(1)
    for path, text in files.items():
        lent = of_libraries(text, crates)
        here = {old: new for old, new in table.items() if old not in lent}
        for old in sorted(lent & table.keys()):
            print(f"{path}: {old} is a library's here")
        new = turned(path, text, here)
        if new != text and "--check" not in sys.argv[1:]:
            with open(path, "w", encoding="utf-8") as f:
                f.write(new)


main()
