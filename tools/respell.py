#!/usr/bin/env python3
"""Gives the definitions and lemmas of specs/ and proofs/ the spelling of today's Rattle: words in snake case.

usage: python3 tools/respell.py     once, at the top of the repository, right after the toolchain's own script

It was run once, when the repository was brought to a newer toolchain, and is kept so that the step can be repeated.
A name in camel case or with dashes that a file of specs/ or proofs/ declares becomes snake case, at its declaration and
where it is used: in antt files, in the clauses of .rt files, and between backticks in the documents. Types keep their
capitals, and what Rust declares or Rattle generates keeps its name.
"""

import os
import re

# Names that would fall together with another name of the same crate.
APART = {
    "bench": {"ran_on": "ran_on_lem"},
    "recorder": {"goes_on": "goes_on_lem", "one_by_one": "one_by_one_lem"},
}
DECLARED = re.compile(r"^(\s*)((?:(?:abbrev|unfoldable|pub|record|data)\s+)*)([^\s:(){}=.,;|]+)\s*(?=[:({])")
LEADS = ("--", "use ", "let ", "in ", "elim", "|", "[", "rw", "λ", "(", "{")
GENERATED = re.compile(r" : goal\.")
TOKEN = re.compile(r"[A-Za-z_][A-Za-z0-9_'-]*")
CLAUSE = ("ghost ", "requires", "ensures")


def files(*endings):
    for folder, dirs, names in os.walk("crates"):
        dirs[:] = sorted(d for d in dirs if d != "out")
        for name in sorted(names):
            if name.endswith(endings):
                yield os.path.join(folder, name)


def read(path):
    with open(path, encoding="utf-8") as f:
        return f.read()


def snake(name):
    if name[0].isupper():
        return name
    name = re.sub(r"(?<=[a-z0-9])[A-Z]+(?=[A-Z][a-z]|$|-)", lambda m: "_" + m.group(0).lower(), name)
    name = re.sub(r"[A-Z]", lambda m: "_" + m.group(0).lower(), name)
    return name.replace("-", "_")


def declared():
    """The names that are declared, and those of them that are fields of records."""
    names, fields = set(), set()
    for path in files(".antt"):
        record = None
        for line in read(path).split("\n"):
            indent = len(line) - len(line.lstrip())
            if record is not None and line.strip() and indent <= record:
                record = None
            found = DECLARED.match(line)
            if found and "record" in found.group(2).split():
                record = indent
            elif found and " : " in line and not GENERATED.search(line) and not line.strip().startswith(LEADS):
                (fields if record is not None else names).add(found.group(3))
    return names, fields


def turned(text, names, fields):
    def one(found):
        word, before = found.group(0), text[found.start() - 1 : found.start()]
        table = fields if before == "." else names
        return table.get(word, word)

    return TOKEN.sub(one, text)


def clauses(text, names, fields):
    """The text of a .rt file, with the names in its clauses and ghost items turned."""
    out, depth = [], 0
    for line in text.split("\n"):
        if depth > 0 or line.strip().startswith(CLAUSE) or line.strip().startswith("pub ghost "):
            line = turned(line, names, fields)
            depth += line.count("{") - line.count("}")
        out.append(line)
    return "\n".join(out)


def write(path, old, new):
    if old != new:
        with open(path, "w", encoding="utf-8") as f:
            f.write(new)


def main():
    names, fields = declared()
    names = {n: snake(n) for n in names if snake(n) != n}
    fields = {n: snake(n) for n in fields if snake(n) != n}
    both = {**fields, **names}
    for path in files(".antt", ".rt", ".edit"):
        apart = APART.get(path.split("/")[1], {})
        old = read(path)
        if path.endswith(".antt"):
            new = turned(old, {**both, **apart}, fields)
        elif path.endswith(".rt"):
            new = clauses(old, both, fields)
        else:
            new = old if "file: src/" in old else turned(old, both, fields)
        write(path, old, new)
    pages = ["README.md"] + [os.path.join("docs", n) for n in sorted(os.listdir("docs")) if n.endswith(".md")]
    for path in pages:
        old = read(path)
        write(path, old, re.sub(r"`[^`\n]+`", lambda m: turned(m.group(0), names, fields), old))


if __name__ == "__main__":
    main()
