#!/usr/bin/env python3
"""Spells the definitions and lemmas of specs/ and proofs/ as this Rattle's library does: words in snake case, types in camel case.

    python3 tools/respell.py        at the top of the repository, once, after /opt/rattle/port/port.py

respelled.tsv beside this file has a row for each name: old, a tab, new. Where a lemma would get the name of its function it ends in `_lem`. Names of
src/, exported names, strings, inputs and outputs stay.
"""
import os
import re
import sys

HERE = os.path.dirname(os.path.realpath(__file__))
WORD = re.compile(r'[^\s(){}.;,@"«»\[\]|`]+')
SPAN = re.compile(r"`[^`\n]+`")
CAMEL = re.compile(r"[a-z0-9][A-Z]")


def rows():
    with open(os.path.join(HERE, "respelled.tsv"), encoding="utf-8") as f:
        return dict(line.rstrip("\n").split("\t") for line in f if line.strip())


def turn(text, table, only_camel=False):
    """Each word of the table; behind a dot a name is a field's or a path's, and no lemma that gave way to its function."""

    def one(m):
        new = table.get(m[0])
        if new is None or only_camel and not CAMEL.search(m[0]):
            return m[0]
        dotted = text[m.start() - 1 : m.start()] == "."
        if dotted and new.endswith("_lem") and not text[: m.start()].endswith(".."):
            return m[0]
        return new

    text = WORD.sub(one, text)
    return re.sub(r"(?<=ρ\.)sure\b|\bsure(?= : Type 0)", "IsSure", text)


def antt(text, table):
    out = []
    for line in text.split("\n"):
        at = re.search(r"(?:^|(?<=\s))--", line)
        code, said = (line[: at.start()], line[at.start() :]) if at else (line, "")
        said = SPAN.sub(lambda m: turn(m[0], table), turn(said, table, True))
        out.append(turn(code, table) + said)
    return "\n".join(out)


def rt(text, table):
    parts = re.split(r'("(?:\\.|[^"\\\n])*")', text)
    return "".join(p if i % 2 else turn(p, table, True) for i, p in enumerate(parts))


def main():
    table = rows()
    kinds = {".antt": antt, ".rt": rt, ".edit": lambda t, r: turn(t, r, True), ".md": lambda t, r: SPAN.sub(lambda m: turn(m[0], r), t)}
    for top in ("crates", "docs", "README.md"):
        for folder, dirs, files in os.walk(top) if os.path.isdir(top) else [(".", [], [top])]:
            dirs[:] = [d for d in dirs if d not in ("out", ".git")]
            for name in files:
                kind = kinds.get(os.path.splitext(name)[1])
                if kind is None:
                    continue
                path = os.path.join(folder, name)
                with open(path, encoding="utf-8") as f:
                    old = f.read()
                new = kind(old, table)
                if new != old:
                    with open(path, "w", encoding="utf-8") as f:
                        f.write(new)


if __name__ == "__main__":
    sys.exit(main())
