#!/usr/bin/env python3
"""Counts the lines of specs/ that a theorem's statement reaches.

    python3 tests/spec_lines/count.py meaning.Book Demand3 AllMet play

The names are looked up in crates/CRATE/specs/FILE.antt, and from there every definition that their text cites, through the
file's `use` lines. Comments, blank lines and `use` lines do not count. Types that src/ declares are counted apart.
"""
import pathlib
import re
import sys

CRATES = pathlib.Path(__file__).resolve().parents[2] / "crates"
WORD = re.compile(r"[^\s(){},.;]+(?:\.[^\s(){},.;]+)*|\.[^\s(){},.;]+")
ITEM = re.compile(r"^(?:abbrev |unfoldable )*(?:pub )?(data |record )?(\S+)(?: \((?:[^()]|\([^()]*\))*\))* :")


def read(crate, file):
    """The items of a file, name to lines, and what its `use` lines bring: names and module names."""
    items, names, modules, last = {}, {}, {}, None
    for line in (CRATES / crate / "specs" / (file + ".antt")).read_text().splitlines():
        if line.startswith("use "):
            bring(crate, line, names, modules)
        elif line.startswith(("--", "infix")) or not line.strip():
            last = last if line.strip() else None
        elif line[0] != " ":
            found = ITEM.match(line)
            if found and found.group(2) not in items:
                last = found.group(2)
                items[last] = []
                if found.group(1):
                    kinds[crate, file, last] = True
            items[last].append(line)
        elif last and not line.strip().startswith("--"):
            items[last].append(line)
            inner = re.match(r"  (?:pub )?(\S+) :", line)
            if inner and (crate, file, last) in kinds:
                parts[crate, file, inner.group(1)] = last
    return items, names, modules


def bring(crate, line, names, modules):
    found = re.match(r"use Rattle\.(\w+)\.specs\.([\w.-]+?)(?:\.\{(.*)\})?(?: as (\S+))?$", line)
    if not found or not (CRATES / found.group(1)).exists():  # the kit's libraries are not counted
        return
    where = (found.group(1), found.group(2))
    if found.group(3):
        for name in found.group(3).split(","):
            name, _, other = name.strip().partition(" as ")
            names[other or name] = (*where, name)
    if found.group(4):
        modules[found.group(4)] = where


files, kinds, parts = {}, {}, {}


def module(crate, file):
    if (crate, file) not in files:
        files[crate, file] = read(crate, file)
    return files[crate, file]


def reached(crate, file, name, seen, declared):
    if file.startswith("declared"):
        declared.add((crate, next(part for part in file.split(".")[1:] if part[0].isupper())))
        return
    items, names, modules = module(crate, file)
    name = name if name in items else parts.get((crate, file, name), name)
    if name not in items or (crate, file, name) in seen:
        return
    seen.add((crate, file, name))
    for word in set(WORD.findall("\n".join(items[name]))):
        head, _, rest = word.partition(".")
        infix = "◌" + word + "◌"
        if infix in names:
            reached(*names[infix], seen, declared)
        elif head in modules and rest:
            reached(*modules[head], rest, seen, declared)
        elif head in items or (crate, file, head) in parts:  # what follows a dot is a field
            reached(crate, file, head, seen, declared)
        elif head in names:
            reached(*names[head], seen, declared)


def declared_lines(crate, name):
    for path in (CRATES / crate / "src").glob("*.rt"):
        found = re.search(r"^pub (?:enum|struct) %s\b[^;{]*(?:;|\{.*?^\})" % name, path.read_text(), re.M | re.S)
        if found:
            return len([l for l in found.group(0).splitlines() if l.strip() and not l.strip().startswith("//")])
    return 0


def main():
    crate, file = sys.argv[1].split(".")
    seen, declared = set(), set()
    for name in sys.argv[2:]:
        reached(crate, file, name, seen, declared)
    by = {}
    for c, f, n in seen:
        by[c] = by.get(c, 0) + len(files[c, f][0][n])
    for c in sorted(by):
        print(f"{c}: {by[c]}")
    print(f"specs/: {sum(by.values())} lines, {len(seen)} definitions")
    print(f"types of src/: {sum(declared_lines(*d) for d in declared)} lines, {len(declared)} types")


main()
