#!/usr/bin/env python3
"""Counts the places in src/ that read like an older language, point by point of docs/DESIGN-PASS.md.

    python3 tools/forms.py [FOLDER] [--list]

FOLDER holds crates/ (this repository by default); --list names each place.
"""
import glob, os, re, sys

root = next((a for a in sys.argv[1:] if not a.startswith("--")), os.path.join(os.path.dirname(__file__), ".."))
listing = "--list" in sys.argv


def without_comments(text):
    return re.sub(r"//[^\n]*", lambda m: " " * len(m.group(0)), text)


sources = {}
for path in sorted(glob.glob(os.path.join(root, "crates/*/src/*.rt"))):
    sources[os.path.relpath(path, os.path.join(root, "crates"))] = without_comments(open(path).read())

FUNCTION = re.compile(r"fn (\w+)(?:<[^>]*>)?\(([^)]*)\)((?:[^{;]|\n)*?)\n(?=[ ]*\{\n|[ ]*requires|[ ]*ensures)", re.S)
places = {}


def found(key, path, position, what):
    line = sources[path].count("\n", 0, position) + 1
    places.setdefault(key, []).append(f"{path}:{line}: {what}")


# 1. enums that say in variants of their own what Option and Result say, `?` written out, matches that hand None or Err on
for path, text in sources.items():
    for m in re.finditer(r"enum (\w+) \{([^}]*)\}", text):
        variants = re.findall(r"^\s+(\w+)", m.group(2), re.M)
        if {"None", "Nothing", "Malformed", "Refused", "NoRoom", "Room", "Full", "Failed"} & set(variants):
            found("1 enums", path, m.start(), f"enum {m.group(1)}")
    for m in re.finditer(r"let (\w+::)?Some\(\w+\) = [^;{]* else \{\s*return (\w+::)?None;\s*\}", text):
        found("1 `?` written out", path, m.start(), "let .. else { return None }")
    for m in re.finditer(r"(\w+::)?None => (\w+::)?None,", text):
        found("1 None handed on", path, m.start(), "None => None")
    for m in re.finditer(r"=> true,\s*(\w+::)?(None|_)[^=\n]*=> false,|=> false,\s*\}", text):
        found("1 variants told apart", path, m.start(), "match to a bool")

# 3. loops that count by hand
for path, text in sources.items():
    for m in re.finditer(r"\b(while|loop)\b", text):
        found("3 loops", path, m.start(), text[m.start():text.index("\n", m.start())].strip())

# 4. equality, order, conversion by hand
for path, text in sources.items():
    for m in re.finditer(r"fn (eq|lt|le|min|max|same_\w+|is_some|bitand|bitor|bitxor|not|from_bool|of_bool|of_count|word_of|code|number|half_bits|half_of|wide|binary_of|unary_of)\b\(", text):
        found("4 by hand", path, m.start(), m.group(1))
    for m in re.finditer(r"std::num::wrapping_\w+|u64::(leading|trailing)_zeros|u64::count_ones|if [^\n{}]* \{ (true|1) \} else \{ (false|0) \}", text):
        found("4 by hand", path, m.start(), m.group(0))
    for m in re.finditer(r"\b(\w+): \1\b", text):
        found("4 fields named twice", path, m.start(), m.group(0))

# 5. a fact that stands in three or more contracts
facts = {}
for path, text in sources.items():
    for m in re.finditer(r"requires (?:\w+ )?\{ ([^\n]*) \}", text):
        for fact in re.split(r" × ", m.group(1)):
            fact = fact.strip().strip("()")
            fact = re.sub(r"\.(now|old)\b", "", fact)
            facts.setdefault(fact, []).append((path, m.start()))
for fact, where in facts.items():
    if len(where) >= 3:
        for path, position in where:
            found("5 facts in three or more contracts", path, position, fact)

# 6. a buffer with a place or a length beside it
for path, text in sources.items():
    for m in re.finditer(r"fn \w+(?:<[^>]*>)?\([^)]*\b(out|line|input|words|text|block): &(mut )?\[[^)]*\b(at|filled|nodes|from|len): (usize|u64)[^)]*\)", text):
        found("6 a place beside a buffer", path, m.start(), m.group(0).split("(")[0])

# 7. a number that says which step to run
for path, text in sources.items():
    for m in re.finditer(r"match (kind|operation|function|group|part|code|tag)\b[^{]*\{\s*(\d|[A-Z_]+ =>|\w+::\w+ if)", text):
        found("7 numbers that choose", path, m.start(), m.group(0).split("{")[0].strip())

for key in sorted(places):
    print(f"{len(places[key]):5}  {key}")
    if listing:
        for place in places[key]:
            print("         " + place)
proofs = [p for p in glob.glob(os.path.join(root, "crates/*/proofs/**/*.antt"), recursive=True)]
print(f"{len(proofs):5}  8 files of proofs, {sum(len(open(p).read().splitlines()) for p in proofs)} lines")
