"""Compares the operators that crates/evaluate/specs/SmtLib.antt defines with those of the solver z3.

The definitions are read out of the file and evaluated; z3 evaluates the same terms. The result is a page for docs/SMTLIB.md.
"""

import random
import re
import subprocess
import sys
from dataclasses import dataclass
from pathlib import Path

from definitions import Definitions

FILE = "crates/evaluate/specs/SmtLib.antt"
SEED = 20128
SMALL = (1, 2, 3, 4)
LARGE = (8, 64, 128)
RANDOM_PAIRS = 200

UNARY = ("bvnot", "bvneg")
BINARY = ("bvand", "bvor", "bvxor", "bvadd", "bvsub", "bvmul", "bvudiv", "bvurem", "bvsdiv", "bvsrem")
SHIFTS = ("bvshl", "bvlshr", "bvashr")
ORDERS = ("bvult", "bvule", "bvslt", "bvsle")
EXTENSIONS = ("zero_extend", "sign_extend")

OPERATORS = ("concat", "extract") + UNARY + BINARY + SHIFTS + ORDERS + EXTENSIONS

# Definitions that are no operators of SMT-LIB.
INNER = ("msb", "by_signs", "ordered")


@dataclass(frozen=True)
class Case:
    """A term: the operator's name, its sort, what its definition's parameters are, its text."""

    name: str
    sort: str
    values: dict
    term: str


def bits(width):
    return f"(_ BitVec {width})"


def numeral(value, width):
    return f"(_ bv{value} {width})"


def limits(width):
    half, whole = 1 << (width - 1), 1 << width
    near = (0, 1, half - 1, half, half + 1, whole - 1, width - 1, width, width + 1)
    return [value % whole for value in near]


def operand(width):
    """A limit, or a number of a random bit length."""
    if random.random() < 0.4:
        return random.choice(limits(width))
    return random.getrandbits(width) >> random.randrange(width)


def pairs(width):
    """Every pair of operands at a small width, random ones at a large one."""
    if width in SMALL:
        return [(s, t) for s in range(1 << width) for t in range(1 << width)]
    return [(operand(width), operand(width)) for _ in range(RANDOM_PAIRS)]


def singles(width):
    if width in SMALL:
        return range(1 << width)
    return [operand(width) for _ in range(RANDOM_PAIRS)]


def unary_cases(name, width):
    for s in singles(width):
        term = f"({name} {numeral(s, width)})"
        yield Case(name, bits(width), {"m": width, "s": s}, term)


def binary_cases(name, width, sort):
    for s, t in pairs(width):
        term = f"({name} {numeral(s, width)} {numeral(t, width)})"
        yield Case(name, sort, {"m": width, "s": s, "t": t}, term)


def concat_cases(width):
    """Every width of the low part beside a small one, a random one beside a large one."""
    lows = SMALL if width in SMALL else [random.randrange(1, 129) for _ in range(RANDOM_PAIRS)]
    for low in lows:
        for s in singles(width) if width in SMALL else [operand(width)]:
            for t in singles(low) if width in SMALL else [operand(low)]:
                term = f"(concat {numeral(s, width)} {numeral(t, low)})"
                yield Case("concat", bits(width + low), {"n": low, "s": s, "t": t}, term)


def extract_cases(width):
    """Every pair of bits of every operand at a small width, random ones at a large one."""
    for s in singles(width):
        ends = [(i, j) for i in range(width) for j in range(i + 1)]
        for i, j in ends if width in SMALL else [random.choice(ends)]:
            term = f"((_ extract {i} {j}) {numeral(s, width)})"
            yield Case("extract", bits(i - j + 1), {"i": i, "j": j, "s": s}, term)


def extension_cases(name, width):
    """By 0 to 4 bits at a small width, by up to 128 at a large one."""
    for s in singles(width):
        for i in range(5) if width in SMALL else [random.randrange(129)]:
            term = f"((_ {name} {i}) {numeral(s, width)})"
            yield Case(name, bits(width + i), {"m": width, "i": i, "s": s}, term)


def cases(name, width):
    if name in UNARY:
        return unary_cases(name, width)
    if name in ORDERS:
        return binary_cases(name, width, "Bool")
    if name in EXTENSIONS:
        return extension_cases(name, width)
    if name == "concat":
        return concat_cases(width)
    if name == "extract":
        return extract_cases(width)
    return binary_cases(name, width, bits(width))


def solve(script):
    run = subprocess.run(["z3", "-in", "-smt2"], input=script, capture_output=True, text=True, check=True)
    if "error" in run.stdout:
        raise ValueError(run.stdout)
    return run.stdout


def value_of(text):
    if text in ("true", "false"):
        return text == "true"
    return int("0" + text[1:], 0)


def solved(asked):
    """z3's value of each term."""
    lines = ["(set-option :produce-models true)", "(set-logic QF_BV)"]
    lines += [f"(define-fun e{at} () {case.sort} {case.term})" for at, case in enumerate(asked)]
    lines += ["(check-sat)", "(get-value (" + " ".join(f"e{at}" for at in range(len(asked))) + "))"]
    answers = re.findall(r"\(e(\d+) (#[bx][0-9a-f]+|true|false)\)", solve("\n".join(lines)))
    if [int(at) for at, _ in answers] != list(range(len(asked))):
        raise ValueError("z3 left a term without a value")
    return [value_of(text) for _, text in answers]


def differing(definitions, asked):
    """The cases where the definition's value is not z3's, each with both."""
    found = []
    for case, theirs in zip(asked, solved(asked)):
        arguments = [case.values[name] for name in definitions.parameters(case.name)]
        ours = definitions.call(case.name, arguments)
        if type(ours) is not type(theirs) or ours != theirs:
            found.append(f"{case.term}: {ours} by the definition, {theirs} by z3")
    return found


def row(definitions, name):
    """A line of the table, and the differences."""
    counts, found = [], []
    for widths in (SMALL, LARGE):
        asked = [case for width in widths for case in cases(name, width)]
        found += differing(definitions, asked)
        counts.append(len(asked))
    line = f"| `{name}` | {counts[0]} | {counts[1]} | {len(found)} |"
    return line, found, sum(counts)


PAGE = """# SMT-LIB

`{file}` has the operators of SMT-LIB's theory FixedSizeBitVectors and of the logic QF_BV as definitions on numbers. The text of these definitions was evaluated and compared with the solver {solver}: {total} values, {differences}.

    python3 tests/smtlib/compare.py > docs/SMTLIB.md

It needs python3 (3.10 or newer) and `z3` (`apt-get install z3`). This page is what it writes; it ends with status 1 if a value differs. Random operands have the fixed seed {seed}: limits of the width, amounts of shifts around it, zero divisors, and numbers of random bit lengths.

- Widths 1 to 4: every operand, every pair of operands, every pair of ends of `extract`, every width of `concat`'s second operand, extensions by 0 to 4 bits.
- Widths 8, 64, 128: {pairs} random choices each.

| operator | values at widths 1 to 4 | values at widths 8, 64, 128 | differences |
|---|---|---|---|
{rows}
"""


def main():
    root = Path(__file__).resolve().parents[2]
    definitions = Definitions((root / FILE).read_text())
    if sorted(definitions.clauses) != sorted(OPERATORS + INNER):
        raise ValueError(f"{FILE} defines other names than those that are compared")
    random.seed(SEED)
    results = [row(definitions, name) for name in OPERATORS]
    found = [difference for _, differences, _ in results for difference in differences]
    solver = subprocess.run(["z3", "--version"], capture_output=True, text=True, check=True).stdout
    print(
        PAGE.format(
            file=FILE,
            solver=solver.strip().split(" - ")[0].replace("Z3 version", "z3"),
            total=f"{sum(count for _, _, count in results):,}",
            differences=f"{len(found)} differences" if found else "no difference",
            seed=SEED,
            pairs=RANDOM_PAIRS,
            rows="\n".join(line for line, _, _ in results),
        ),
        end="",
    )
    for difference in found[:20]:
        print(difference, file=sys.stderr)
    sys.exit(1 if found else 0)


if __name__ == "__main__":
    main()
