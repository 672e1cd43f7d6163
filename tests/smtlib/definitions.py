"""Reads the definitions of an antt file on numbers and truth values, and evaluates them."""

import re
from dataclasses import dataclass

# Precedence, and whether the right operand may hold the same operator.
OPERATORS = {
    "+": (65, False),
    "-": (65, False),
    "*": (70, False),
    "/": (70, False),
    "%": (70, False),
    "^": (75, True),
}

# A power of two with a larger exponent is kept as a scaled number.
LARGEST_EXPONENT = 4096


@dataclass(frozen=True)
class Scaled:
    """factor * 2 ^ exponent, too large to be written out."""

    factor: int
    exponent: int


@dataclass(frozen=True)
class Clause:
    patterns: tuple
    body: tuple


def power(base, exponent):
    if exponent <= LARGEST_EXPONENT:
        return base**exponent
    if base != 2:
        raise ValueError("a large power of another base than 2")
    return Scaled(1, exponent)


def product(a, b):
    if isinstance(b, Scaled):
        return Scaled(a * b.factor, b.exponent) if a else 0
    return a * b


def quotient(a, b):
    if isinstance(b, Scaled):
        if a.bit_length() > b.exponent:
            raise ValueError("a quotient by a large power")
        return 0
    return a // b if b else 0


def remainder(a, b):
    if isinstance(a, Scaled):
        if b.bit_count() != 1 or b.bit_length() > a.exponent:
            raise ValueError("a remainder of a large power")
        return 0
    return a % b if b else a


APPLY = {
    "+": lambda a, b: a + b,
    "-": lambda a, b: max(a - b, 0),
    "*": product,
    "/": quotient,
    "%": remainder,
    "^": power,
}

# What the file brings in by its `use` lines.
LIBRARY = {
    "bit_and": lambda a, b: a & b,
    "bit_or": lambda a, b: a | b,
    "bit_xor": lambda a, b: a ^ b,
    "eqb": lambda a, b: a == b,
    "ltb": lambda a, b: a < b,
    "leb": lambda a, b: a <= b,
    "cond": lambda test, a, b: a if test else b,
}

CONSTANTS = {"true": True, "false": False}


class Parser:
    """Expressions: operators, applications, names, numerals, parentheses."""

    def __init__(self, text):
        self.tokens = re.findall(r"[()]|[^\s()]+", text)
        self.at = 0

    def peek(self):
        return self.tokens[self.at] if self.at < len(self.tokens) else None

    def take(self):
        self.at += 1
        return self.tokens[self.at - 1]

    def atom(self):
        token = self.take()
        if token == "(":
            inside = self.expression(0)
            if self.take() != ")":
                raise ValueError("a parenthesis is not closed")
            return inside
        if token.isdigit():
            return ("number", int(token))
        return ("name", token)

    def application(self):
        head = self.atom()
        arguments = []
        while self.peek() not in (None, ")") and self.peek() not in OPERATORS:
            arguments.append(self.atom())
        return ("call", head[1], arguments) if arguments else head

    def expression(self, least):
        left = self.application()
        while self.peek() in OPERATORS and OPERATORS[self.peek()][0] >= least:
            operator = self.take()
            precedence, to_right = OPERATORS[operator]
            right = self.expression(precedence if to_right else precedence + 1)
            left = ("operator", operator, left, right)
        return left

    def whole(self):
        result = self.expression(0)
        if self.peek() is not None:
            raise ValueError(f"{self.peek()} is left over")
        return result


def items(text):
    """The declarations and clauses: a line at the margin, with the indented lines below it."""
    lines = [line for line in text.splitlines() if line and not line.startswith("--")]
    found = []
    for line in lines:
        if line.startswith(" "):
            found[-1] += line
        else:
            found.append(line)
    return [item for item in found if not item.startswith("use ")]


class Definitions:
    def __init__(self, text):
        self.clauses = {}
        for item in items(text):
            words = item.split()
            if words[0] in ("abbrev", "unfoldable"):
                self.clauses[words[2]] = []
            else:
                left, body = item.split(" = ", 1)
                name, *patterns = left.split()
                clause = Clause(tuple(patterns), Parser(body).whole())
                self.clauses[name].append(clause)

    def parameters(self, name):
        return self.clauses[name][0].patterns

    def call(self, name, arguments):
        if name in LIBRARY:
            return LIBRARY[name](*arguments)
        for clause in self.clauses[name]:
            values = matched(clause.patterns, arguments)
            if values is not None:
                return self.evaluate(clause.body, values)
        raise ValueError(f"no clause of {name} takes {arguments}")

    def evaluate(self, body, values):
        kind = body[0]
        if kind == "number":
            return body[1]
        if kind == "name":
            return values[body[1]] if body[1] in values else CONSTANTS[body[1]]
        if kind == "call":
            return self.call(body[1], [self.evaluate(part, values) for part in body[2]])
        left, right = self.evaluate(body[2], values), self.evaluate(body[3], values)
        return APPLY[body[1]](left, right)


def matched(patterns, arguments):
    """The values of the names in the patterns, or None where a constant differs."""
    if len(patterns) != len(arguments):
        raise ValueError(f"{patterns} does not take {arguments}")
    pairs = list(zip(patterns, arguments))
    if any(p in CONSTANTS and CONSTANTS[p] != a for p, a in pairs):
        return None
    return {p: a for p, a in pairs if p not in CONSTANTS}
