"""The language of result files: what a reader computes of published results. It is small, every step of it is bounded, and nothing of it is handed to Python.

One statement stands on each line, and a line that begins with `//` is a comment:

    groups region = north, south     the elements of a result are shown with these words
    check fits                       nothing is shown unless each of these truth values is true
    let wide = n * squares           a name for the lines below it, which isn't shown
    mean = total / n                 a result that is shown
    pay by region = total / n        the same, an element for each word of the group

Numbers are exact fractions. An expression has `+ - * / ^`, a minus sign, parentheses, `xs[0]`, names and the functions of FUNCTIONS. A name stands for all
that was published under it, in order; one element alone goes with each element of an array. What has no value (a division by 0, the root of a number below
0, and whatever is computed of such) is none.
"""
from __future__ import annotations

import re
from collections.abc import Callable
from dataclasses import dataclass
from decimal import Context
from difflib import get_close_matches
from fractions import Fraction
from math import ceil, erfc, exp, floor, isqrt, pi, sqrt

DEEPEST, MOST_BITS, MOST_LETTERS, MOST_ELEMENTS, MOST_DEGREES = 50, 1 << 13, 1 << 16, 1 << 20, 200
MOST_DECIMALS, LONGEST_NUMBER, MOST_EXPONENT = 100, 1000, 1000
SIGN_BIT, WORD_END = 1 << 63, 1 << 64
PIECE = re.compile(r"\s*(?:([0-9]+(?:\.[0-9]+)?)|([A-Za-z_][A-Za-z0-9_]*)|([-+*/^()\[\],]))")
STATEMENT = re.compile(r"(?:(let)\s+)?([A-Za-z_][A-Za-z0-9_]*)(?:\s+by\s+([A-Za-z_][A-Za-z0-9_]*))?\s*=(.*)")
GROUPS = re.compile(r"groups\s+([A-Za-z_][A-Za-z0-9_]*)\s*=(.*)")
CHECK = re.compile(r"check\s+([A-Za-z_][A-Za-z0-9_]*)")
PRECISE = Context(prec=60)

Element = Fraction | bool | None
Values = list[Element]


class FormulaErr(Exception):
    """A result file is refused, or doesn't fit what was published; the text says why."""


@dataclass(frozen=True)
class Result:
    """A result that is shown: its name, the words of its elements where it has groups, and the elements."""

    name: str
    groups: tuple[str, ...] | None
    values: tuple[Element, ...]


@dataclass(frozen=True)
class Function:
    """A function of expressions: how many arguments it takes, and whether it takes each element by itself, and those that are none, too."""

    arguments: int
    by_element: bool
    result: Callable
    takes_none: bool = False


# Functions of elements


def of_decimal(function: Callable, x: Fraction) -> Fraction:
    """What a function of decimals gives, to 60 digits."""
    return Fraction(function(PRECISE.divide(x.numerator, x.denominator), PRECISE))


def signed(x: Fraction) -> Fraction:
    """A word as a number with a sign: from 2^63 on it stands for 2^64 less."""
    if x.denominator != 1 or not 0 <= x < WORD_END:
        raise FormulaErr("`signed` takes a word, a whole number from 0 to 2^64 - 1; what is published of the type int64 has its sign")
    return x if x < SIGN_BIT else x - WORD_END


def root(x: Fraction) -> Element:
    """The square root, to at least 40 digits; exact where it is a fraction."""
    if x < 0:
        return None
    product = x.numerator * x.denominator
    whole = isqrt(product)
    if whole * whole == product:
        return Fraction(whole, x.denominator)
    scale = 10 ** max(0, 40 + len(str(x.denominator)) - len(str(whole)))
    return Fraction(isqrt(product * scale * scale), x.denominator * scale)


def exponential(x: Fraction) -> Fraction:
    if abs(x) > MOST_EXPONENT:
        raise FormulaErr(f"`exp` takes numbers from -{MOST_EXPONENT} to {MOST_EXPONENT}")
    return of_decimal(lambda one, context: one.exp(context), x)


def logarithm(x: Fraction) -> Element:
    return of_decimal(lambda one, context: one.ln(context), x) if x > 0 else None


def rounded(x: Fraction, digits: Fraction) -> Fraction:
    if digits.denominator != 1 or not 0 <= digits <= MOST_DECIMALS:
        raise FormulaErr(f"`round` takes 0 to {MOST_DECIMALS} decimals")
    return Fraction(round(x, int(digits)))


def chi_square_p(x: Fraction, degrees: Fraction) -> Element:
    """How likely chi-square with so many degrees of freedom is x or more. Each two degrees more add one term (Abramowitz and Stegun, 26.4.4 and 26.4.5)."""
    if degrees.denominator != 1 or not 1 <= degrees <= MOST_DEGREES:
        raise FormulaErr(f"`chi_square_p` takes 1 to {MOST_DEGREES} degrees of freedom")
    if x < 0:
        return None
    half = float(min(x, Fraction(10_000))) / 2
    if degrees % 2:
        tail = erfc(sqrt(half))
        term = 2 * sqrt(half) * exp(-half) / sqrt(pi)
        step = 1.5
    else:
        tail, term, step = exp(-half), half * exp(-half), 2.0
    for _ in range((int(degrees) - 1) // 2):
        tail, term, step = tail + term, term * half / step, step + 1
    return Fraction(tail)


def default(x: Element, otherwise: Element) -> Element:
    """The first, or the second where the first is none."""
    return otherwise if x is None else x


def total(values: Values) -> Values:
    return [None] if None in values else [sum(values, Fraction(0))]


FUNCTIONS = {
    "signed": Function(1, True, signed),
    "sqrt": Function(1, True, root),
    "abs": Function(1, True, abs),
    "exp": Function(1, True, exponential),
    "log": Function(1, True, logarithm),
    "floor": Function(1, True, lambda x: Fraction(floor(x))),
    "ceil": Function(1, True, lambda x: Fraction(ceil(x))),
    "round": Function(2, True, rounded),
    "chi_square_p": Function(2, True, chi_square_p),
    "default": Function(2, True, default, takes_none=True),
    "sum": Function(1, False, total),
    "count": Function(1, False, lambda values: [Fraction(len(values))]),
}


# Operators


def bits(x: Fraction) -> int:
    return x.numerator.bit_length() + x.denominator.bit_length()


def power(x: Fraction, y: Fraction) -> Element:
    if y.denominator != 1:
        raise FormulaErr("`^` takes a whole number on its right; `sqrt` gives roots")
    if abs(y) * bits(x) > MOST_BITS:
        raise FormulaErr(f"a power of over {MOST_BITS} bits")
    return None if x == 0 and y < 0 else x ** int(y)


def quotient(x: Fraction, y: Fraction) -> Element:
    return None if y == 0 else x / y


OPERATORS = {"+": lambda x, y: x + y, "-": lambda x, y: x - y, "*": lambda x, y: x * y, "/": quotient, "^": power}


def bounded(x: Element) -> Element:
    if x is not None and bits(x) > MOST_BITS:
        raise FormulaErr(f"a number of over {MOST_BITS} bits")
    return x


def numbers(values: Values) -> Values:
    """The same values, where none is a truth value."""
    if any(isinstance(one, bool) for one in values):
        raise FormulaErr("a truth value stands where a number is wanted")
    return values


def by_element(function: Callable, what: str, columns: list[Values], takes_none: bool = False) -> Values:
    """A function of the elements at each place; one element alone goes with all, and of none it gives none, unless it takes that."""
    sizes = {len(column) for column in columns} - {1}
    if len(sizes) > 1:
        raise FormulaErr(f"{what} of arrays of {' and '.join(map(str, sorted(sizes)))} elements")
    size = sizes.pop() if sizes else 1
    spread = [column * size if len(column) == 1 else column for column in map(numbers, columns)]
    return [None if None in elements and not takes_none else bounded(function(*elements)) for elements in zip(*spread)]


# Expressions


class Expression:
    """Computes an expression while it reads it, from left to right."""

    def __init__(self, text: str, known: dict[str, Values]):
        self.known, self.pieces, self.here, self.depth = known, pieces_of(text), 0, 0

    def value(self) -> Values:
        found = self.sums()
        if self.here < len(self.pieces):
            raise FormulaErr(f"`{self.pieces[self.here]}` stands after the end of the expression")
        return found

    def next(self) -> str:
        return self.pieces[self.here] if self.here < len(self.pieces) else ""

    def take(self, wanted: str = "") -> str:
        found = self.next()
        if not found or wanted and found != wanted:
            raise FormulaErr(f"{f'`{wanted}`' if wanted else 'an expression'} is missing" + (f" before `{found}`" if found else " at the end"))
        self.here += 1
        return found

    def chain(self, signs: str, part: Callable[[], Values]) -> Values:
        found = part()
        while self.next() and self.next() in signs:
            sign = self.take()
            found = by_element(OPERATORS[sign], f"`{sign}`", [found, part()])
        return found

    def sums(self) -> Values:
        self.depth += 1
        if self.depth > DEEPEST:
            raise FormulaErr(f"more than {DEEPEST} expressions stand inside one another")
        found = self.chain("+-", lambda: self.chain("*/", self.minus))
        self.depth -= 1
        return found

    def minus(self) -> Values:
        """A power, or what minus signs before it make of it."""
        below = False
        while self.next() == "-":
            self.take()
            below = not below
        found = self.powers()
        return by_element(lambda x: -x, "`-`", [found]) if below else found

    def powers(self) -> Values:
        """A base with at most one exponent, so that it is plain which comes first."""
        base = self.part()
        if self.next() != "^":
            return base
        self.take()
        sign = -1 if self.next() == "-" and self.take() else 1
        exponent = by_element(lambda x: sign * x, "`-`", [self.part()])
        if self.next() == "^":
            raise FormulaErr("a power of a power takes parentheses")
        return by_element(power, "`^`", [base, exponent])

    def part(self) -> Values:
        """A number, a name, a call or what stands in parentheses, perhaps with an index."""
        piece = self.take()
        if piece == "(":
            found = self.sums()
            self.take(")")
        elif piece[0].isdigit():
            found = [bounded(Fraction(piece))]
        elif self.next() == "(" and piece[0] not in "+-*/^)[],":
            found = self.called(piece)
        else:
            found = self.named(piece)
        while self.next() == "[":
            found = self.element(piece, found)
        return found

    def named(self, name: str) -> Values:
        if name in self.known:
            return self.known[name]
        if not (name[0].isalpha() or name[0] == "_"):
            raise FormulaErr(f"an expression is missing before `{name}`")
        near = get_close_matches(name, self.known, 1, 0.6)
        raise FormulaErr(f"nothing is published as `{name}`" + (f"; is `{near[0]}` meant?" if near else ""))

    def element(self, name: str, values: Values) -> Values:
        self.take("[")
        place = self.sums()
        self.take("]")
        if len(place) != 1 or isinstance(place[0], bool) or place[0] is None or place[0].denominator != 1:
            raise FormulaErr("an index is one whole number")
        if not 0 <= place[0] < len(values):
            raise FormulaErr(f"`{name}` has {len(values)} elements, from 0 on, and none at {place[0]}")
        return [values[int(place[0])]]

    def called(self, name: str) -> Values:
        function = FUNCTIONS.get(name)
        if function is None:
            raise FormulaErr(f"there is no function `{name}`; there are {', '.join(FUNCTIONS)}")
        self.take("(")
        arguments = [self.sums()]
        while self.next() == ",":
            self.take()
            arguments.append(self.sums())
        self.take(")")
        if len(arguments) != function.arguments:
            raise FormulaErr(f"`{name}` takes {function.arguments} arguments, and {len(arguments)} are given")
        if function.by_element:
            return by_element(function.result, f"`{name}`", arguments, function.takes_none)
        return [bounded(one) for one in function.result(arguments[0] if name == "count" else numbers(arguments[0]))]


def pieces_of(text: str) -> list[str]:
    """The numbers, names and signs of an expression."""
    found, here, end = [], 0, len(text.rstrip())
    while here < end:
        piece = PIECE.match(text, here)
        if piece is None:
            raise FormulaErr(f"`{text[here:].strip()[0]}` has no meaning in an expression")
        if text.startswith("//", piece.start(piece.lastindex)):
            raise FormulaErr("`//` stands within a line: a comment has a line of its own, and `floor(x / y)` divides without the rest")
        if piece.end() - piece.start(piece.lastindex) > LONGEST_NUMBER:
            raise FormulaErr(f"a name or a number of over {LONGEST_NUMBER} letters")
        found.append(piece[piece.lastindex])
        here = piece.end()
    return found


# Statements


class Reader:
    """Takes the statements of a result file one after another."""

    def __init__(self, published: dict[str, Values]):
        self.known, self.groups, self.results = dict(published), {}, []

    def line(self, text: str):
        group, check, statement = GROUPS.fullmatch(text), CHECK.fullmatch(text), STATEMENT.fullmatch(text)
        if group:
            self.groups[group[1]] = group_words(group[2])
        elif check:
            self.check(check[1])
        elif statement:
            self.statement(*statement.groups())
        else:
            raise FormulaErr("a line is `NAME = ..`, `NAME by GROUP = ..`, `let NAME = ..`, `check NAME` or `groups NAME = WORD, ..`")

    def check(self, name: str):
        values = Expression(name, self.known).value()
        if not all(isinstance(one, bool) for one in values):
            raise FormulaErr(f"`check` takes truth values, and `{name}` has numbers")
        if not all(values):
            raise FormulaErr(f"`{name}` is false, so the results would not be right, and none is shown")

    def statement(self, hidden: str | None, name: str, group: str | None, text: str):
        values = Expression(text, self.known).value()
        if group is not None and group not in self.groups:
            raise FormulaErr(f"no line above this one has `groups {group} = ..`")
        words = self.groups.get(group)
        if words is not None and len(words) != len(values):
            raise FormulaErr(f"`{name}` has {len(values)} elements, and {group} has {len(words)} words")
        if hidden and words is not None:
            raise FormulaErr("`by` stands where a result is shown, and `let` shows none")
        self.known[name] = values
        if not hidden:
            self.results.append(Result(name, words, tuple(values)))


def group_words(text: str) -> tuple[str, ...]:
    words = tuple(one.strip() for one in text.split(","))
    if not all(words) or len(set(words)) < len(words):
        raise FormulaErr("the words of a group are all different, with commas between, and none is empty")
    return words


def results_by(formulas: str, published: dict[str, Values]) -> list[Result]:
    """What the lines of a result file make of what was published."""
    if len(formulas) > MOST_LETTERS:
        raise FormulaErr(f"a result file has at most {MOST_LETTERS} letters")
    if sum(map(len, published.values())) > MOST_ELEMENTS:
        raise FormulaErr(f"more than {MOST_ELEMENTS} elements are published")
    reader = Reader(published)
    for number, line in enumerate(formulas.splitlines(), 1):
        text = line.strip()
        if text and not text.startswith("//"):
            try:
                reader.line(text)
            except FormulaErr as fault:
                raise FormulaErr(f"line {number}: {fault}") from None
    return reader.results
