"""Warnings of a program that is accepted: what means something else here than whoever writes it may think.

`^` is exclusive or and no power, and a number of the type uint64 has no sign: it is never below 0, and always at least 0.
"""
from __future__ import annotations

from dataclasses import dataclass

from .findings import Spot, spot_at
from .reading import lexer, parser, tree

NEVER, ALWAYS = "is never true", "is always true"
WITH_ZERO_ON_THE_RIGHT = {"<": NEVER, ">=": ALWAYS}
WITH_ZERO_ON_THE_LEFT = {">": NEVER, "<=": ALWAYS}
SIGNS = "numbers of the type uint64 have no sign; those of the type int64 have one, as `(int64) x`"


@dataclass(frozen=True)
class Doubt:
    """A place of a program, and what is said of it."""

    spot: Spot
    says: str

    def text(self) -> str:
        return "\n".join([f"{self.spot.path}, line {self.spot.line}: {self.says}", *self.spot.shown()])


def bare(node: tree.Node) -> tree.Node:
    """What stands within parentheses."""
    while isinstance(node, tree.Parentheses):
        node = node.inner
    return node


def is_decimal(node: tree.Node, text: bytes) -> bool:
    """Whether this is a number that isn't written with 0x, as masks of bits are."""
    return isinstance(node, tree.Number) and not text.startswith(b"0x", node.place)


def of_power(node: tree.Binary, text: bytes) -> str:
    """Of `^` before a number in decimal digits."""
    left, right = bare(node.left), bare(node.right)
    if node.operator != "^" or not is_decimal(right, text):
        return ""
    told = "`^` is exclusive or and no power"
    if not is_decimal(left, text):
        return f"{told}; products make powers, as x * x"
    return f"{told}: {left.value} ^ {right.value} is {left.value ^ right.value}" + (f", and the power {left.value**right.value}" if right.value <= 64 else "")


def of_sign(node: tree.Binary) -> str:
    """Of a comparison with 0 that has one result alone."""
    sides = ((node.right, WITH_ZERO_ON_THE_RIGHT), (node.left, WITH_ZERO_ON_THE_LEFT))
    for side, results in sides:
        zero = bare(side)
        if node.operator in results and isinstance(zero, tree.Number) and zero.value == 0:
            return f"this comparison {results[node.operator]}: {SIGNS}"
    return ""


def operators(program: tree.Program):
    """All operators between two operands, in the order of the text."""
    found, rest = [], [function.body for function in program.functions]
    while rest:
        node = rest.pop()
        rest.extend(node.children())
        if isinstance(node, tree.Binary):
            found.append(node)
    return sorted(found, key=lambda node: node.place)


def doubts_of(path: str, text: bytes) -> list[Doubt]:
    """The warnings of a program; none of one that is no program."""
    try:
        program = parser.parse(lexer.lex(text))
    except lexer.Refused:
        return []
    said = ((node, of_power(node, text) or of_sign(node)) for node in operators(program))
    return [Doubt(spot_at(path, text, node.place), says) for node, says in said if says]


def sentences(path: str) -> list[str]:
    """The warnings of a program file, each with its place."""
    try:
        with open(path, "rb") as file:
            return [doubt.text() for doubt in doubts_of(path, file.read())]
    except OSError:
        return []
