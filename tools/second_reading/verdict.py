"""What is said of a program's bytes: the line of its refusal, or the tree and the count of its functions."""

from dataclasses import dataclass
from functools import lru_cache

from checker import check
from lexer import Refused, lex
from limits import limit_fault, reached
from parser import parse
from tree import Program


@dataclass(frozen=True, eq=False)
class Verdict:
    """The refusal of a text, or else its tree and how many functions its code has."""

    refusal: str | None
    program: Program | None = None
    functions: int = 0


def line_and_column(text: bytes, place: int) -> tuple[int, int]:
    """The line and the column of an offset, both from 1."""
    before = text[:place]
    return before.count(b"\n") + 1, place - (before.rfind(b"\n") + 1) + 1


def placed(sign: str, text: bytes, place: int) -> Verdict:
    line, column = line_and_column(text, place)
    return Verdict(f"{sign} line {line} column {column}")


@lru_cache(maxsize=4)
def judge(text: bytes) -> Verdict:
    """The verdict on a text: its tokens first, then its tree, its types, and its counts."""
    try:
        program = parse(lex(text))
    except Refused as refusal:
        return placed(refusal.sign, text, refusal.place)
    findings = check(program)
    if findings.refusals:
        place, number = min(findings.refusals)
        return placed(f"D{number}", text, place)
    fault = limit_fault(program, findings)
    if fault is not None:
        sign, count = fault
        return Verdict(f"{sign} {count}")
    return Verdict(None, program, len(reached(program, findings)))
