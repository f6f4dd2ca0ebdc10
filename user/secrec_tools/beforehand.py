"""What is read before anything is run: a program that is accepted, and its inputs or their shapes, by the second reading."""
from __future__ import annotations

from .reading import entries, verdict
from .standard_input import read_bytes

STATUS_OF_PROGRAM, STATUS_OF_INPUT = 3, 4


class Refused(Exception):
    """A program or an input file is refused: the line that tells it, words of a call that would be told so, and the status of the program below."""

    def __init__(self, line: str, words: list[str], status: int):
        super().__init__(line)
        self.line, self.words, self.status = f"error: {line}", words, status


def accepted(path: str) -> bytes:
    """The text of a program that is accepted."""
    text = read_bytes(path)
    refusal = verdict.judge(text).refusal
    if refusal is not None:
        raise Refused(refusal, ["check", path], STATUS_OF_PROGRAM)
    return text


def inputs_of(path: str) -> list:
    """The entries of an input file."""
    found = entries.entries_or_fault(read_bytes(path), False)
    if isinstance(found, str):
        raise Refused(found, ["eval", "--input", path], STATUS_OF_INPUT)
    return list(found)


def shapes_of(path: str) -> tuple[list, bool]:
    """The entries of an input file, or of a public file, whose private entries have shapes and here zeros; and whether it is a public file."""
    found = entries.entries_or_fault(read_bytes(path), True)
    if isinstance(found, str):
        return inputs_of(path), False
    return list(found), any(entry.type.private for entry in found)
