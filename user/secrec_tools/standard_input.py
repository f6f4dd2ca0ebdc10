"""Standard input as a file: `-` and `/dev/stdin` among paths that are read.

What stands there is read once, to its end, and held in a file without a name, so it may be read several times, and by the program below, too, which takes `-`
for a path as any other.
"""
from __future__ import annotations

import os
import re
import shutil
import sys
import tempfile

NAMES = ("-", "/dev/stdin", "/dev/fd/0")
READ_OPTIONS = {"--input", "--second", "--tape", "--share", "--schedule", "--sim", "--public", "--opened"}
WRITTEN_BY_MAP = {"--sim", "--public", "--opened"}
_held: list = []


def held(path: str) -> str:
    """The path itself, or, where it means the standard input, one of what was read there."""
    if path not in NAMES:
        return path
    if not _held:
        file = tempfile.TemporaryFile()
        shutil.copyfileobj(sys.stdin.buffer, file)
        file.flush()
        _held.append(file)
    return f"/dev/fd/{_held[0].fileno()}"


def descriptors() -> tuple[int, ...]:
    """What a program must be given that reads such paths."""
    return tuple(file.fileno() for file in _held)


def inherited(words: list[str]) -> tuple[int, ...]:
    """The open files that paths among these words name by their numbers, `/dev/fd/N`, which whoever calls had opened: the program needs them, too."""
    found = {int(number) for word in words for number in re.findall(r"(?:^|=)/dev/fd/([0-9]{1,9})$", word)}
    return tuple(number for number in sorted(found) if os.path.exists(f"/dev/fd/{number}"))


def read_bytes(path: str, most: int = -1) -> bytes:
    """What a file has, or standard input, up to so many bytes."""
    with open(held(path), "rb") as file:
        return file.read(most)


def with_standard_input(words: list[str], commands) -> list[str]:
    """The words of a call of the program below, with a path of standard input in place of `-` where a file is read."""
    if not words or words[0] not in commands:
        return words
    reads = READ_OPTIONS - (WRITTEN_BY_MAP if words[0] == "map" else set())
    found, before = words[:1], ""
    for word in words[1:]:
        option, attached, value = word.partition("=")
        if attached and option in reads:
            found.append(f"{option}={held(value)}")
        elif before in reads or not before.startswith("--"):
            found.append(held(word))
        else:
            found.append(word)
        before = word if word.startswith("--") and not attached and not before.startswith("--") else ""
    return found
