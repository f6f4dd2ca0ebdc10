"""Tape files of the system's random words."""
from __future__ import annotations

import os
import stat
import struct

MOST = 1 << 24
PIECE = 1 << 20
OWNER_ALONE = 0o600


def head(lengths: list[int]) -> bytes:
    return struct.pack(f"<{len(lengths)}Q", *lengths)


def write_tape(file, lengths: list[int]):
    """Writes the lengths and then so many random words to a binary file."""
    file.write(head(lengths))
    left = 8 * sum(lengths)
    while left:
        file.write(os.urandom(min(left, PIECE)))
        left -= min(left, PIECE)
    file.flush()


def write_dealer_tape(file, lengths: list[int]):
    """Writes four lengths and the dealer's random words; the miners' words are a hole, which reads as zeros."""
    file.write(head(lengths) + os.urandom(8 * lengths[0]))
    file.truncate(8 * (len(lengths) + sum(lengths)))


def open_private(path: str):
    """A new file that its owner alone may read; one that is there already stays, and this fails."""
    return os.fdopen(os.open(path, os.O_WRONLY | os.O_CREAT | os.O_EXCL, OWNER_ALONE), "wb")


def keep_private(descriptor: int) -> bool:
    """Takes the others' rights from an open file of one's own; false where it is no such file."""
    found = os.fstat(descriptor)
    if not stat.S_ISREG(found.st_mode) or found.st_uid != os.geteuid():
        return False
    os.fchmod(descriptor, OWNER_ALONE)
    return True
