"""Hellos and frames: what two miners send each other over a link, as bytes."""
from __future__ import annotations

import hashlib
import json
import struct
from dataclasses import dataclass, replace

HELLO_TAG, FRAME_TAG = 0, 1
VERSION = 2
HELLO_SIZE, HEADER_SIZE = 68, 5
MOST_WORDS = 2048
FIELDS = ("version", "sender", "receiver", "code", "public")


class BadFrame(Exception):
    """The first wrong place of a hello or of a frame's first bytes."""

    def __init__(self, place: int):
        super().__init__(place)
        self.place = place


@dataclass(frozen=True)
class Hello:
    """What a miner says of itself, of whom it takes its peer for, and of what the run is of."""

    sender: int
    receiver: int
    code: bytes
    public: bytes
    version: int = VERSION

    def data(self) -> bytes:
        return bytes([HELLO_TAG, self.version, self.sender, self.receiver]) + self.code + self.public

    def to(self, receiver: int) -> Hello:
        return replace(self, receiver=receiver)

    def answer(self) -> Hello:
        """What the receiver has to say."""
        return replace(self, sender=self.receiver, receiver=self.sender)

    def first_difference(self, other: Hello) -> str | None:
        return next((field for field in FIELDS if getattr(self, field) != getattr(other, field)), None)


def read_hello(data: bytes) -> Hello:
    if data[0] != HELLO_TAG:
        raise BadFrame(0)
    return Hello(data[2], data[3], data[4:36], data[36:68], data[1])


def frame(words: list[int]) -> bytes:
    return struct.pack(f"<BI{len(words)}Q", FRAME_TAG, len(words), *words)


def read_header(data: bytes) -> int:
    """How many words a frame has."""
    tag, count = struct.unpack("<BI", data)
    if tag != FRAME_TAG:
        raise BadFrame(0)
    if not 1 <= count <= MOST_WORDS:
        raise BadFrame(1)
    return count


def read_words(data: bytes) -> list[int]:
    return list(struct.unpack(f"<{len(data) // 8}Q", data))


def shape_text(share: bytes) -> bytes:
    """The public file's text of a share file: its entries without their shares."""
    entries = [{key: entry[key] for key in entry if key != "share"} for entry in json.loads(share)["inputs"]]
    return json.dumps({"inputs": entries}, separators=(",", ":"), sort_keys=True).encode()


def hello_of(code: bytes, share: bytes, budget: int, sender: int, receiver: int) -> Hello:
    """The hello of a miner with these files."""
    lengths = " ".join(map(str, json.loads(share)["lens"]))
    public = shape_text(share) + f"\nbudget {budget} lens {lengths}".encode()
    return Hello(sender, receiver, hashlib.sha256(code).digest(), hashlib.sha256(public).digest())
