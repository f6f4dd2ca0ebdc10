"""Calls of `join` on texts of all kinds, of `upgrade` on code, and of `miner` and `trio` where they are refused before they need peers or children."""
from __future__ import annotations

import random
import struct
from collections.abc import Iterator

import faulty_files
from comparison import Folder
from faulty_files import changed_bytes
from good_calls import CODE, FIRST_CODE, GOOD_FILES, LENGTHS, TEXTS, WAITING

MINER, TRIO = WAITING
NAME = "n" * 64
LARGEST, OVER = (1 << 64) - 1, 1 << 64
ODD_LINES = (
    "", " ", "open", "open ", "open  1", " open 1", "open 1 ", "open 01", "open 0", f"open {LARGEST}", f"open {OVER}", "open true",
    "open True", "open true 1", "open -1", "open +1", "open 1.0", "opened 1", "Open 1", "open\t1", "open 1\r", "open \uff11", "publish",
    "publish ", "publish s", "publish s ", "publish  s", "publish s true", "publish a-b 1", f"publish {NAME} 1", f"publish {NAME}n 1",
    f"publish {OVER} 1", "publish open 1", "publish s t", "share", "share t", "share t uint64", "share t uint64 ", "share t uint64 5",
    "share t uint64 5 18", "share t uint64 5 18 1", "share t uint64 05 18", f"share t uint64 {LARGEST} 1", f"share t uint64 {OVER} 1",
    "share t bool 2 18", "share t bool true", "share t uint 5 18", "share t int64 5", "share t int64 5 18", "share t int64", "share t int64 -5",
    "share t int 5", "share t int32 5",
    "open -0", "open -01",
    f"open -{1 << 63}", f"open -{(1 << 63) + 1}", "open --1", "open -", "publish s -1", "share b", "share b bool", "share b bool ", "share b bool 1",
    "share b bool 1 1", "share b bool 1 3", "share b bool 1  1", "share b bool 1 1 1", "share b bool 01 1", "share b bool 2 1", "share b bool 63 1",
    "share b bool 64 1", f"share b bool 64 {LARGEST}", f"share b bool 64 {OVER}", "share b bool 64 1 1", "share b bool 65 1", "share b bool 65 1 1",
    f"share b bool 65 {LARGEST} {LARGEST}", "share b bool 128 1 1", "share b bool 129 1 1", "share b bool 0", "share b bool 0 ", "share b bool 0 0",
    "share b bool 00", f"share b bool {LARGEST}", f"share b bool {LARGEST} 1", f"share b bool {OVER}", f"share b bool {OVER} 1", "share b bool -1",
    "share b bool 1 true", f"share {NAME}n bool 1 1", f"share {NAME} bool 1 1", "share a-b bool 1 1", "share bool bool 1 1", "view 1",
    "in a 1", "drew 1", "got 12 1", "end", "end ", "end done", "end done cost", "end done cost 9",
    "end done cost 09", f"end done cost {LARGEST}", f"end done cost {OVER}", "end done  cost 9", "end budget cost 0",
    "end budget", "end trap Div line 3 cost 4", "end trap div line 3 cost 4", "end trap Depth line 4294967295 cost 4",
    "end trap Depth line 4294967296 cost 4", "end trap Large cost 4", "end trap Length line 0 cost 4", "end trap Sum line 3 cost 4",
    "end tape 0 need 2 have 1 cost 0", "end tape 3 need 2 have 1 cost 5", "end tape 4 need 2 have 1 cost 5",
    f"end tape 1 need {(1 << 128) - 1} have 1 cost 5", f"end tape 1 need {1 << 128} have 1 cost 5", f"end tape 1 need 2 have {OVER} cost 5",
    "end tape need 2 have 1 cost 5", "\u00e9", "open \x00", "# open 1",
)
TEXT_TOKENS = (
    b"\n", b" ", b"open 1\n", b"publish s ", b"share ", b"share t uint64 1 2\n", b"share c bool 64 1\n", b"bool", b"bool 65", b"uint64", b"int64", b"-1",
    b"end done cost 9\n",
    b"end trap Div line 3 cost 4\n", b"true", b"0", b"1", b"18446744073709551616", b"\r", b"\xff", b"\x00",
)
CODE_TOKENS = (
    b"\xff", b"\xff\xff", b"SC3P", b"\x17\x00\x00", b"\x00\x00", b"\x01a", *(bytes([tag]) for tag in range(0x1B)),
)
OWN = GOOD_FILES["first.t2"]


def with_line(text: bytes, place: int, line: str) -> bytes:
    """The text with another line at a place, or one more at its end."""
    lines = text.split(b"\n")
    lines[place : place + 1] = [line.encode()] if place + 1 < len(lines) else [line.encode(), b""]
    return b"\n".join(lines)


def odd_texts() -> Iterator[list[bytes]]:
    """An odd line in one text, or in all three; texts that end early or go on; and the good ones in another order."""
    count = TEXTS[0].count(b"\n")
    for line in ODD_LINES:
        for place in (0, 1, 4, count - 1, count):
            changed = [with_line(text, place, line) for text in TEXTS]
            yield changed
            for miner in range(3):
                yield [*TEXTS[:miner], changed[miner], *TEXTS[miner + 1 :]]
    for text in (b"", b"\n", b"end done cost 9", b"end done cost 9\n", b"open 1\n", TEXTS[0][:-1], TEXTS[0] * 2, TEXTS[0] + b"\n", TEXTS[0] + b"x"):
        yield [text] * 3
        for miner in range(3):
            yield [*TEXTS[:miner], text, *TEXTS[miner + 1 :]]
    for three in ((0, 0, 0), (1, 0, 2), (2, 1, 0)):
        yield [TEXTS[miner] for miner in three]


def random_texts(source: random.Random, count: int) -> Iterator[list[bytes]]:
    """The good texts with changes in one or several, alike or not."""
    for _ in range(count):
        texts = list(TEXTS)
        for _ in range(source.choice((1, 1, 2))):
            seed = source.random()
            for miner in source.choice(((0,), (1,), (2,), (0, 1, 2), (0, 1, 2))):
                texts[miner] = changed_bytes(texts[miner], random.Random(seed), TEXT_TOKENS)
        yield texts


def play_texts(texts: list[bytes], source: random.Random, folder: Folder):
    """Three texts, of which some may be one file, or not be there."""
    for miner, text in enumerate(texts, 1):
        folder.put(f"x{miner}", text)
    paths = ["x1", "x2", "x3"]
    if source.random() < 0.1:
        paths[source.randrange(3)] = source.choice((*paths, "gone", "folder"))
    folder.call("join", *paths)


def own_tapes() -> Iterator[bytes]:
    """A miner's own tape in wrong sizes and with wrong lengths."""
    words = OWN[8:]
    for size in (*range(0, 18), len(OWN) - 8, len(OWN) - 1, len(OWN), len(OWN) + 1, len(OWN) + 8):
        yield (OWN + bytes(64))[:size]
    for length in (0, 1, LENGTHS[2] - 1, LENGTHS[2] + 1, (1 << 24), (1 << 24) + 1, 1 << 32, LARGEST):
        yield struct.pack("<Q", length) + words
        yield struct.pack("<Q", length)


def random_codes(source: random.Random, count: int) -> Iterator[bytes]:
    """Code with bytes that were changed."""
    for _ in range(count):
        data = source.choice((CODE, FIRST_CODE))
        for _ in range(source.choice((1, 1, 1, 2))):
            data = changed_bytes(data, source, CODE_TOKENS)
        yield data


def odd_codes() -> Iterator[bytes]:
    """Code of both versions that ends at each byte, or in which one byte is another."""
    for code in (CODE, FIRST_CODE):
        for size in range(len(code)):
            yield code[:size]
            for byte in (0, 1, 2, 5, 7, 8, 0x15, 0x19, 255, code[size] ^ 1):
                yield code[:size] + bytes([byte]) + code[size + 1 :]
        yield code + b"\x00"
        yield code[:4] + b"\x03" + code[5:]


def play_code(data: bytes, _source: random.Random, folder: Folder):
    """Code; where it is good the call of a miner ends at a tape that isn't there. Either version is read by one command alone."""
    folder.put("x", data)
    folder.call("miner", "x", *MINER.having("tape", "gone").words()[2:])
    folder.call("upgrade", "x", "--code", "y")


def play_own_tape(data: bytes, source: random.Random, folder: Folder):
    """An own tape, of this miner or of another one's share file."""
    folder.put("x", data)
    folder.call_if_ended(*MINER.having("tape", "x").having("share", source.choice(("first.2", "first.2", "second.2", "first.1"))).words())


def play_share(data: bytes, source: random.Random, folder: Folder):
    """A share file; where it is good the call ends at a tape that isn't there."""
    folder.put("x", data)
    folder.call(*MINER.having("tape", "gone").having("share", "x").having("me", source.choice("1222")).words())


def play_trio_input(data: bytes, _source: random.Random, folder: Folder):
    folder.put("x", data)
    folder.call_if_ended(*TRIO.having("input", "x").words())


def play_trio_tape(data: bytes, _source: random.Random, folder: Folder):
    folder.put("x", data)
    folder.call_if_ended(*TRIO.having("tape", "x").words())


def changed_shares(source: random.Random, count: int) -> Iterator[bytes]:
    for _ in range(count):
        yield faulty_files.changed_entries(GOOD_FILES["first.2"], source)


RANDOM = {
    "random-texts": (random_texts, play_texts), "random-miner-codes": (random_codes, play_code), "random-miner-shares": (changed_shares, play_share),
}
DIRECTED = {
    "texts": (odd_texts, play_texts), "miner-codes": (odd_codes, play_code), "own-tapes": (own_tapes, play_own_tape),
    "trio-inputs": (lambda: faulty_files.entry_files(False), play_trio_input), "trio-tapes": (faulty_files.tape_files, play_trio_tape),
}
