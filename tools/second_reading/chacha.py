"""ChaCha20 as a stream of words: a 64-bit counter and a 64-bit stream number."""
from __future__ import annotations

import struct
from collections.abc import Iterator
from itertools import islice

CONSTANTS = struct.unpack("<4I", b"expand 32-byte k")
QUARTERS = ((0, 4, 8, 12), (1, 5, 9, 13), (2, 6, 10, 14), (3, 7, 11, 15),
            (0, 5, 10, 15), (1, 6, 11, 12), (2, 7, 8, 13), (3, 4, 9, 14))
WORD = 0xFFFFFFFF


def rotated(word: int, count: int) -> int:
    return ((word << count) | (word >> (32 - count))) & WORD


def block(state: list[int]) -> list[int]:
    """One block of sixteen words."""
    x = list(state)
    for _ in range(10):
        for a, b, c, d in QUARTERS:
            x[a] = (x[a] + x[b]) & WORD
            x[d] = rotated(x[d] ^ x[a], 16)
            x[c] = (x[c] + x[d]) & WORD
            x[b] = rotated(x[b] ^ x[c], 12)
            x[a] = (x[a] + x[b]) & WORD
            x[d] = rotated(x[d] ^ x[a], 8)
            x[c] = (x[c] + x[d]) & WORD
            x[b] = rotated(x[b] ^ x[c], 7)
    return [(u + v) & WORD for u, v in zip(x, state)]


def key_stream(seed: bytes, stream: int) -> Iterator[int]:
    """The stream's 32-bit words."""
    key = struct.unpack("<8I", seed)
    counter = 0
    while True:
        place = (counter & WORD, counter >> 32, stream & WORD, stream >> 32)
        yield from block([*CONSTANTS, *key, *place])
        counter += 1


def tape_words(seed: bytes, party: int, count: int) -> list[int]:
    """The first words of a party's tape."""
    words = key_stream(seed, party)
    halves = list(islice(words, 2 * count))
    return [halves[2 * place] | halves[2 * place + 1] << 32 for place in range(count)]
