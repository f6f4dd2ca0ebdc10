"""A case of a run, and words and inputs at random."""
from __future__ import annotations

import random
import string
from dataclasses import dataclass

from clear import Input, ValueType
from gates import MASK
from tree import Data

TRUTH = Data.TRUTH
EDGES = (0, 1, 2, 3, 63, 64, 65, 511, 512, 513, 1 << 31, 1 << 32, 1 << 63, (1 << 63) - 1, MASK, MASK - 1, 0x5555555555555555)


def random_word(source: random.Random) -> int:
    """A word: any, small, or at an edge."""
    choice = source.random()
    if choice < 0.55:
        return source.getrandbits(64)
    if choice < 0.75:
        return source.randrange(8)
    return source.choice(EDGES)


def random_words(source: random.Random, count: int) -> list[int]:
    """Many words, all of one manner or each of its own."""
    manner = source.random()
    if manner < 0.6 or count > 5000:
        return [source.getrandbits(64) for _ in range(count)]
    if manner < 0.7:
        return [0] * count
    if manner < 0.8:
        return [MASK] * count
    return [random_word(source) for _ in range(count)]


def random_input(source: random.Random, others: list[Input], size: int) -> Input:
    """An input of any type, an array with so many elements, under a name that no other has."""
    kind = ValueType(source.random() < 0.7, source.choice(tuple(Data)), source.random() < 0.5)
    letters = string.ascii_letters + string.digits + "_"
    length = 64 if source.random() < 0.02 else source.randint(1, 3)
    taken = {entry.name for entry in others}
    while (name := "".join(source.choice(letters) for _ in range(length))) in taken:
        pass
    count = size if kind.array else 1
    return Input(name, kind, tuple(source.getrandbits(1) if kind.data is TRUTH else random_word(source) for _ in range(count)))


@dataclass
class Case:
    """A program with its inputs, and a budget where it wants one of its own."""

    program: str
    inputs: list[Input]
    budget: int | None = None


def changed_word(source: random.Random, entry: Input) -> tuple[int, ...]:
    """Other words of a private input."""
    words = list(entry.words)
    places = range(len(words))
    choice = source.random()
    if entry.type.data.is_number and len(words) > 1 and choice < 0.4:
        first, second = source.sample(places, 2)
        step = random_word(source)
        words[first], words[second] = (words[first] + step) & MASK, (words[second] - step) & MASK
    elif len(words) > 1 and choice < 0.6:
        source.shuffle(words)
    else:
        for place in source.sample(places, source.randint(1, len(words))):
            words[place] = words[place] ^ 1 if entry.type.data is TRUTH else random_word(source)
    return tuple(words)
