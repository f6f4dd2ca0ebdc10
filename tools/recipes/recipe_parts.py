"""What a case of a recipe is made of: entries of an input file, and what must be published of them."""
from __future__ import annotations

import random
from collections.abc import Callable
from dataclasses import dataclass, replace

WORDS = 1 << 64
Value = int | bool | list[int] | list[bool]
Told = list[tuple[str, Value]]


@dataclass(frozen=True)
class Entry:
    """One entry of an input file."""

    name: str
    private: bool
    value: Value
    has_sign: bool = False

    def as_json(self) -> dict[str, object]:
        first = self.value[0] if isinstance(self.value, list) and self.value else self.value
        kind = "bool" if isinstance(first, bool) else "int64" if self.has_sign else "uint64"
        return {"name": self.name, "domain": "private" if self.private else "public", "type": kind, "value": self.value}


class Given:
    """The inputs of a case, by name."""

    def __init__(self, entries: list[Entry]):
        self.entries = entries
        for entry in entries:
            setattr(self, entry.name, entry.value)


def private(name: str, value: Value) -> Entry:
    return Entry(name, True, value)


def public(name: str, value: Value) -> Entry:
    return Entry(name, False, value)


def with_sign(entry: Entry) -> Entry:
    """The same as numbers with a sign."""
    return replace(entry, has_sign=True)


def pay(chance: random.Random, n: int) -> Entry:
    """With some that are equal."""
    return private("pay", [chance.randrange(900, 900 + 3 * n + 5) for _ in range(n)])


@dataclass(frozen=True)
class Recipe:
    """Made inputs for n people, and what is published of them."""

    inputs: Callable[[random.Random, int], list[Entry]]
    told: Callable[[Given], Told]


def region_inputs(chance: random.Random, n: int) -> list[Entry]:
    return [private("region", [chance.randrange(4) for _ in range(n - 1)] + [2]), pay(chance, n)]
