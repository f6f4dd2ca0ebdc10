"""Input files and public files: their entries, or the first fault."""
from __future__ import annotations

import re
from functools import lru_cache

from clear import Input, ValueType
from gates import MASK
from json_text import Below, NoJson, json_value
from refusals import CallRefused
from tree import Data

ELEMENT_LIMIT = 65_536
NAME_FORM = re.compile(r"[A-Za-z0-9_]{1,64}")


class EntryFault(Exception):
    """The first fault of an entry, as it is told."""


def is_of(value, data: Data) -> bool:
    """Whether a scalar of a file is a word, a number with a sign, or a truth value."""
    if data is Data.SIGNED:
        return type(value) is Below or type(value) is int and value < 1 << 63
    return type(value) is (int if data is Data.NUMBER else bool)


class EntryReader:
    """Reads one entry; its fields are tested in the order in which they are asked for here."""

    def __init__(self, entry, number: int):
        self.fields, self.number = entry if isinstance(entry, dict) else {}, number

    def bad(self, field: str) -> EntryFault:
        return EntryFault(f"I2 entry {self.number} {field}")

    def name(self, taken: set[str]) -> str:
        name = self.fields.get("name")
        if not isinstance(name, str) or not NAME_FORM.fullmatch(name) or name in taken:
            raise self.bad("name")
        return name

    def one_of(self, field: str, words: tuple[str, ...]) -> str:
        word = self.fields.get(field)
        if not isinstance(word, str) or word not in words:
            raise self.bad(field)
        return word

    def value(self, data: Data) -> tuple[bool, tuple[int, ...]]:
        """Whether it is an array, and its words."""
        value = self.fields.get("value")
        array = isinstance(value, list)
        scalars = value if array else [value]
        if not all(is_of(one, data) for one in scalars):
            raise self.bad("value")
        self.count(len(scalars))
        return array, tuple(int(one) & MASK for one in scalars)

    def shape(self) -> tuple[bool, tuple[int, ...]]:
        """Likewise of a private entry of a public file; the words are zeros."""
        shape = self.fields.get("shape")
        if shape == "scalar" and isinstance(shape, str):
            return False, (0,)
        if type(shape) is not int:
            raise self.bad("shape")
        self.count(shape)
        return True, (0,) * shape

    def count(self, elements: int):
        if elements > ELEMENT_LIMIT:
            raise EntryFault(f"I3 entry {self.number}")

    def read(self, taken: set[str], has_shapes: bool) -> Input:
        name = self.name(taken)
        private = self.one_of("domain", ("public", "private")) == "private"
        data = Data(self.one_of("type", ("uint64", "int64", "bool")))
        array, words = self.shape() if private and has_shapes else self.value(data)
        return Input(name, ValueType(private, data, array), words)


@lru_cache(maxsize=4)
def entries_or_fault(data: bytes, has_shapes: bool) -> tuple[Input, ...] | str:
    """The entries of a file, or the line of its first fault."""
    try:
        whole = json_value(data)
        entries = whole.get("inputs") if isinstance(whole, dict) else None
        if not isinstance(entries, list):
            return "I2 inputs"
        found: list[Input] = []
        taken: set[str] = set()
        for number, entry in enumerate(entries):
            found.append(EntryReader(entry, number).read(taken, has_shapes))
            taken.add(found[-1].name)
        return tuple(found)
    except NoJson:
        return "I1"
    except EntryFault as fault:
        return str(fault)


def read_entries(data: bytes, has_shapes: bool) -> list[Input]:
    found = entries_or_fault(data, has_shapes)
    if isinstance(found, str):
        raise CallRefused(found, 4)
    return list(found)


def read_inputs(data: bytes) -> list[Input]:
    """The entries of an input file."""
    return read_entries(data, False)


def read_public(data: bytes) -> list[Input]:
    """The entries of a public file; private words are zeros."""
    return read_entries(data, True)
