"""Gates over numbered values, the plans made of them, and the words that they draw."""
from __future__ import annotations

from dataclasses import dataclass
from enum import Enum, auto

MODULUS = 1 << 64
MASK = MODULUS - 1
BLOCK = 512
WORD_BITS = 64


def words_for(count: int) -> int:
    """How many words hold so many truth values."""
    return -(-count // WORD_BITS)


def packed(truths) -> list[int]:
    """Truth values as words: value k is bit k mod 64 of word k div 64, and the last word's other bits are 0."""
    listed = list(truths)
    return [sum(1 << place for place, truth in enumerate(listed[begin : begin + WORD_BITS]) if truth & 1) for begin in range(0, len(listed), WORD_BITS)]


def unpacked(words: list[int], count: int) -> list[int]:
    """The first truth values that words hold."""
    return [words[place // WORD_BITS] >> place % WORD_BITS & 1 for place in range(count)]


class Ring(Enum):
    """The two rings: numbers modulo 2^64, and words under exclusive or."""

    ADDITIVE = auto()
    BITWISE = auto()

    def add(self, left: int, right: int) -> int:
        return (left + right) & MASK if self is Ring.ADDITIVE else left ^ right

    def subtract(self, left: int, right: int) -> int:
        return (left - right) & MASK if self is Ring.ADDITIVE else left ^ right

    def multiply(self, left: int, right: int) -> int:
        return (left * right) & MASK if self is Ring.ADDITIVE else left & right


class Kind(Enum):
    """What a gate does."""

    INPUT = auto()
    CONSTANT = auto()
    ADD = auto()
    SUBTRACT = auto()
    MULTIPLY_PUBLIC = auto()
    MULTIPLY = auto()
    XOR = auto()
    NOT = auto()
    SHIFT_LEFT = auto()
    SHIFT_RIGHT = auto()
    LOW = auto()
    CAT = auto()
    PART = auto()
    PUT = auto()
    REPEAT = auto()
    SUM = auto()
    STRETCH = auto()
    TILE = auto()
    SUM_EACH = auto()
    PACK = auto()
    UNPACK = auto()
    REPEAT_BIT = auto()
    PART_BIT = auto()
    PUT_BIT = auto()
    CAT_BIT = auto()
    SPLIT = auto()
    CONVERT = auto()
    OPEN = auto()
    RESULT = auto()


INTERACTIVE = {Kind.MULTIPLY, Kind.SPLIT, Kind.CONVERT, Kind.OPEN, Kind.RESULT}
DRAWN = {
    Kind.MULTIPLY: (3, 3, 3),
    Kind.SPLIT: (1, 0, 0),
    Kind.CONVERT: (4, 1, 1),
    Kind.OPEN: (1, 1, 1),
    Kind.RESULT: (1, 1, 1),
}


@dataclass(frozen=True)
class Gate:
    """One gate: its operands' numbers, the number of its first result, its words, and what else it has."""

    kind: Kind
    operands: tuple[int, ...]
    result: int
    size: int
    ring: Ring | None = None
    extra: tuple[int, ...] = ()

    def drawn(self) -> tuple[int, int, int]:
        """The words that each miner draws for it."""
        per_word = DRAWN.get(self.kind, (0, 0, 0))
        return tuple(self.size * count for count in per_word)


class GateList:
    """Gates in order of making, with how many words each value has."""

    def __init__(self):
        self.gates: list[Gate] = []
        self.sizes: list[int] = []

    def make(self, kind: Kind, operands: tuple[int, ...], size: int, ring: Ring | None = None, extra=()) -> int:
        result = len(self.sizes)
        self.gates.append(Gate(kind, operands, result, size, ring, tuple(extra)))
        self.sizes.append(size)
        return result

    def split(self, operand: int, negated: bool) -> tuple[int, int]:
        size = self.sizes[operand]
        first = self.make(Kind.SPLIT, (operand,), size, None, (int(negated),))
        self.sizes.append(size)
        return first, first + 1

    def one(self, kind: Kind, operand: int, extra=()) -> int:
        return self.make(kind, (operand,), self.sizes[operand], None, extra)

    def two(self, kind: Kind, left: int, right: int, ring: Ring | None = None) -> int:
        return self.make(kind, (left, right), self.sizes[left], ring)

    def conjunction(self, left: int, right: int) -> int:
        return self.two(Kind.MULTIPLY, left, right, Ring.BITWISE)

    def cat(self, left: int, right: int) -> int:
        return self.make(Kind.CAT, (left, right), self.sizes[left] + self.sizes[right])

    def part(self, operand: int, start: int, count: int) -> int:
        return self.make(Kind.PART, (operand,), count, None, (start,))

    def pack(self, operand: int) -> int:
        """The lowest bits of all words, as packed truth values."""
        return self.make(Kind.PACK, (operand,), words_for(self.sizes[operand]))

    def unpack(self, operand: int, count: int) -> int:
        """So many packed truth values, each as a word."""
        return self.make(Kind.UNPACK, (operand,), count)

    def repeat_bit(self, operand: int, count: int) -> int:
        """A truth value so many times."""
        return self.make(Kind.REPEAT_BIT, (operand,), words_for(count), None, (count,))

    def part_bit(self, operand: int, index: int) -> int:
        """One of the packed truth values."""
        return self.make(Kind.PART_BIT, (operand,), 1, None, (index,))

    def put_bit(self, operand: int, index: int, value: int) -> int:
        """Packed truth values with another one at an index."""
        return self.make(Kind.PUT_BIT, (operand, value), self.sizes[operand], None, (index,))

    def cat_bit(self, left: int, count: int, right: int, other: int) -> int:
        """So many packed truth values, and so many others after them."""
        return self.make(Kind.CAT_BIT, (left, right), words_for(count + other), None, (count, other))

    def flip(self, operand: int, count: int) -> int:
        """Turns so many packed truth values round."""
        ones = packed([1] * count)
        return self.two(Kind.XOR, operand, self.make(Kind.CONSTANT, (), len(ones), None, ones))

    def equal_to_zero(self, operand: int) -> int:
        """1 exactly where the number is 0, in a word for each."""
        left, right = self.split(operand, True)
        passing = self.one(Kind.NOT, self.two(Kind.XOR, left, right))
        for shift in (32, 16, 8, 4, 2, 1):
            passing = self.conjunction(passing, self.one(Kind.SHIFT_RIGHT, passing, (shift,)))
        return self.one(Kind.LOW, passing)

    def bits(self, operand: int) -> int:
        """The number as a word of the bitwise ring."""
        size = self.sizes[operand]
        left, right = self.split(operand, False)
        made = self.conjunction(left, right)
        half = self.two(Kind.XOR, left, right)
        passing = half
        for shift in (1, 2, 4, 8, 16, 32):
            first = self.cat(passing, passing)
            second = self.cat(self.one(Kind.SHIFT_LEFT, made, (shift,)), self.one(Kind.SHIFT_LEFT, passing, (shift,)))
            both = self.conjunction(first, second)
            made = self.two(Kind.XOR, made, self.part(both, 0, size))
            passing = self.part(both, size, size)
        return self.two(Kind.XOR, half, self.one(Kind.SHIFT_LEFT, made, (1,)))

    def less(self, left: int, right: int) -> int:
        """1 exactly where left is below right, in a word for each."""
        size = self.sizes[left]
        words = self.bits(self.cat(left, right))
        first, second = self.part(words, 0, size), self.part(words, size, size)
        below = self.conjunction(second, self.one(Kind.NOT, first))
        same = self.one(Kind.NOT, self.two(Kind.XOR, first, second))
        for shift in (1, 2, 4, 8, 16, 32):
            same_shifted = self.one(Kind.SHIFT_RIGHT, same, (shift,))
            below_shifted = self.one(Kind.SHIFT_RIGHT, below, (shift,))
            both = self.conjunction(self.cat(same_shifted, same_shifted), self.cat(below, same))
            below = self.two(Kind.XOR, below_shifted, self.part(both, 0, size))
            same = self.part(both, size, size)
        return self.one(Kind.LOW, below)

    def less_signed(self, left: int, right: int) -> int:
        """Likewise of numbers with a sign, by their words with half of all words added."""
        size = self.sizes[left]
        halves = self.make(Kind.CONSTANT, (), size, None, [1 << 63] * size)
        return self.less(self.two(Kind.ADD, left, halves), self.two(Kind.ADD, right, halves))

    def looked_up(self, array: int, index: int) -> int:
        """The array's elements at places, 0 where it has none there."""
        count, wanted = self.sizes[array], self.sizes[index]
        size = count * wanted
        stretched = self.make(Kind.STRETCH, (index,), size, None, (count,))
        places = self.make(Kind.CONSTANT, (), size, None, list(range(count)) * wanted)
        there = self.one(Kind.CONVERT, self.equal_to_zero(self.two(Kind.SUBTRACT, stretched, places)))
        tiled = self.make(Kind.TILE, (array,), size, None, (wanted,))
        product = self.two(Kind.MULTIPLY, tiled, there, Ring.ADDITIVE)
        return self.make(Kind.SUM_EACH, (product,), wanted, None, (count,))


def local_share(gate: Gate, operands: list[list[int]], miner: int) -> list[int]:
    """What a gate that sends nothing makes of one miner's shares."""
    kind, extra = gate.kind, gate.extra
    first = operands[0] if operands else []
    if kind is Kind.CONSTANT:
        return list(extra) if miner == 1 else [0] * gate.size
    if kind is Kind.ADD:
        return [(u + v) & MASK for u, v in zip(first, operands[1])]
    if kind is Kind.SUBTRACT:
        return [(u - v) & MASK for u, v in zip(first, operands[1])]
    if kind is Kind.MULTIPLY_PUBLIC:
        return [gate.ring.multiply(u, v) for u, v in zip(first, extra)]
    if kind is Kind.XOR:
        return [u ^ v for u, v in zip(first, operands[1])]
    if kind is Kind.NOT:
        return [u ^ MASK for u in first] if miner == 1 else list(first)
    if kind is Kind.SHIFT_LEFT:
        return [(u << extra[0]) & MASK for u in first]
    if kind is Kind.SHIFT_RIGHT:
        return [u >> extra[0] for u in first]
    if kind is Kind.LOW:
        return [u & 1 for u in first]
    if kind is Kind.CAT:
        return first + operands[1]
    if kind is Kind.PART:
        return first[extra[0] : extra[0] + gate.size]
    if kind is Kind.PUT:
        return first[: extra[0]] + operands[1] + first[extra[0] + 1 :]
    if kind is Kind.REPEAT:
        return first * gate.size
    if kind is Kind.SUM:
        return [sum(first) & MASK]
    if kind is Kind.STRETCH:
        return [word for word in first for _ in range(extra[0])]
    if kind is Kind.TILE:
        return first * extra[0]
    if kind is Kind.SUM_EACH:
        return [sum(first[part * extra[0] : (part + 1) * extra[0]]) & MASK for part in range(gate.size)]
    return bit_share(gate, operands)


def bit_share(gate: Gate, operands: list[list[int]]) -> list[int]:
    """Likewise of gates on packed truth values, whose miners all do the same; a share may have other bits set after its last truth value."""
    kind, extra, first = gate.kind, gate.extra, operands[0]
    if kind is Kind.PACK:
        return packed(first)
    if kind is Kind.UNPACK:
        return unpacked(first, gate.size)
    if kind is Kind.REPEAT_BIT:
        return packed([first[0]] * extra[0])
    if kind is Kind.PART_BIT:
        return [first[extra[0] // WORD_BITS] >> extra[0] % WORD_BITS & 1]
    if kind is Kind.PUT_BIT:
        word, place = divmod(extra[0], WORD_BITS)
        made = list(first)
        made[word] = made[word] & ~(1 << place) | (operands[1][0] & 1) << place
        return made
    if kind is Kind.CAT_BIT:
        return packed(unpacked(first, extra[0]) + unpacked(operands[1], extra[1]))
    raise ValueError(kind)


def blocks_of(size: int) -> list[tuple[int, int]]:
    """The consecutive blocks of a gate: begin and end."""
    return [(begin, min(begin + BLOCK, size)) for begin in range(0, size, BLOCK)]
