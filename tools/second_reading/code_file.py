"""Code files: the code that the bytes say, the bytes of code, and the first fault of either."""
from __future__ import annotations

import re
import struct
from dataclasses import dataclass, field
from enum import IntEnum

PRIVATE, TRUTH, ARRAY, SIGNED = 1, 2, 4, 8
NOTHING = 255
NO_RESULT = 65535
SIGNATURE = b"SC3P"
OPERATORS = tuple("+ - * / % == != < <= > >= & | ^".split())
COMPARISONS = tuple("== != < <= > >=".split())
NAME_FORM = re.compile(rb"[A-Za-z0-9_]{1,64}")


@dataclass(frozen=True)
class Rules:
    """What changed between versions: the fifth byte; whether a call says how many arguments it has, else they are as many as its function's parameters;
    and whether there are numbers with a sign and look-ups."""

    version: int
    counts_arguments: bool
    is_wide: bool

    def is_kind(self, kind: int) -> bool:
        return kind < 8 or self.is_wide and kind < 16 and not kind & TRUTH

    def is_tag(self, tag: int) -> bool:
        return tag in LAYOUTS and (self.is_wide or tag != Tag.LOOKUP)


FIRST, SECOND = Rules(1, False, False), Rules(2, True, True)


class Tag(IntEnum):
    """What an instruction does."""

    LITERAL = 0x01
    MOVE = 0x02
    STORE = 0x03
    BINARY = 0x04
    NOT = 0x05
    CAST = 0x06
    CLASSIFY = 0x07
    FILL = 0x08
    AT = 0x09
    PUT = 0x0A
    SIZE = 0x0B
    CAT = 0x0C
    SUM = 0x0D
    BITS = 0x0E
    DECLASSIFY = 0x0F
    ARGUMENT = 0x10
    PUBLISH = 0x11
    ASSERT = 0x12
    BRANCH = 0x13
    JUMP = 0x14
    CALL = 0x16
    RETURN = 0x17
    RETURN_NONE = 0x18
    LOOKUP = 0x19


# Each letter is an operand: r a register, n a name, f a function, t a target, o an operator, v the value of a branch, l a line, w a word;
# the arguments of a call stand where its `a` does, and before them their number, where that is said.
LAYOUTS = {
    Tag.LITERAL: "rw", Tag.MOVE: "rr", Tag.STORE: "rr", Tag.BINARY: "orrrl", Tag.NOT: "rr", Tag.CAST: "rr", Tag.CLASSIFY: "rr",
    Tag.FILL: "rrrl", Tag.AT: "rrrl", Tag.PUT: "rrrl", Tag.SIZE: "rr", Tag.CAT: "rrrl", Tag.SUM: "rr", Tag.BITS: "rrl",
    Tag.DECLASSIFY: "rr", Tag.ARGUMENT: "rnl", Tag.PUBLISH: "nr", Tag.ASSERT: "rl", Tag.BRANCH: "rvt", Tag.JUMP: "t", Tag.CALL: "fral",
    Tag.RETURN: "r", Tag.RETURN_NONE: "", Tag.LOOKUP: "rrrl",
}
WIDTHS = {"r": 2, "n": 2, "f": 2, "t": 2, "o": 1, "v": 1, "l": 4, "w": 8}
BOUNDS = {"o": len(OPERATORS) - 1, "v": 1}


class CodeFault(Exception):
    """A fault of code, as it is told."""


@dataclass(frozen=True)
class Instruction:
    """A tag and the operands in the order of their bytes."""

    tag: Tag
    operands: tuple[int, ...]


@dataclass
class Function:
    """A function of code."""

    parameters: int
    result: int
    kinds: tuple[int, ...]
    instructions: list[Instruction] = field(default_factory=list)


@dataclass
class Code:
    """Names and functions."""

    names: list[str]
    functions: list[Function]


class ByteReader:
    """Reads numbers, the lowest byte first."""

    def __init__(self, data: bytes, rules: Rules):
        self.data, self.rules, self.place = data, rules, 0

    def take(self, count: int) -> bytes:
        if self.place + count > len(self.data):
            raise CodeFault(f"B1 place {len(self.data)}")
        self.place += count
        return self.data[self.place - count : self.place]

    def number(self, count: int) -> int:
        return int.from_bytes(self.take(count), "little")

    def bounded(self, count: int, good) -> int:
        """A number that must be so; its first byte is the place of the fault."""
        value = self.number(count)
        if not good(value):
            raise CodeFault(f"B2 place {self.place - count}")
        return value

    def header(self):
        for place in range(len(SIGNATURE)):
            self.bounded(1, lambda byte: byte == SIGNATURE[place])
        if self.number(1) != self.rules.version:
            raise CodeFault(f"B3 place {self.place - 1}")

    def names(self) -> list[str]:
        found: list[str] = []
        for _ in range(self.number(2)):
            place = self.place
            name = self.take(self.bounded(1, lambda size: 1 <= size <= 64))
            if not NAME_FORM.fullmatch(name) or name.decode("latin-1") in found:
                raise CodeFault(f"B2 place {place}")
            found.append(name.decode("latin-1"))
        return found

    def head(self) -> tuple[Function, int]:
        """A function without its instructions, and how many they are."""
        parameters = self.number(2)
        result = self.bounded(1, lambda kind: self.rules.is_kind(kind) or kind == NOTHING)
        kinds = tuple(self.bounded(1, self.rules.is_kind) for _ in range(self.number(2)))
        return Function(parameters, result, kinds), self.number(2)

    def instruction(self, functions: list[Function]) -> Instruction:
        tag = Tag(self.bounded(1, self.rules.is_tag))
        operands: list[int] = []
        for letter in LAYOUTS[tag]:
            if letter == "a":
                operands += [self.number(2) for _ in range(self.arguments(operands[0], functions))]
            else:
                operands.append(self.bounded(WIDTHS[letter], lambda value: value <= BOUNDS.get(letter, value)))
        return Instruction(tag, tuple(operands))

    def arguments(self, called: int, functions: list[Function]) -> int:
        """How many arguments a call has; by the first rules one of a function that isn't there has none."""
        if self.rules.counts_arguments:
            return self.number(2)
        return functions[called].parameters if called < len(functions) else 0


def decode(data: bytes, rules: Rules = SECOND) -> Code:
    """The code that the bytes say."""
    reader = ByteReader(data, rules)
    reader.header()
    names = reader.names()
    heads = [reader.head() for _ in range(reader.bounded(2, lambda count: count > 0))]
    functions = [function for function, _ in heads]
    for function, count in heads:
        function.instructions = [reader.instruction(functions) for _ in range(count)]
    if reader.place != len(data):
        raise CodeFault(f"B4 place {reader.place}")
    return Code(names, functions)


def encode(code: Code, rules: Rules = SECOND) -> bytes:
    """The bytes of code."""
    parts = [SIGNATURE, bytes([rules.version]), struct.pack("<H", len(code.names))]
    parts += [bytes([len(name)]) + name.encode() for name in code.names]
    parts.append(struct.pack("<H", len(code.functions)))
    for function in code.functions:
        parts.append(struct.pack("<HBH", function.parameters, function.result, len(function.kinds)) + bytes(function.kinds))
        parts.append(struct.pack("<H", len(function.instructions)))
    for function in code.functions:
        parts += [bytes([instruction.tag]) + operand_bytes(instruction, rules) for instruction in function.instructions]
    return b"".join(parts)


def layout_of(instruction: Instruction) -> str:
    """The layout of an instruction, with an `r` for each argument of a call."""
    return LAYOUTS[instruction.tag].replace("a", "r" * (len(instruction.operands) - 3))


def operand_bytes(instruction: Instruction, rules: Rules) -> bytes:
    """The operands as bytes."""
    parts = [value.to_bytes(WIDTHS[letter], "little") for letter, value in zip(layout_of(instruction), instruction.operands)]
    if instruction.tag is Tag.CALL and rules.counts_arguments:
        parts.insert(2, struct.pack("<H", len(instruction.operands) - 3))
    return b"".join(parts)


def registers_of(instruction: Instruction) -> list[int]:
    """The registers that an instruction names, in the order of its bytes."""
    layout = layout_of(instruction)
    named = [value for letter, value in zip(layout, instruction.operands) if letter == "r"]
    return named[1:] if instruction.tag is Tag.CALL and named[0] == NO_RESULT else named


class Verifier:
    """The rules that code must keep."""

    def __init__(self, code: Code):
        self.code = code

    def fault(self) -> str | None:
        """The first fault: by functions, then instructions, then its number."""
        if not self.code.functions:
            return "B5 function 0 instruction 0"
        for number, function in enumerate(self.code.functions):
            for place in range(max(len(function.instructions), 1)):
                sign = self.first_sign(number, function, place)
                if sign:
                    return f"{sign} function {number} instruction {place}"
        return None

    def first_sign(self, number: int, function: Function, place: int) -> str | None:
        if not function.instructions:
            return "B6" if place == 0 and self.head_is_wrong(number, function) else "B7"
        instruction = function.instructions[place]
        if not self.is_there(function, instruction):
            return "B5"
        if place == 0 and self.head_is_wrong(number, function) or not self.fits(function, instruction):
            return "B6"
        last = place + 1 == len(function.instructions)
        if last and instruction.tag not in (Tag.RETURN, Tag.RETURN_NONE) or not self.goes_well(function, instruction, place):
            return "B7"
        return None

    @staticmethod
    def head_is_wrong(number: int, function: Function) -> bool:
        return function.parameters > len(function.kinds) or number == 0 and (function.parameters > 0 or function.result != NOTHING)

    def is_there(self, function: Function, instruction: Instruction) -> bool:
        layout, operands = LAYOUTS[instruction.tag], instruction.operands
        counts = {"n": len(self.code.names), "f": len(self.code.functions)}
        others = all(value < counts[letter] for letter, value in zip(layout, operands) if letter in counts)
        return others and all(one < len(function.kinds) for one in registers_of(instruction))

    @staticmethod
    def goes_well(function: Function, instruction: Instruction, place: int) -> bool:
        if instruction.tag not in (Tag.BRANCH, Tag.JUMP):
            return True
        target = instruction.operands[-1]
        return target < len(function.instructions) and (instruction.tag is Tag.BRANCH or target > place)

    def fits(self, function: Function, instruction: Instruction) -> bool:
        """Whether the operands have the kinds that the instruction wants."""
        kinds = [function.kinds[one] for one in registers_of(instruction)]
        tag, operands = instruction.tag, instruction.operands
        if tag is Tag.CALL:
            return self.call_fits(instruction, kinds)
        if tag is Tag.LITERAL:
            return kinds[0] in (0, TRUTH) and (kinds[0] == 0 or operands[1] <= 1)
        if tag is Tag.BINARY:
            return operation_fits(OPERATORS[operands[0]], *kinds)
        if tag in (Tag.RETURN, Tag.RETURN_NONE):
            return function.result == (kinds[0] if kinds else NOTHING)
        if tag in (Tag.ARGUMENT, Tag.PUBLISH, Tag.JUMP):
            return True
        if tag in (Tag.ASSERT, Tag.BRANCH):
            return kinds[0] == TRUTH
        return RULES[tag](*kinds)

    def call_fits(self, instruction: Instruction, kinds: list[int]) -> bool:
        called = self.code.functions[instruction.operands[0]]
        given = instruction.operands[1] != NO_RESULT
        if called.parameters > len(called.kinds) or given and kinds[0] != called.result:
            return False
        return tuple(kinds[1:] if given else kinds) == called.kinds[: called.parameters]


def operation_fits(operator: str, to: int, left: int, right: int) -> bool:
    """Whether an operator takes these kinds, and gives that one."""
    truth, private = left & TRUTH, (left | right) & PRIVATE
    if (left ^ right) & (TRUTH | SIGNED):
        return False
    if left & SIGNED and operator in ("&", "|", "^"):
        return False
    if truth and operator not in ("==", "!=", "&", "|", "^") or not truth and private and operator in ("/", "%", "&", "|", "^"):
        return False
    if (left ^ right) & PRIVATE and not (operator == "*" or truth and operator == "&"):
        return False
    result = TRUTH if truth or operator in COMPARISONS else left & SIGNED
    return to == private | result | (left | right) & ARRAY


RULES = {
    Tag.MOVE: lambda to, source: to == source,
    Tag.STORE: lambda to, source: to == source,
    Tag.NOT: lambda to, source: to == source and source & TRUTH,
    Tag.CAST: lambda to, source: to & (PRIVATE | ARRAY) == source & (PRIVATE | ARRAY),
    Tag.CLASSIFY: lambda to, source: not source & PRIVATE and to == source | PRIVATE,
    Tag.FILL: lambda to, size, value: size == 0 and not value & ARRAY and to == value | ARRAY,
    Tag.AT: lambda to, array, index: array & ARRAY and index == 0 and to == array & ~ARRAY,
    Tag.PUT: lambda array, index, value: array & ARRAY and index == 0 and value == array & ~ARRAY,
    Tag.SIZE: lambda to, source: source & ARRAY and to == 0,
    Tag.CAT: lambda to, left, right: to == left == right and to & ARRAY,
    Tag.SUM: lambda to, source: source & ARRAY and not source & TRUTH and to == source & ~ARRAY,
    Tag.LOOKUP: lambda to, array, index: array & ARRAY and array & PRIVATE and not array & TRUTH and index & ~ARRAY == PRIVATE
    and to == array & ~ARRAY | index & ARRAY,
    Tag.BITS: lambda to, source: not source & (TRUTH | SIGNED) and to == source & PRIVATE | TRUTH | ARRAY,
    Tag.DECLASSIFY: lambda to, source: to == source & ~PRIVATE,
}
