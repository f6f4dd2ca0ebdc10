"""What code does, instruction by instruction, in the clear or by answers: the report of its run."""
from __future__ import annotations

from collections.abc import Callable
from dataclasses import dataclass, replace

import code_file
from clear import ARRAY_LIMIT, DEPTH_LIMIT, End, Ended, Evaluation, Input, Report, Value, ValueType, stored
from code_file import OPERATORS, Code, Tag
from gates import MASK, Kind
from tree import Data


class StrayRead(Exception):
    """A private register in which nothing was stored is read by gates, which the code of no program does."""


def type_of(kind: int) -> ValueType:
    data = Data.TRUTH if kind & code_file.TRUTH else Data.SIGNED if kind & code_file.SIGNED else Data.NUMBER
    return ValueType(bool(kind & code_file.PRIVATE), data, bool(kind & code_file.ARRAY))


def untouched(kind: int) -> Value:
    """What a register begins as."""
    type_ = type_of(kind)
    return Value(type_, () if type_.array else (0,))


@dataclass
class Activation:
    """One call: its function, its registers, its place, and where its caller wants the result."""

    function: code_file.Function
    registers: list[Value]
    wanted: int | None
    place: int = 0


class CodeRun(Evaluation):
    """A run of code; the rows of the table of charges are those of evaluation, with lines in the place of nodes."""

    def __init__(self, code: Code, inputs: list[Input], budget: int, lengths, answers: list[int] | None = None):
        super().__init__(None, inputs, budget, lengths, answers)
        self.code = code
        self.calls: list[Activation] = []

    def trap(self, name: str, line: int):
        raise Ended(End(f"trap {name} line {line}", 1))

    def run_main(self) -> End:
        """Runs function 0 to its end."""
        self.begin(0, [], None)
        try:
            while self.calls:
                self.step()
        except Ended as ended:
            return ended.end
        return End("done", 0)

    # Registers

    def begin(self, number: int, arguments: list[Value], wanted: int | None):
        function = self.code.functions[number]
        registers = arguments + [untouched(kind) for kind in function.kinds[len(arguments) :]]
        self.calls.append(Activation(function, registers, wanted))

    def value(self, register: int) -> Value:
        return self.calls[-1].registers[register]

    def numbered(self, register: int) -> Value:
        """A value that gates may read."""
        value = self.value(register)
        if value.type.private and value.number is None:
            raise StrayRead(f"register {register}")
        return value

    def put(self, register: int, value: Value):
        if value.type != type_of(self.calls[-1].function.kinds[register]):
            raise TypeError(f"register {register} has another kind than {value.type}")
        self.calls[-1].registers[register] = value

    # Steps

    def step(self):
        """Does one instruction."""
        activation = self.calls[-1]
        instruction = activation.function.instructions[activation.place]
        activation.place += 1
        self.rows()[instruction.tag](*instruction.operands)

    def rows(self) -> dict[Tag, Callable[..., None]]:
        return {
            Tag.LITERAL: self.literal, Tag.MOVE: lambda to, source: self.put(to, self.value(source)), Tag.STORE: self.do_store,
            Tag.BINARY: self.do_binary, Tag.NOT: lambda to, source: self.put(to, self.flip(self.numbered(source))),
            Tag.CAST: self.do_cast, Tag.CLASSIFY: lambda to, source: self.put(to, self.wanted(self.value(source), True)),
            Tag.FILL: self.do_fill, Tag.AT: self.do_at, Tag.PUT: self.do_put, Tag.SIZE: self.do_size, Tag.CAT: self.do_cat,
            Tag.SUM: self.do_sum, Tag.BITS: self.do_bits, Tag.LOOKUP: self.do_lookup, Tag.ARGUMENT: self.do_argument,
            Tag.DECLASSIFY: lambda to, source: self.put(to, self.declassify(self.numbered(source))),
            Tag.PUBLISH: lambda name, source: self.publish(self.code.names[name], self.numbered(source)),
            Tag.ASSERT: self.do_assert, Tag.BRANCH: self.do_branch, Tag.JUMP: self.do_jump, Tag.CALL: self.do_call,
            Tag.RETURN: self.do_return, Tag.RETURN_NONE: lambda: self.leave(None),
        }

    def literal(self, to: int, word: int):
        self.put(to, Value(type_of(self.calls[-1].function.kinds[to]), (word,)))

    def do_store(self, to: int, source: int):
        self.put(to, self.store(self.value(source)))

    def do_binary(self, operator: int, to: int, left: int, right: int, line: int):
        self.put(to, self.operate(OPERATORS[operator], self.numbered(left), self.numbered(right), line))

    def do_cast(self, to: int, source: int):
        kind = type_of(self.calls[-1].function.kinds[to])
        keeps = self.value(source).type.data.is_number == kind.data.is_number
        value = self.value(source) if keeps else self.numbered(source)
        self.put(to, self.cast(kind.data, value))

    def do_fill(self, to: int, size: int, value: int, line: int):
        count, start = self.value(size).words[0], self.numbered(value)
        self.charge(1)
        if count > ARRAY_LIMIT:
            self.trap("Large", line)
        self.charge_rest(count)
        self.put(to, self.filled(start, count))

    def do_at(self, to: int, array: int, index: int, line: int):
        whole, place = self.numbered(array), self.value(index).words[0]
        self.charge(1)
        if place >= len(whole.words):
            self.trap("Index", line)
        self.put(to, self.taken(whole, place))

    def do_put(self, array: int, index: int, value: int, line: int):
        whole, place, new = self.numbered(array), self.value(index).words[0], self.numbered(value)
        self.charge(1)
        if place >= len(whole.words):
            self.trap("Index", line)
        number = self.making(lambda made: stored(made, whole, place, new)) if whole.type.private else None
        self.put(array, Value(whole.type, whole.words[:place] + new.words + whole.words[place + 1 :], number))

    def do_size(self, to: int, source: int):
        self.charge(1)
        self.put(to, Value(ValueType(False, Data.NUMBER, False), (len(self.value(source).words),)))

    def do_cat(self, to: int, left: int, right: int, line: int):
        first, second = self.numbered(left), self.numbered(right)
        self.charge(1)
        size = len(first.words) + len(second.words)
        if size > ARRAY_LIMIT:
            self.trap("Large", line)
        self.charge_rest(size)
        self.put(to, self.joined(first, second))

    def do_sum(self, to: int, source: int):
        whole = self.numbered(source)
        self.charge(1)
        number = self.making(lambda made: made.make(Kind.SUM, (whole.number,), 1)) if whole.type.private else None
        self.put(to, Value(replace(whole.type, array=False), (sum(whole.words) & MASK,), number))

    def do_bits(self, to: int, source: int, line: int):
        operand = self.numbered(source)
        self.charge(1)
        self.put(to, self.bit_extract(line, operand))

    def do_lookup(self, to: int, array: int, index: int, line: int):
        self.put(to, self.looked_up(self.numbered(array), self.numbered(index), line))

    def do_argument(self, to: int, name: int, line: int):
        kind = type_of(self.calls[-1].function.kinds[to])
        self.put(to, self.asked(self.code.names[name], kind, line))

    def do_assert(self, condition: int, line: int):
        self.charge(1)
        if not self.value(condition).words[0]:
            self.trap("Assert", line)

    def do_branch(self, condition: int, value: int, target: int):
        self.charge(1)
        if self.value(condition).words[0] == value:
            self.do_jump(target)

    def do_jump(self, target: int):
        self.calls[-1].place = target

    def do_call(self, function: int, result: int, *rest: int):
        arguments, line = [self.value(one) for one in rest[:-1]], rest[-1]
        self.charge(1)
        if len(self.calls) == DEPTH_LIMIT:
            self.trap("Depth", line)
        elements = sum(len(value.words) for value in arguments if value.type.array)
        if elements:
            self.charge(elements)
        self.begin(function, arguments, None if result == code_file.NO_RESULT else result)

    def do_return(self, source: int):
        self.leave(self.value(source))

    def leave(self, value: Value | None):
        """Ends the last call, and hands its value on where it is wanted."""
        wanted = self.calls.pop().wanted
        if self.calls and wanted is not None:
            self.put(wanted, value)


def code_report(code: Code, inputs: list[Input], budget: int, lengths, answers: list[int] | None = None) -> Report:
    """The report of verified code."""
    return CodeRun(code, inputs, budget, lengths, answers).report()
