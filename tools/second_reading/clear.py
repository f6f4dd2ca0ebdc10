"""Evaluation in the clear: the end, the events, what is opened, the cost, the needs and the gates of a run."""
from __future__ import annotations

from bisect import bisect_right
from dataclasses import dataclass, replace
from functools import lru_cache

import tree
from gates import DRAWN, MASK, Gate, GateList, Kind, Ring, packed, words_for
from tree import Data, TypeName
from word_lists import changed

ARRAY_LIMIT = 1 << 20
DEPTH_LIMIT = 64
UNBOUNDED = (MASK,) * 4


@dataclass(frozen=True)
class ValueType:
    """Private or public, data type, array or scalar."""

    private: bool
    data: Data
    array: bool

    @property
    def ring(self) -> Ring:
        return Ring.ADDITIVE if self.data.is_number else Ring.BITWISE

    def gate_size(self, count: int) -> int:
        """How many words gates have of so many elements."""
        return count if self.data.is_number else words_for(count)

    def gate_words(self, elements) -> tuple[int, ...]:
        """The words that gates have of elements."""
        return gate_words(self.data, elements)


def gate_words(data: Data, elements) -> tuple[int, ...]:
    """Numbers are their own words; truth values are packed."""
    return tuple(elements) if data.is_number else tuple(packed(elements))


def signed(word: int) -> int:
    """The number with a sign that a word stands for, by two's complement."""
    return word - MASK - 1 if word >> 63 else word


def shown(data: Data, words) -> list[str]:
    """Elements as they are printed."""
    if data is Data.TRUTH:
        return ["true" if word else "false" for word in words]
    return [str(signed(word) if data is Data.SIGNED else word) for word in words]


@dataclass(frozen=True)
class Value:
    """A value: its type, its elements, each as a word, and its number among the gates' values where it is private."""

    type: ValueType
    words: tuple[int, ...]
    number: int | None = None


@dataclass(frozen=True)
class Input:
    """An entry of the input file; of a public file's private entry the words are zeros."""

    name: str
    type: ValueType
    words: tuple[int, ...]


@dataclass(frozen=True)
class End:
    """How a run ended: the words of its line without the cost, and the status."""

    what: str
    status: int


@dataclass(frozen=True)
class Event:
    """An opened value (without a name) or a published one, which is handed over where it is private."""

    name: str | None
    data: Data
    words: tuple[int, ...]
    handed: bool = False

    def line(self) -> str:
        head = "open" if self.name is None else f"publish {self.name}"
        return " ".join([head, *shown(self.data, self.words)])


@dataclass
class Report:
    """What an evaluation gives."""

    end: End
    cost: int
    events: list[Event]
    opened: list[int]
    needs: tuple[int, int, int, int]
    gates: list[Gate]
    inputs_dealt: bool

    def end_line(self) -> str:
        return f"end {self.end.what} cost {self.cost}"

    def open_lines(self) -> list[str]:
        return [event.line() for event in self.events if event.name is None]

    def handed(self) -> list[Event]:
        """The private values that are published."""
        return [event for event in self.events if event.handed]

    def opened_by_gates(self) -> list[int]:
        """The words that gates open: `opened` has one for each element, and of truth values these are packed."""
        return [word for event in self.events if event.name is None for word in gate_words(event.data, event.words)]

    def text(self) -> str:
        return "".join(line + "\n" for line in [event.line() for event in self.events] + [self.end_line()])


class Ended(Exception):
    """The run ends here."""

    def __init__(self, end: End):
        super().__init__(end.what)
        self.end = end


class OpenedShort(Exception):
    """A value that is opened wants more answers than are left."""


class PublishedShort(Exception):
    """A value that is handed over wants more words than are left."""


class Breaking(Exception):
    """`break` leaves the loop."""


class Continuing(Exception):
    """`continue` ends the turn."""


class Returning(Exception):
    """`return` leaves the function."""

    def __init__(self, value: Value | None):
        super().__init__()
        self.value = value


def dealer_need(inputs: list[Input]) -> int:
    """Words that dealing draws."""
    return sum(2 * entry.type.gate_size(len(entry.words)) for entry in inputs if entry.type.private)


@dataclass(eq=False)
class Runnable:
    """An accepted program: its functions by name, and where the lines of its text begin."""

    functions: dict[str, tree.Function]
    line_starts: list[int]

    def line_of(self, node: tree.Node) -> int:
        return bisect_right(self.line_starts, node.place)


def runnable_of(whole: tree.Program, text: bytes) -> Runnable:
    """What evaluation needs of a tree and its text."""
    starts = [0] + [place + 1 for place, byte in enumerate(text) if byte == 0x0A]
    return Runnable({function.name.text: function for function in whole.functions}, starts)


WORD_OPERATORS = {
    "+": lambda u, v: (u + v) & MASK, "-": lambda u, v: (u - v) & MASK, "*": lambda u, v: (u * v) & MASK,
    "/": lambda u, v: u // v, "%": lambda u, v: u % v, "==": lambda u, v: int(u == v), "!=": lambda u, v: int(u != v),
    "<": lambda u, v: int(u < v), "<=": lambda u, v: int(u <= v), ">": lambda u, v: int(u > v),
    ">=": lambda u, v: int(u >= v), "&": lambda u, v: u & v, "|": lambda u, v: u | v, "^": lambda u, v: u ^ v,
}
SIGNED_OPERATORS = {
    **WORD_OPERATORS,
    "/": lambda u, v: quotient(signed(u), signed(v)) & MASK,
    "%": lambda u, v: (signed(u) - signed(v) * quotient(signed(u), signed(v))) & MASK,
    "<": lambda u, v: int(signed(u) < signed(v)), "<=": lambda u, v: int(signed(u) <= signed(v)),
    ">": lambda u, v: int(signed(u) > signed(v)), ">=": lambda u, v: int(signed(u) >= signed(v)),
}
COMPARING = ("==", "!=", "<", "<=", ">", ">=")


def quotient(dividend: int, divisor: int) -> int:
    """Towards 0."""
    found = abs(dividend) // abs(divisor)
    return found if (dividend < 0) == (divisor < 0) else -found


@dataclass
class Frame:
    """One call: the scopes of its variables, and what its domain variables are bound to."""

    scopes: list[dict[str, Value]]
    bound: dict[str, bool]
    result: ValueType | None

    def find(self, name: str) -> dict[str, Value]:
        for scope in reversed(self.scopes):
            if name in scope:
                return scope
        raise LookupError(name)


class Evaluation:
    """One evaluation; with `answers` it is blind to private values, and with `handed` it is told those that are handed over."""

    def __init__(self, program: Runnable, inputs: list[Input], budget: int, lengths, answers: list[int] | None = None,
                 handed: list[int] | None = None):
        self.program, self.budget, self.lengths, self.answers, self.handed = program, budget, lengths, answers, handed
        self.inputs = {entry.name: entry for entry in inputs}
        self.private_names = [entry.name for entry in inputs if entry.type.private]
        self.dealer = dealer_need(inputs)
        self.cost, self.depth, self.answers_used, self.handed_used = 0, 0, 0, 0
        self.events: list[Event] = []
        self.opened: list[int] = []
        self.used = [0, 0, 0]
        self.made = GateList()

    def report(self) -> Report:
        """Runs the program."""
        dealt = self.dealer <= self.lengths[0]
        if dealt:
            end = self.run_main()
            needs = (self.dealer, *self.used)
        else:
            end = End(f"tape 0 need {self.dealer} have {self.lengths[0]}", 8)
            needs = (0, 0, 0, 0)
        return Report(end, self.cost, self.events, self.opened, needs, self.made.gates, dealt)

    def run_main(self) -> End:
        try:
            self.depth = 1
            self.enter(self.program.functions["main"], [], {})
        except Ended as ended:
            return ended.end
        return End("done", 0)

    # Charges, traps, words

    def charge(self, amount: int):
        if self.cost + amount > self.budget:
            raise Ended(End("budget", 7))
        self.cost += amount

    def charge_rest(self, elements: int):
        if elements > 1:
            self.charge(elements - 1)

    def trap(self, name: str, node: tree.Node):
        raise Ended(End(f"trap {name} line {self.program.line_of(node)}", 1))

    def commit(self, mark: int, sizes_mark: int):
        """Compares the words of the gates made since the mark; takes the gates back where they do not suffice."""
        totals = list(self.used)
        for gate in self.made.gates[mark:]:
            if gate.kind in DRAWN:
                totals = [total + words for total, words in zip(totals, gate.drawn())]
        for miner, total in zip((1, 2, 3), totals):
            if total > self.lengths[miner]:
                del self.made.gates[mark:]
                del self.made.sizes[sizes_mark:]
                raise Ended(End(f"tape {miner} need {total} have {self.lengths[miner]}", 8))
        self.used = totals

    def making(self, build):
        """Makes the gates of one construct."""
        mark, sizes_mark = len(self.made.gates), len(self.made.sizes)
        result = build(self.made)
        self.commit(mark, sizes_mark)
        return result

    # Types

    def resolve(self, written: TypeName, bound: dict[str, bool]) -> ValueType:
        private = written.domain is not None and bound.get(written.domain.text, True)
        return ValueType(private, written.data, written.dimension == 1)

    def static_type(self, node: tree.Node, frame: Frame) -> ValueType | None:
        """The type of an expression, without evaluating it."""
        match node:
            case tree.Number():
                return ValueType(False, Data.NUMBER, False)
            case tree.Truth():
                return ValueType(False, Data.TRUTH, False)
            case tree.Variable():
                return frame.find(node.name)[node.name].type
            case tree.Parentheses() | tree.Flip():
                return self.static_type(node.inner, frame)
            case tree.Cast():
                return replace(self.static_type(node.inner, frame), data=node.data)
            case tree.Declassify():
                return replace(self.static_type(node.inner, frame), private=False)
            case tree.Index():
                return replace(self.static_type(node.array, frame), array=False)
            case tree.Call():
                return self.call_type(node, frame)
            case tree.Binary():
                left, right = self.static_type(node.left, frame), self.static_type(node.right, frame)
                data = Data.TRUTH if node.operator in COMPARING + ("&&", "||") else left.data
                return ValueType(left.private or right.private, data, left.array or right.array)
        return None

    def call_type(self, node: tree.Call, frame: Frame) -> ValueType | None:
        """The type of what a call gives."""
        if node.name in self.program.functions:
            function = self.program.functions[node.name]
            bound = self.bindings(function, node, frame)
            return self.resolve(function.result, bound) if function.result else None
        types = [self.static_type(argument, frame) for argument in node.arguments]
        private = any(one.private for one in types)
        if node.name == "size":
            return ValueType(False, Data.NUMBER, False)
        if node.name == "sum":
            return ValueType(private, types[0].data, False)
        if node.name == "lookup":
            return ValueType(private, types[0].data, types[1].array)
        if node.name == "cat":
            return ValueType(private, types[0].data, True)
        if node.name == "bitExtract":
            return ValueType(private, Data.TRUTH, True)
        raise LookupError(node.name)

    def bindings(self, function: tree.Function, node: tree.Call, frame: Frame) -> dict[str, bool]:
        """Which domain variables a call binds to a private domain."""
        bound = {}
        for variable in function.variables:
            name = variable.name.text
            given = [
                argument
                for argument, parameter in zip(node.arguments, function.parameters)
                if parameter.type.domain is not None and parameter.type.domain.text == name
            ]
            bound[name] = any(self.static_type(argument, frame).private for argument in given)
        return bound

    # Functions and statements

    def enter(self, function: tree.Function, values: list[Value], bound: dict[str, bool]) -> Value | None:
        """Runs a function's body."""
        names = [parameter.name.text for parameter in function.parameters]
        result = self.resolve(function.result, bound) if function.result else None
        frame = Frame([dict(zip(names, values))], bound, result)
        try:
            self.statements(function.body.statements, frame)
        except Returning as returning:
            return returning.value
        return None

    def statements(self, statements, frame: Frame):
        for statement in statements:
            self.statement(statement, frame)

    def scoped(self, statement, frame: Frame):
        """A statement in a block of its own."""
        depth = len(frame.scopes)
        frame.scopes.append({})
        try:
            if isinstance(statement, tree.Block):
                self.statements(statement.statements, frame)
            else:
                self.statement(statement, frame)
        finally:
            del frame.scopes[depth:]

    def statement(self, node: tree.Node, frame: Frame):
        match node:
            case tree.Empty():
                pass
            case tree.Block():
                self.scoped(node, frame)
            case tree.Declare():
                self.declaration(node, frame)
            case tree.Assign():
                self.assignment(node, frame)
            case tree.Evaluate():
                self.expression(node.value, frame)
            case tree.If():
                if self.test(node.condition, frame):
                    self.scoped(node.then, frame)
                elif node.otherwise is not None:
                    self.scoped(node.otherwise, frame)
            case tree.Assert():
                condition = self.expression(node.condition, frame)
                self.charge(1)
                if not condition.words[0]:
                    self.trap("Assert", node)
            case tree.Return():
                self.returning(node, frame)
            case tree.Leave():
                raise Breaking if node.word == "break" else Continuing
            case _:
                self.loop(node, frame)

    def loop(self, node, frame: Frame):
        """A loop; its variables end with it."""
        depth = len(frame.scopes)
        frame.scopes.append({})
        try:
            if isinstance(node, tree.While):
                while self.test(node.condition, frame):
                    self.turn(node.body, frame)
            elif isinstance(node, tree.DoWhile):
                self.turn(node.body, frame)
                while self.test(node.condition, frame):
                    self.turn(node.body, frame)
            else:
                self.counted(node, frame)
        except Breaking:
            pass
        finally:
            del frame.scopes[depth:]

    def counted(self, node: tree.For, frame: Frame):
        if node.first is not None:
            self.statement(node.first, frame)
        while self.test(node.condition, frame):
            self.turn(node.body, frame)
            if isinstance(node.step, tree.Assign):
                self.assignment(node.step, frame)
            elif node.step is not None:
                self.expression(node.step, frame)

    def turn(self, body, frame: Frame):
        try:
            self.scoped(body, frame)
        except Continuing:
            pass

    def test(self, condition, frame: Frame) -> bool:
        value = True if condition is None else bool(self.expression(condition, frame).words[0])
        self.charge(1)
        return value

    def returning(self, node: tree.Return, frame: Frame):
        if node.value is None:
            raise Returning(None)
        value = self.expression(node.value, frame)
        raise Returning(self.wanted(value, frame.result.private))

    def declaration(self, node: tree.Declare, frame: Frame):
        wanted = self.resolve(node.type, frame.bound)
        if node.size is not None:
            value = self.filling(node, wanted, frame)
        elif isinstance(node.value, tree.Argument):
            value = self.store(self.argument(node.value, wanted))
        elif node.value is not None:
            value = self.store(self.wanted(self.expression(node.value, frame), wanted.private))
        else:
            empty = Value(replace(wanted, private=False), () if wanted.array else (0,))
            value = self.store(self.wanted(empty, wanted.private))
        frame.scopes[-1][node.name.text] = value

    def filling(self, node: tree.Declare, wanted: ValueType, frame: Frame) -> Value:
        """An array of so many equal elements."""
        size = self.expression(node.size, frame).words[0]
        start = Value(ValueType(False, wanted.data, False), (0,))
        if node.value is not None:
            start = self.expression(node.value, frame)
        start = self.wanted(start, wanted.private)
        self.charge(1)
        if size > ARRAY_LIMIT:
            self.trap("Large", node)
        self.charge_rest(size)
        return self.filled(start, size)

    def filled(self, start: Value, size: int) -> Value:
        """An array of so many times a scalar."""
        number = self.making(lambda made: repeated(made, start, size)) if start.type.private else None
        return Value(replace(start.type, array=True), start.words * size, number)

    def store(self, value: Value) -> Value:
        self.charge(1)
        self.charge_rest(len(value.words))
        return value

    def assignment(self, node: tree.Assign, frame: Frame):
        """A store into a variable or an element; the index is evaluated first."""
        name = node.target.name
        scope = frame.find(name)
        if node.target.index is None:
            value = self.wanted(self.expression(node.value, frame), scope[name].type.private)
            scope[name] = self.store(value)
            return
        index = self.expression(node.target.index, frame).words[0]
        value = self.wanted(self.expression(node.value, frame), scope[name].type.private)
        array = scope[name]
        self.charge(1)
        if index >= len(array.words):
            self.trap("Index", node)
        number = self.making(lambda made: stored(made, array, index, value)) if array.type.private else None
        scope[name] = Value(array.type, changed(array.words, index, self.stored_word(name, value.words[0])), number)

    def stored_word(self, _name: str, word: int) -> int:
        """The word that an element of this array gets."""
        return word

    # Expressions

    def expression(self, node: tree.Node, frame: Frame) -> Value | None:
        match node:
            case tree.Number():
                return Value(ValueType(False, Data.NUMBER, False), (node.value,))
            case tree.Truth():
                return Value(ValueType(False, Data.TRUTH, False), (int(node.value),))
            case tree.Variable():
                return frame.find(node.name)[node.name]
            case tree.Parentheses():
                return self.expression(node.inner, frame)
            case tree.Binary():
                return self.binary(node, frame)
            case tree.Flip():
                return self.flip(self.expression(node.inner, frame))
            case tree.Cast():
                return self.cast(node.data, self.expression(node.inner, frame))
            case tree.Index():
                return self.element(node, frame)
            case tree.Declassify():
                return self.declassify(self.expression(node.inner, frame))
            case tree.Publish():
                return self.publish(node.name, self.expression(node.inner, frame))
            case tree.Call():
                return self.call(node, frame)
        raise TypeError(type(node).__name__)

    def wanted(self, value: Value, private: bool) -> Value:
        """Classifies a public value where a private one is wanted."""
        if value.type.private or not private:
            return value
        self.charge(1)
        self.charge_rest(len(value.words))
        words = value.type.gate_words(value.words)
        number = self.making(lambda made: made.make(Kind.CONSTANT, (), len(words), None, words))
        return Value(replace(value.type, private=True), value.words, number)

    def flip(self, value: Value) -> Value:
        self.charge(1)
        self.charge_rest(len(value.words))
        number = self.making(lambda made: made.flip(value.number, len(value.words))) if value.type.private else None
        return Value(value.type, tuple(1 - word for word in value.words), number)

    def cast(self, data: Data, value: Value) -> Value:
        """A number as a truth value, or the reverse."""
        self.charge(1)
        self.charge_rest(len(value.words))
        words, number = value.words, value.number
        if value.type.data.is_number != data.is_number:
            words = tuple(int(word != 0) for word in words)
            if value.type.private:
                number = self.making(lambda made: self.cast_gates(made, data, value))
        return Value(replace(value.type, data=data), words, number)

    @staticmethod
    def cast_gates(made: GateList, data: Data, value: Value) -> int:
        """The gates of a private cast."""
        count = len(value.words)
        if data.is_number:
            return made.one(Kind.CONVERT, made.unpack(value.number, count))
        return made.flip(made.pack(made.equal_to_zero(value.number)), count)

    def element(self, node: tree.Index, frame: Frame) -> Value:
        array = self.expression(node.array, frame)
        index = self.expression(node.index, frame).words[0]
        self.charge(1)
        if index >= len(array.words):
            self.trap("Index", node)
        return self.taken(array, index)

    def taken(self, array: Value, index: int) -> Value:
        """An element of an array that has so many."""
        number = self.making(lambda made: element(made, array, index)) if array.type.private else None
        return Value(replace(array.type, array=False), (array.words[index],), number)

    def declassify(self, value: Value) -> Value:
        """Opens a private value."""
        self.charge(1)
        self.charge_rest(len(value.words))
        public = replace(value.type, private=False)
        if not value.type.private:
            return Value(public, value.words)
        self.making(lambda made: handed_over(made, Kind.OPEN, value))
        words = tuple(value.words) if self.answers is None else self.answer(value)
        self.events.append(Event(None, value.type.data, words))
        self.opened.extend(words)
        return Value(public, words)

    def answer(self, value: Value) -> tuple[int, ...]:
        count = len(value.words)
        taken = self.answers[self.answers_used : self.answers_used + count]
        if len(taken) < count:
            raise OpenedShort
        self.answers_used += count
        return tuple(word & 1 if value.type.data is Data.TRUTH else word for word in taken)

    def publish(self, name: str, value: Value) -> None:
        self.charge(1)
        self.charge_rest(len(value.words))
        words = tuple(value.words)
        if value.type.private:
            self.making(lambda made: handed_over(made, Kind.RESULT, value))
            words = words if self.handed is None else self.told(value)
        self.events.append(Event(name, value.type.data, words, value.type.private))

    def told(self, value: Value) -> tuple[int, ...]:
        """The next words of what is handed over, as those of this value."""
        taken = self.handed[self.handed_used : self.handed_used + len(value.words)]
        if len(taken) < len(value.words):
            raise PublishedShort
        self.handed_used += len(value.words)
        return tuple(word & 1 if value.type.data is Data.TRUTH else word for word in taken)

    def argument(self, node: tree.Argument, wanted: ValueType) -> Value:
        return self.asked(node.name, wanted, node)

    def asked(self, name: str, wanted: ValueType, node: tree.Node) -> Value:
        """The value of an input, which must be of the type that is wanted."""
        self.charge(1)
        entry = self.inputs.get(name)
        if entry is None or entry.type != wanted:
            self.trap("Argument", node)
        self.charge_rest(len(entry.words))
        number = None
        if wanted.private:
            place = self.private_names.index(name)
            size = wanted.gate_size(len(entry.words))
            number = self.making(lambda made: made.make(Kind.INPUT, (), size, wanted.ring, (place,)))
        return Value(wanted, entry.words, number)

    # Operators

    def binary(self, node: tree.Binary, frame: Frame) -> Value:
        """An operator; a public operand is classified first, but before products."""
        left = self.expression(node.left, frame)
        if node.operator in ("&&", "||"):
            right_type = self.static_type(node.right, frame)
            if not left.type.private and not left.type.array and not right_type.array:
                return self.cut_short(node, left, right_type, frame)
        right = self.expression(node.right, frame)
        operator = {"&&": "&", "||": "|"}.get(node.operator, node.operator)
        private = left.type.private or right.type.private
        with_public = operator == "*" or (operator == "&" and left.type.data is Data.TRUTH)
        if private and not with_public:
            left, right = self.wanted(left, True), self.wanted(right, True)
        return self.operate(operator, left, right, node)

    def cut_short(self, node: tree.Binary, left: Value, right_type: ValueType, frame: Frame) -> Value:
        """A public scalar before `&&` or `||`: the other operand is evaluated where it counts."""
        self.charge(1)
        decided = bool(left.words[0]) == (node.operator == "||")
        if decided:
            return self.wanted(left, right_type.private)
        return self.expression(node.right, frame)

    def operate(self, operator: str, left: Value, right: Value, node: tree.Node) -> Value:
        """An operator on words; a scalar meets each element of an array."""
        array = left.type.array or right.type.array
        self.charge(1)
        if left.type.array and right.type.array and len(left.words) != len(right.words):
            self.trap("Length", node)
        if operator in "/%" and 0 in right.words:
            self.trap("Div", node)
        size = len(left.words) if left.type.array else len(right.words)
        self.charge_rest(size)
        first = left.words if left.type.array else left.words * size
        second = right.words if right.type.array else right.words * size
        function = (SIGNED_OPERATORS if left.type.data is Data.SIGNED else WORD_OPERATORS)[operator]
        words = tuple(function(u, v) for u, v in zip(first, second))
        data = Data.TRUTH if operator in COMPARING else left.type.data
        private = left.type.private or right.type.private
        number = None
        if private:
            number = self.making(lambda made: self.operator_gates(made, operator, left, right, (first, second), array))
        return Value(ValueType(private, data, array), words, number)

    def operator_gates(self, made: GateList, operator: str, left: Value, right: Value, words, array: bool) -> int:
        """The gates of an operator with a private operand."""
        size = len(words[0])
        u, v = left.number, right.number
        if array and left.type.private and not left.type.array:
            u = repeated(made, left, size)
        if array and right.type.private and not right.type.array:
            v = repeated(made, right, size)
        if u is None or v is None:
            number, public = (u, words[1]) if v is None else (v, words[0])
            known = left.type.gate_words(public)
            return made.make(Kind.MULTIPLY_PUBLIC, (number,), len(known), left.type.ring, known)
        if left.type.data is Data.TRUTH:
            return self.truth_gates(made, operator, u, v, size)
        return self.number_gates(made, operator, u, v, size, made.less_signed if left.type.data is Data.SIGNED else made.less)

    @staticmethod
    def truth_gates(made: GateList, operator: str, u: int, v: int, size: int) -> int:
        if operator in ("^", "!="):
            return made.two(Kind.XOR, u, v)
        if operator == "==":
            return made.flip(made.two(Kind.XOR, u, v), size)
        if operator == "&":
            return made.conjunction(u, v)
        both, either = made.conjunction(u, v), made.two(Kind.XOR, u, v)
        return made.two(Kind.XOR, either, both)

    @staticmethod
    def number_gates(made: GateList, operator: str, u: int, v: int, size: int, less_of) -> int:
        if operator == "+":
            return made.two(Kind.ADD, u, v)
        if operator == "-":
            return made.two(Kind.SUBTRACT, u, v)
        if operator == "*":
            return made.two(Kind.MULTIPLY, u, v, Ring.ADDITIVE)
        if operator in ("==", "!="):
            equal = made.pack(made.equal_to_zero(made.two(Kind.SUBTRACT, u, v)))
            return equal if operator == "==" else made.flip(equal, size)
        if operator not in ("<", "<=", ">", ">="):
            raise ValueError(operator)
        less = made.pack(less_of(u, v) if operator in ("<", ">=") else less_of(v, u))
        return less if operator in ("<", ">") else made.flip(less, size)

    # Calls

    def call(self, node: tree.Call, frame: Frame) -> Value | None:
        if node.name in self.program.functions:
            return self.call_function(node, frame)
        if node.name == "cat":
            return self.concatenation(node, frame)
        if node.name == "lookup":
            array, index = (self.expression(argument, frame) for argument in node.arguments)
            return self.looked_up(self.wanted(array, True), self.wanted(index, True), node)
        operand = self.expression(node.arguments[0], frame)
        self.charge(1)
        if node.name == "size":
            return Value(ValueType(False, Data.NUMBER, False), (len(operand.words),))
        if node.name == "sum":
            number = None
            if operand.type.private:
                number = self.making(lambda made: made.make(Kind.SUM, (operand.number,), 1))
            return Value(replace(operand.type, array=False), (sum(operand.words) & MASK,), number)
        return self.bit_extract(node, operand)

    def concatenation(self, node: tree.Call, frame: Frame) -> Value:
        """`cat`: a public part is classified where the other one is private."""
        types = [self.static_type(argument, frame) for argument in node.arguments]
        private = any(one.private for one in types)
        left = self.wanted(self.expression(node.arguments[0], frame), private)
        right = self.wanted(self.expression(node.arguments[1], frame), private)
        self.charge(1)
        size = len(left.words) + len(right.words)
        if size > ARRAY_LIMIT:
            self.trap("Large", node)
        self.charge_rest(size)
        return self.joined(left, right)

    def joined(self, left: Value, right: Value) -> Value:
        """Two arrays of one type, end to end."""
        number = self.making(lambda made: joined(made, left, right)) if left.type.private else None
        return Value(left.type, left.words + right.words, number)

    def looked_up(self, array: Value, index: Value, node: tree.Node) -> Value:
        """`lookup`, of a private array and private places."""
        self.charge(1)
        size = len(array.words) * len(index.words)
        if size > ARRAY_LIMIT:
            self.trap("Large", node)
        self.charge_rest(size)
        words = tuple(array.words[place] if place < len(array.words) else 0 for place in index.words)
        number = self.making(lambda made: made.looked_up(array.number, index.number))
        return Value(ValueType(True, array.type.data, index.type.array), words, number)

    def bit_extract(self, node: tree.Call, operand: Value) -> Value:
        size = 64 * len(operand.words)
        if size > ARRAY_LIMIT:
            self.trap("Large", node)
        self.charge_rest(size)
        words = tuple((word >> place) & 1 for word in operand.words for place in range(64))
        number = None
        if operand.type.private:
            number = self.making(lambda made: made.bits(operand.number))
        return Value(ValueType(operand.type.private, Data.TRUTH, True), words, number)

    def call_function(self, node: tree.Call, frame: Frame) -> Value | None:
        """A call: arguments, depth, body."""
        function = self.program.functions[node.name]
        bound = self.bindings(function, node, frame)
        values = []
        for argument, parameter in zip(node.arguments, function.parameters):
            values.append(self.wanted(self.expression(argument, frame), self.resolve(parameter.type, bound).private))
        self.charge(1)
        if self.depth == DEPTH_LIMIT:
            self.trap("Depth", node)
        elements = sum(len(value.words) for value in values if value.type.array)
        if elements:
            self.charge(elements)
        self.depth += 1
        result = self.enter(function, values, bound)
        self.depth -= 1
        return result


# Gates of one operation on a value's number, chosen by its type.


def repeated(made: GateList, scalar: Value, size: int) -> int:
    if scalar.type.data is Data.TRUTH:
        return made.repeat_bit(scalar.number, size)
    return made.make(Kind.REPEAT, (scalar.number,), size)


def element(made: GateList, array: Value, index: int) -> int:
    return made.part_bit(array.number, index) if array.type.data is Data.TRUTH else made.part(array.number, index, 1)


def stored(made: GateList, array: Value, index: int, value: Value) -> int:
    if array.type.data is Data.TRUTH:
        return made.put_bit(array.number, index, value.number)
    return made.make(Kind.PUT, (array.number, value.number), len(array.words), None, (index,))


def joined(made: GateList, left: Value, right: Value) -> int:
    if left.type.data is Data.TRUTH:
        return made.cat_bit(left.number, len(left.words), right.number, len(right.words))
    return made.cat(left.number, right.number)


def handed_over(made: GateList, kind: Kind, value: Value) -> int:
    """Opens a value, or hands it out."""
    return made.make(kind, (value.number,), value.type.gate_size(len(value.words)), value.type.ring)


@lru_cache(maxsize=16)
def evaluated_once(program: Runnable, inputs: tuple[Input, ...], budget: int, lengths: tuple[int, ...]) -> Report:
    return Evaluation(program, list(inputs), budget, lengths).report()


def evaluate(program: Runnable, inputs: list[Input], budget: int, lengths=UNBOUNDED) -> Report:
    """Evaluation on the inputs."""
    return evaluated_once(program, tuple(inputs), budget, tuple(lengths))


def evaluate_blind(program: Runnable, inputs: list[Input], answers: list[int], budget: int, lengths, handed: list[int] | None = None) -> Report:
    """Evaluation that knows opened words alone, and those that are handed over where they are told; private inputs count as zeros."""
    blinded = [replace(entry, words=(0,) * len(entry.words)) if entry.type.private else entry for entry in inputs]
    return Evaluation(program, blinded, budget, lengths, answers, handed).report()
