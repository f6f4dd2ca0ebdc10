"""Which lines of a program had results that are not what they stand for: that wrapped modulo 2^64, told by the second reading on test data.

A word of the type int64, or one that follows from a name that is said to have signs, is read with its sign: from 2^63 on it stands for itself less 2^64. What
follows from a result that was lost isn't told again.
"""
from __future__ import annotations

from dataclasses import dataclass, replace
from difflib import get_close_matches
from enum import IntEnum

from .findings import spot_at
from .reading import clear, tree, verdict

WORD_END = 1 << 64
HALF = 1 << 63
WIDE = {"+": lambda u, v: u + v, "-": lambda u, v: u - v, "*": lambda u, v: u * v}
ORDERS = {"<": lambda u, v: u < v, "<=": lambda u, v: u <= v, ">": lambda u, v: u > v, ">=": lambda u, v: u >= v}
DIVISIONS = ("/", "%")


class Signed(int):
    """A word that is read with its sign."""

    __slots__ = ()


class Lost(int):
    """A word that follows from an overflow: it stands for nothing."""

    __slots__ = ()


class Sort(IntEnum):
    """What became of a result, the worst first."""

    OVERFLOW = 0
    MISREAD = 1
    BELOW_ZERO = 2


TITLES = {
    Sort.OVERFLOW: "{times} wrapped modulo 2^64",
    Sort.MISREAD: "{times} took numbers below zero for great ones",
    Sort.BELOW_ZERO: "{times} wrapped modulo 2^64, right if these are numbers with a sign",
}


class NoName(Exception):
    """Nothing in a program or its inputs has a name that is said to have signs."""


@dataclass
class Wrap:
    """An operator, or a call of `sum`, with results of a sort: how often, of how many elements, and the first time."""

    node: tree.Node
    sort: Sort
    first: str
    count: int = 0
    elements: int = 0


def with_sign(word: int) -> int:
    return word - WORD_END if word >= HALF else int(word)


@dataclass(frozen=True)
class Result:
    """What an operator makes of some words: without a bound, where none of them has a sign (`whole`) and where all have one (`signed`). `placed` says that 2^63
    is added or taken away, which gives a number with a sign its place in the order of those without."""

    numbers: tuple[int, ...]
    whole: int
    signed: int
    placed: bool = False

    def has_sign(self) -> bool:
        return any(isinstance(one, Signed) for one in self.numbers)

    def word(self) -> tuple[int, Sort | None]:
        """The word for it, and what became of it."""
        word = self.whole & clear.MASK
        if any(isinstance(one, Lost) for one in self.numbers):
            return Lost(word), None
        if self.placed and self.has_sign() or 0 <= self.whole < WORD_END and not self.has_sign():
            return word, None
        if not (self.placed or -HALF <= self.signed < HALF):
            return Lost(word), Sort.OVERFLOW
        return (Signed(word), None) if self.has_sign() else (word, Sort.BELOW_ZERO)

    def sum_text(self) -> str:
        """The result of a sum as it is told."""
        if self.has_sign():
            return str(self.signed)
        has_two = self.whole != self.signed and -HALF <= self.signed < HALF
        return f"{self.whole}, with signs {self.signed}" if has_two else str(self.whole)


def shown_result(operator: str, result: Result, sort: Sort) -> str:
    """A result as it is told: with signs where these make it right."""
    signed = result.has_sign() or sort is Sort.BELOW_ZERO and not result.placed
    left, right = (with_sign(one) if signed else int(one) for one in result.numbers)
    return f"{left} {operator} {right} is {result.signed if signed else result.whole}"


def result_of(operator: str, u: int, v: int) -> Result:
    function = WIDE[operator]
    placed = operator != "*" and any(type(one) is int and one == HALF for one in (u, v))
    return Result((u, v), function(int(u), int(v)), function(with_sign(u), with_sign(v)), placed)


def awaits_signs(node: tree.Node, names) -> bool:
    """Whether what stands in this part is stored in a variable with signs, or cast to the type with signs."""
    match node:
        case tree.Declare():
            return node.name.text in names
        case tree.Assign():
            return node.target.name in names
        case tree.Cast():
            return node.data is clear.Data.SIGNED
    return False


def awaited(program: clear.Runnable, names) -> set[tree.Node]:
    """The operators and calls whose results go straight to variables with signs, or to casts to the type with signs."""
    found, rest = set(), [function.body for function in program.functions.values()]
    while rest:
        node = rest.pop()
        rest.extend(node.children())
        if awaits_signs(node, names):
            value = node.inner if isinstance(node, tree.Cast) else node.value
            while isinstance(value, (tree.Parentheses, tree.Declassify)):
                value = value.inner
            found.add(value)
    return found


class Watched(clear.Evaluation):
    """An evaluation that notes what wraps. Names in `signed`, of inputs, variables and parameters, have words with signs."""

    def __init__(self, program, inputs, budget, signed=()):
        super().__init__(program, inputs, budget, clear.UNBOUNDED)
        self.signed = frozenset(signed)
        self.awaited = awaited(program, self.signed)
        self.found: dict[tuple[Sort, tree.Node], Wrap] = {}

    def add(self, sort: Sort, node, elements: int, firsts: list[str]):
        """Notes results of one operator: the first says what happened."""
        if firsts:
            known = self.found.setdefault((sort, node), Wrap(node, sort, firsts[0]))
            known.count += len(firsts)
            known.elements += elements

    # Names with signs

    def marked(self, name: str, value: clear.Value) -> clear.Value:
        """A value as a variable or input of this name has it."""
        if name not in self.signed or value.type.data is not clear.Data.NUMBER:
            return value
        return replace(value, words=tuple(word if isinstance(word, Lost) else Signed(word) for word in value.words))

    def declaration(self, node, frame):
        super().declaration(node, frame)
        scope = frame.scopes[-1]
        scope[node.name.text] = self.marked(node.name.text, scope[node.name.text])

    def assignment(self, node, frame):
        super().assignment(node, frame)
        if node.target.index is None:
            scope = frame.find(node.target.name)
            scope[node.target.name] = self.marked(node.target.name, scope[node.target.name])

    def stored_word(self, name, word):
        return Signed(word) if name in self.signed and not isinstance(word, Lost) else word

    def enter(self, function, values, bound):
        named = zip(function.parameters, values)
        return super().enter(function, [self.marked(parameter.name.text, value) for parameter, value in named], bound)

    def asked(self, name, wanted, node):
        return self.marked(name, super().asked(name, wanted, node))

    def cast(self, data, value):
        """A number with a sign keeps it as a word of the other type."""
        return super().cast(data, with_signs(value))

    # Results

    def operate(self, operator, left, right, node):
        result = super().operate(operator, left, right, node)
        if left.type.data is clear.Data.TRUTH:
            return result
        left, right = with_signs(left), with_signs(right)
        size = len(result.words)
        pairs = list(zip(left.words if left.type.array else left.words * size, right.words if right.type.array else right.words * size))
        if operator in WIDE:
            return replace(result, words=self.computed(operator, pairs, node))
        if left.type.data is clear.Data.SIGNED:
            return replace(result, words=self.signed_words(operator, pairs, result.words, node))
        if operator in ORDERS:
            self.compared(operator, pairs, node)
        if operator in DIVISIONS:
            return replace(result, words=self.divided(operator, pairs, result.words, node))
        return result

    def signed_words(self, operator, pairs, words, node) -> tuple[int, ...]:
        """The words of a quotient, a rest or a comparison of numbers of the type with a sign: of quotients that of -2^63 by -1 alone wraps."""
        if operator not in DIVISIONS:
            return words
        lost = [isinstance(u, Lost) or isinstance(v, Lost) for u, v in pairs]
        wraps = [operator == "/" and (u, v) == (HALF, clear.MASK) and not known for (u, v), known in zip(pairs, lost)]
        self.add(Sort.OVERFLOW, node, len(pairs), [f"{-HALF} / -1 is {HALF}"] * sum(wraps))
        return tuple(Lost(word) if either or wrapped else word for word, either, wrapped in zip(words, lost, wraps))

    def computed(self, operator, pairs, node) -> tuple[int, ...]:
        """The words of a sum, a difference or a product."""
        words, firsts = [], {sort: [] for sort in Sort}
        for u, v in pairs:
            result = result_of(operator, u, v)
            word, sort = self.kept(result, node)
            words.append(word)
            if sort is not None:
                firsts[sort].append(shown_result(operator, result, sort))
        for sort, said in firsts.items():
            self.add(sort, node, len(pairs), said)
        return tuple(words)

    def kept(self, result: Result, node) -> tuple[int, Sort | None]:
        """The word for a result; one that goes straight to a variable with signs may be below zero."""
        word, sort = result.word()
        return (Signed(word), None) if sort is Sort.BELOW_ZERO and node in self.awaited else (word, sort)

    def compared(self, operator, pairs, node):
        """Numbers with signs are compared as such nowhere: a test of the sign compares with 2^63."""
        function = ORDERS[operator]
        wrong = [
            f"{with_sign(u)} {operator} {with_sign(v)} was taken for {str(function(int(u), int(v))).lower()}"
            for u, v in pairs
            if has_sign(u, v) and HALF not in (u, v) and function(int(u), int(v)) != function(with_sign(u), with_sign(v))
        ]
        self.add(Sort.MISREAD, node, len(pairs), wrong)

    def divided(self, operator, pairs, words, node) -> tuple[int, ...]:
        """A quotient or a rest: of a number below zero it stands for nothing."""
        kept, wrong = [], []
        for (u, v), word in zip(pairs, words):
            below = has_sign(u, v) and min(with_sign(u), with_sign(v)) < 0
            if below:
                wrong.append(f"{with_sign(u)} {operator} {with_sign(v)} was computed as {int(u)} {operator} {int(v)}")
            lost = below or isinstance(u, Lost) or isinstance(v, Lost)
            kept.append(Lost(word) if lost else Signed(word) if has_sign(u, v) else word)
        self.add(Sort.MISREAD, node, len(pairs), wrong)
        return tuple(kept)

    def call(self, node, frame):
        if node.name != "sum" or node.name in self.program.functions:
            return super().call(node, frame)
        operand = self.expression(node.arguments[0], frame)
        self.charge(1)
        words = with_signs(operand).words
        result = Result(words, sum(map(int, words)), sum(map(with_sign, words)))
        word, sort = self.kept(result, node)
        if sort is not None:
            self.add(sort, node, 1, [f"the sum of {len(words)} elements is {result.sum_text()}"])
        number = self.making(lambda made: made.make(clear.Kind.SUM, (operand.number,), 1)) if operand.type.private else None
        return clear.Value(replace(operand.type, array=False), (word,), number)


def with_signs(value: clear.Value) -> clear.Value:
    """A value of a type with a sign has words that are known to have one."""
    if value.type.data is not clear.Data.SIGNED:
        return value
    return replace(value, words=tuple(word if isinstance(word, Lost) else Signed(word) for word in value.words))


def has_sign(u: int, v: int) -> bool:
    """Whether two words are read with signs."""
    return (isinstance(u, Signed) or isinstance(v, Signed)) and not isinstance(u, Lost) and not isinstance(v, Lost)


def names_of(program: tree.Program, inputs) -> set[str]:
    """The names of inputs, variables and parameters."""
    found = {entry.name for entry in inputs}
    for function in program.functions:
        found |= {parameter.name.text for parameter in function.parameters}
        rest = [function.body]
        while rest:
            node = rest.pop()
            rest.extend(node.children())
            if isinstance(node, tree.Declare):
                found.add(node.name.text)
    return found


HINT = "where numbers have signs, their type is int64; else --signed NAME says so of an input or a variable, and of what follows from it"


def told_wraps(path: str, text: bytes, inputs, budget: int, signed=()) -> tuple[str, list[str], str]:
    """The line of the end; a sentence with its place for each operator whose results wrapped, what was lost first; and what may be asked better, or nothing."""
    whole = verdict.judge(text).program
    known = names_of(whole, inputs)
    for name in signed:
        if name not in known:
            near = get_close_matches(name, known, 1, 0.6)
            raise NoName(f"no input and no variable is called `{name}`" + (f"; is `{near[0]}` meant?" if near else ""))
    evaluation = Watched(clear.runnable_of(whole, text), inputs, budget, signed)
    end = evaluation.report().end_line()
    found = sorted(evaluation.found.values(), key=lambda wrap: (wrap.sort, wrap.node.place))
    return end, [sentence(wrap, path, text) for wrap in found], HINT if any(wrap.sort is Sort.BELOW_ZERO for wrap in found) else ""


def sentence(wrap: Wrap, path: str, text: bytes) -> str:
    spot = spot_at(path, text, wrap.node.place)
    name = "`sum`" if isinstance(wrap.node, tree.Call) else f"`{wrap.node.operator}`"
    times = f"{wrap.count} of {wrap.elements} results of {name}" if wrap.elements > 1 else f"the result of {name}"
    return "\n".join([f"{path}, line {spot.line}: {TITLES[wrap.sort].format(times=times)}; the first: {wrap.first}", *spot.shown()])
