"""Random programs over the whole language that keep the rules of types, with inputs for them."""
from __future__ import annotations

import random
from collections.abc import Callable, Iterator
from dataclasses import dataclass, field, replace
from itertools import product

from checker import BROUGHT_BY, PUBLIC, Type
from clear import Input, dealer_need
from directed_runs import Limited, whole_report
from gates import MASK
from parser import LEVEL_OF, LEVELS
from runs import Case, random_input, random_word
from tree import Data

NUMBER, SIGNED, TRUTH = Data.NUMBER, Data.SIGNED, Data.TRUTH
COUNT, FLAG = Type(PUBLIC, NUMBER, 0), Type(PUBLIC, TRUTH, 0)
UNARY, POSTFIX, PRIMARY = len(LEVELS), len(LEVELS) + 1, len(LEVELS) + 2
COMPARING = tuple((sign, data) for sign in ("==", "!=", "<", "<=", ">", ">=") for data in (NUMBER, SIGNED))
TRUTH_SIGNS = tuple((sign, TRUTH) for sign in ("&&", "||", "&", "|", "^", "==", "!="))
RING_SIGNS = "+-*"
PUBLIC_SIGNS = {NUMBER: "/%&|^", SIGNED: "/%"}
WORDS = {NUMBER: ("uint64", "uint64", "uint"), SIGNED: ("int64", "int64", "int"), TRUTH: ("bool",)}
LENGTHS = (0, 1, 1, 2, 2, 3, 3, 4, 5, 8)
LONG_LENGTHS = (31, 32, 33, 40, 64, 65, 100, 200, 511, 513)
OTHER_NAMES = ("size", "sum", "cat", "p", "D", "main", "f0", "shared3p", "stdlib", "bitExtract", "lookup")
TOO_LARGE = "1048577"
EXPRESSION_LIMIT, STATEMENT_LIMIT = 700, 500
BUDGETS_OF_ONE, SMALL_COST = 2, 12


class NoWay(Exception):
    """Nothing of this type can be made here."""


@dataclass(frozen=True)
class Text:
    """An expression, and the level of its outermost operator."""

    words: str
    level: int = PRIMARY


@dataclass(frozen=True)
class Held:
    """A variable: its type, whether its length is the usual one, and whether its value must stay."""

    name: str
    type: Type
    usual: bool = True
    fixed: bool = False


@dataclass(frozen=True)
class Head:
    """A function's head as calls see it."""

    name: str
    variables: tuple[str, ...] = ()
    constrained: frozenset[str] = frozenset()
    result: Type | None = None
    parameters: tuple[tuple[Type, str], ...] = ()
    recursive: bool = False


@dataclass
class Plan:
    """What is fixed for a whole program; `storing` has it store into longer arrays above all."""

    domains: list[str]
    imports: tuple[str, ...]
    length: int
    trapping: float
    private: float
    storing: bool
    inputs: list[Input] = field(default_factory=list)

    def knows(self, builtin: str) -> bool:
        """Whether a function comes with the imports."""
        return any(builtin in BROUGHT_BY[name] for name in self.imports)


class Expressions:
    """Makes the expressions of one function."""

    def __init__(self, plan: Plan, source: random.Random, head: Head, callees: list[Head]):
        self.plan, self.source, self.head, self.callees = plan, source, head, callees
        self.blocks = [[Held(name, kind, True, head.recursive and name == "n") for kind, name in head.parameters]]
        self.loops = self.made = self.names = 0
        self.recursed = False

    # Choices

    def often(self, share: float) -> bool:
        return self.source.random() < share

    def trap_here(self) -> bool:
        """Whether a trap may be laid here."""
        return self.often(self.plan.trapping)

    def domains(self) -> list[str]:
        """The private domains and the domain variables that are known here."""
        return [*self.plan.domains, *self.head.variables]

    def known(self) -> list[Held]:
        """The variables that are not hidden."""
        found = {held.name: held for block in self.blocks for held in block}
        return list(found.values())

    def random_type(self, array_share: float = 0.35) -> Type:
        domain = self.source.choice(self.domains()) if self.domains() and self.often(self.plan.private) else PUBLIC
        return Type(domain, self.source.choice((NUMBER, NUMBER, SIGNED, TRUTH, TRUTH)), int(self.often(array_share)))

    def wanted(self, kind: Type) -> Type:
        """The type of a value for a place of this type: a public one may stand for a private one."""
        return replace(kind, domain=PUBLIC) if self.often(0.3) else kind

    def wrapped(self, text: Text, level: int) -> str:
        """An operand that must have at least this level."""
        return f"( {text.words} )" if text.level < level or self.often(0.06) else text.words

    # Expressions; `usual` asks for an array of the usual length

    def expression(self, kind: Type, depth: int, usual: bool = True) -> Text:
        """An expression of exactly this type."""
        self.made += 1
        if self.plan.storing and self.often(0.6):
            depth = min(depth, 1)
        if depth > 0 and self.made <= EXPRESSION_LIMIT and not self.often(0.12):
            makers = self.makers(kind, usual)
            for _ in range(6):
                try:
                    return self.source.choice(makers)(kind, depth - 1, usual)
                except NoWay:
                    continue
        return self.leaf(kind, depth, usual)

    def words(self, kind: Type, depth: int, usual: bool = True) -> str:
        """An expression where brackets or signs around it keep it whole."""
        return self.expression(kind, depth, usual).words

    def makers(self, kind: Type, usual: bool) -> list[Callable[[Type, int, bool], Text]]:
        """The ways to make an expression of this type."""
        makers = [self.leaf, self.operator, self.operator, self.operator, self.operator, self.cast, self.call, self.call]
        if not kind.private:
            makers.append(self.opened)
        if kind.data is TRUTH:
            makers.append(self.flip)
        if not kind.dimension:
            makers.append(self.element)
            if kind.data.is_number:
                makers.append(self.total if kind.private or kind.data is SIGNED or self.often(0.5) else self.size)
        elif not usual:
            makers += [self.joined, self.joined] + ([self.bits] if kind.data is TRUTH else [])
        if kind.private and kind.data.is_number:
            makers.append(self.looked_up)
        return makers

    def literal(self, data: Data) -> Text:
        """A literal; of a number with a sign one behind a cast."""
        if data is TRUTH:
            return Text(self.source.choice(("true", "false")))
        word = random_word(self.source) if self.often(0.4) else self.source.randrange(5)
        shown = f"0x{word:x}" if self.often(0.1) else str(word)
        return Text(shown) if data is NUMBER else Text(f"( {self.source.choice(WORDS[SIGNED])} ) {shown}", UNARY)

    def leaf(self, kind: Type, depth: int, usual: bool) -> Text:
        """A variable, or something small."""
        found = [held for held in self.known() if held.type == kind and (held.usual or not usual)]
        if found and (kind != replace(kind, domain=PUBLIC, dimension=0) or self.often(0.7)):
            return Text(self.source.choice(found).name)
        if not kind.private and not kind.dimension:
            return self.literal(kind.data)
        known = self.known()
        for held in self.source.sample(known, len(known)):
            if held.type.private and replace(held.type, domain=PUBLIC) == kind and (held.usual or not usual):
                return Text(f"declassify ( {held.name} )")
            if held.type == replace(kind, dimension=1) and not kind.dimension and self.plan.length and held.usual:
                return Text(f"{held.name} [ {self.source.randrange(self.plan.length)} ]", POSTFIX)
        raise NoWay

    def operator(self, kind: Type, depth: int, usual: bool) -> Text:
        """Two operands, of which one has the domain and one the dimension, and the operator between them."""
        choice = self.source.choice
        if kind.data is TRUTH:
            sign, data = choice(TRUTH_SIGNS + COMPARING)
        else:
            sign, data = choice(RING_SIGNS if kind.private else RING_SIGNS + PUBLIC_SIGNS[kind.data]), kind.data
        domains = choice(((kind.domain, kind.domain), (kind.domain, PUBLIC), (PUBLIC, kind.domain)))
        dimensions = choice(((1, 1), (1, 0), (0, 1))) if kind.dimension else (0, 0)
        alike = usual or not self.trap_here()
        left, right = (self.expression(Type(domain, data, one), depth, alike) for domain, one in zip(domains, dimensions))
        if sign in "/%":
            right = self.divisor(right, dimensions[1], data)
        level = LEVEL_OF[sign]
        return Text(f"{self.wrapped(left, level)} {sign} {self.wrapped(right, level + 1)}", level)

    def divisor(self, text: Text, dimension: int, data: Data) -> Text:
        """A divisor, in which mostly no element is 0."""
        if self.trap_here():
            return text
        if data is SIGNED:
            return Text(f"( int64 ) ( ( uint64 ) {self.wrapped(text, UNARY)} | {self.source.choice((1, MASK))} )", UNARY)
        if not dimension and self.often(0.5):
            return Text(str(self.source.choice((1, 2, 3, 7, MASK))))
        return Text(f"{self.wrapped(text, LEVEL_OF['|'])} | 1", LEVEL_OF["|"])

    def cast(self, kind: Type, depth: int, usual: bool) -> Text:
        inner = self.expression(replace(kind, data=self.source.choice(tuple(Data))), depth, usual)
        return Text(f"( {self.source.choice(WORDS[kind.data])} ) {self.wrapped(inner, UNARY)}", UNARY)

    def flip(self, kind: Type, depth: int, usual: bool) -> Text:
        return Text(f"! {self.wrapped(self.expression(kind, depth, usual), UNARY)}", UNARY)

    def opened(self, kind: Type, depth: int, usual: bool) -> Text:
        """What is private, opened; rarely what is public."""
        domain = self.source.choice(self.domains()) if self.domains() and self.often(0.9) else PUBLIC
        return Text(f"declassify ( {self.words(replace(kind, domain=domain), depth, usual)} )")

    def element(self, kind: Type, depth: int, usual: bool) -> Text:
        array = self.expression(replace(kind, dimension=1), depth)
        return Text(f"{self.wrapped(array, PRIMARY)} [ {self.index(depth)} ]", POSTFIX)

    def index(self, depth: int) -> str:
        """An index, mostly one that is there."""
        if self.trap_here():
            return self.words(COUNT, min(depth, 2))
        if self.plan.length == 0:
            raise NoWay
        if self.often(0.75):
            return str(self.source.randrange(self.plan.length))
        return f"{self.wrapped(self.expression(COUNT, min(depth, 2)), LEVEL_OF['%'])} % {self.plan.length}"

    def total(self, kind: Type, depth: int, usual: bool) -> Text:
        if not self.plan.knows("sum"):
            raise NoWay
        return Text(f"sum ( {self.words(replace(kind, dimension=1), depth, self.often(0.5))} )")

    def size(self, kind: Type, depth: int, usual: bool) -> Text:
        return Text(f"size ( {self.words(self.random_type(1.0), min(depth, 1), False)} )")

    def joined(self, kind: Type, depth: int, usual: bool) -> Text:
        """Two arrays in a row."""
        domains = self.source.choice(((kind.domain, kind.domain), (kind.domain, PUBLIC), (PUBLIC, kind.domain)))
        parts = [self.words(replace(kind, domain=domain), depth, self.often(0.6)) for domain in domains]
        return Text(f"cat ( {parts[0]} , {parts[1]} )")

    def bits(self, kind: Type, depth: int, usual: bool) -> Text:
        if not self.plan.knows("bitExtract") or self.often(0.6):
            raise NoWay
        return Text(f"bitExtract ( {self.words(Type(kind.domain, NUMBER, int(self.often(0.4))), min(depth, 1))} )")

    def looked_up(self, kind: Type, depth: int, usual: bool) -> Text:
        """Elements of an array at places, of which one is private at least, whatever a domain variable stands for."""
        if not self.plan.knows("lookup") or kind.domain not in (*self.plan.domains, *self.head.constrained):
            raise NoWay
        array, index = self.source.choice(((kind.domain, kind.domain), (kind.domain, PUBLIC), (PUBLIC, kind.domain)))
        elements = self.words(Type(array, kind.data, 1), min(depth, 1), self.often(0.5))
        places = self.words(Type(index, NUMBER, kind.dimension), min(depth, 1), usual)
        return Text(f"lookup ( {elements} , {places} )")

    # Calls

    def call(self, kind: Type | None, depth: int, usual: bool) -> Text:
        """A call of a function that gives this type; None is for a call whose result does not matter."""
        heads = [head for head in self.callees if self.fits(head, kind)]
        if kind is not None and kind.dimension and usual:
            heads = [head for head in heads if self.often(0.5)]
        if not heads:
            raise NoWay
        return self.call_of(self.source.choice(heads), kind, depth)

    def fits(self, head: Head, kind: Type | None) -> bool:
        """Whether a call of this function may stand here and give this type."""
        if head is self.head and (self.recursed or self.loops):
            return False
        if kind is None:
            return True
        if head.result is None or replace(head.result, domain=kind.domain) != kind:
            return False
        if head.result.domain in head.variables:
            return self.may_bind(head, head.result.domain, kind.domain)
        return head.result.domain == kind.domain

    def may_bind(self, head: Head, variable: str, domain: str) -> bool:
        """Whether a function's domain variable may be bound to what is a domain here."""
        return variable not in head.constrained or domain in self.plan.domains or domain in self.head.constrained

    def call_of(self, head: Head, kind: Type | None, depth: int) -> Text:
        """A call of this function."""
        bound = {}
        for variable in head.variables:
            choices = [domain for domain in (*self.domains(), PUBLIC) if self.may_bind(head, variable, domain)]
            if not choices:
                raise NoWay
            bound[variable] = self.source.choice(choices)
        if kind is not None and head.result.domain in bound:
            bound[head.result.domain] = kind.domain
        self.recursed = self.recursed or head is self.head
        return Text(f"{head.name} ( {' , '.join(self.arguments(head, bound, depth))} )")

    def arguments(self, head: Head, bound: dict[str, str], depth: int) -> list[str]:
        """Arguments, of which for each domain variable one at least has what it is bound to."""
        arguments, settled = [], set()
        for place, (kind, _) in enumerate(head.parameters):
            if place == 0 and head.recursive:
                turns = str(self.source.choice((61, 62, 63, 64, 70)) if self.trap_here() else self.source.randrange(4))
                arguments.append(f"{head.parameters[0][1]} - 1" if head is self.head else turns)
                continue
            wanted = replace(kind, domain=bound.get(kind.domain, kind.domain))
            later = any(other.domain == kind.domain for other, _ in head.parameters[place + 1:])
            given = wanted if kind.domain in bound and kind.domain not in settled and not later else self.wanted(wanted)
            if given.private:
                settled.add(kind.domain)
            arguments.append(self.words(given, min(depth, 2), not self.trap_here()))
        return arguments


class Body(Expressions):
    """Makes the statements of one function."""

    def type_text(self, kind: Type) -> str:
        """A type as one of the ways to write it."""
        domain = kind.domain + " " if kind.private or self.often(0.15) else ""
        word = self.source.choice(WORDS[kind.data])
        dimension = " [ [ 1 ] ]" if kind.dimension else " [ [ 0 ] ]" if self.often(0.05) else ""
        return domain + word + dimension

    def block(self, depth: int, count: int = 4, first: str = "") -> str:
        """Less than so many statements in braces, in a scope of their own."""
        self.blocks.append([])
        inner = " ".join(self.statement(depth) for _ in range(self.source.randrange(count)))
        self.blocks.pop()
        return f"{{ {first} {inner} }}"

    def branch(self, depth: int) -> str:
        """A branch or a loop's body: mostly in braces."""
        if self.often(0.7):
            return self.block(depth)
        self.blocks.append([])
        made = self.statement(depth, True)
        self.blocks.pop()
        return made

    def statement(self, depth: int, alone: bool = False) -> str:
        """Any statement; `alone` leaves out those that are two."""
        simple = [self.declaration] * 4 + [self.asked] + [self.assignment] * 5 + [self.publish] * 4 + [self.element_store] * 3
        simple += [self.assertion, self.bare_expression, self.bare_call, self.bare_call, str]
        if self.plan.storing:
            simple += [self.element_store] * 20 + [self.array_copy] * 8 + [self.bare_call] * 3
        nested = [self.leave] * 2 if self.loops and not (self.plan.storing and self.often(0.8)) else []
        if depth > 0 and self.made < STATEMENT_LIMIT:
            nested += [self.choice] * 3 + [self.counted_loop] * 2 + [self.block]
            nested += [] if alone else [self.own_loop] * 3
        if self.often(0.02):
            return self.returned()
        for _ in range(5):
            place = self.source.randrange(len(simple) + len(nested))
            made = self.tried(lambda: f"{simple[place]()} ;" if place < len(simple) else nested[place - len(simple)](depth - 1))
            if made is not None:
                return made
        return ";"

    def tried(self, maker: Callable[[], str]) -> str | None:
        """What this makes; where it cannot, all is as before."""
        before = [list(block) for block in self.blocks], self.loops, self.recursed
        try:
            return maker()
        except NoWay:
            self.blocks, self.loops, self.recursed = before
            return None

    def new_name(self, letter: str = "") -> str:
        """A name that the innermost block has not; perhaps one that hides another, or is known as something else."""
        self.names += 1
        if letter:
            return f"{letter}{self.names}"
        known = {held.name: held for held in self.known()}
        hidden = [name for name, held in known.items() if not held.fixed and held not in self.blocks[-1]]
        if hidden and len(self.blocks) > 1 and self.often(0.25):
            return self.source.choice(hidden)
        name = self.source.choice(OTHER_NAMES)
        return name if self.often(0.04) and name not in known else f"{self.source.choice(('v', '_w', 'X', 'size_'))}{self.names}"

    # Simple statements, without their semicolons

    def declaration(self) -> str:
        """A declaration without an input."""
        kind, name, roll = self.random_type(), self.new_name(), self.source.random()
        usual = not kind.dimension or self.often(0.8)
        if kind.dimension and roll < 0.4:
            value = self.filled(kind, usual)
        elif roll < 0.15:
            usual, value = not kind.dimension or self.plan.length == 0, ""
        else:
            value = f" = {self.words(self.wanted(kind), 3, usual)}"
        return self.held(Held(name, kind, usual), value)

    def held(self, held: Held, value: str) -> str:
        """A declaration of what is known from here on."""
        self.blocks[-1].append(held)
        return f"{self.type_text(held.type)} {held.name}{value}"

    def filled(self, kind: Type, usual: bool) -> str:
        """A size, and perhaps a value."""
        size = str(self.plan.length) if usual else str(self.source.randrange(6))
        if not usual and self.often(0.3):
            size = TOO_LARGE if self.trap_here() else f"{self.wrapped(self.expression(COUNT, 1), LEVEL_OF['%'])} % 5"
        value = f" = {self.words(self.wanted(replace(kind, dimension=0)), 2)}" if self.often(0.6) else ""
        return f" ( {size} ){value}"

    def asked(self) -> str:
        """A declaration by an input, mostly of its type."""
        if not self.plan.inputs:
            raise NoWay
        entry, kind = self.source.choice(self.plan.inputs), self.random_type()
        name = entry.name
        if self.trap_here() and self.often(0.2):
            name = self.source.choice((name, "none"))
        elif entry.type.private and not self.plan.domains:
            raise NoWay
        else:
            domain = self.source.choice(self.plan.domains) if entry.type.private else PUBLIC
            kind = Type(domain, entry.type.data, int(entry.type.array))
        usual = not kind.dimension or len(entry.words) == self.plan.length
        return self.held(Held(self.new_name(), kind, usual), f' = argument ( "{name}" )')

    def first_declarations(self) -> list[str]:
        """Declarations at a body's beginning: of most types, and by some inputs."""
        share, array_share = (0.15, 0.6) if self.plan.storing else (0.7, 0.7) if self.head.name == "main" else (0.45, 0.45)
        made = []
        for domain, data, dimension in product((PUBLIC, *self.domains()), Data, (0, 1)):
            kind = Type(domain, data, dimension)
            if self.often(array_share if dimension else share) or kind == self.head.result:
                size = f" ( {self.plan.length} )" if dimension else ""
                made.append(self.held(Held(self.new_name("s"), kind), f"{size} = {self.literal(data).words} ;"))
        return made + [f"{self.tried(self.asked) or ''} ;" for _ in self.plan.inputs]

    def changeable(self, array: bool = False) -> Held:
        """A variable that may be changed."""
        found = [held for held in self.known() if not held.fixed and (held.type.dimension or not array)]
        if not found:
            raise NoWay
        return self.source.choice(found)

    def assignment(self) -> str:
        held = self.changeable()
        return f"{held.name} {self.stored(held.type, held.usual)}"

    def array_copy(self) -> str:
        """An array stored into another one as it is, or cast to the type that it has."""
        held = self.changeable(True)
        value = self.leaf(self.wanted(held.type), 0, held.usual)
        cast = f"( {held.type.data.value} ) " if self.often(0.2) else ""
        return f"{held.name} = {cast}{self.wrapped(value, UNARY)}"

    def stored(self, kind: Type, usual: bool) -> str:
        """The sign of an assignment, and what is stored."""
        if self.often(0.5):
            return f"= {self.words(self.wanted(kind), 3, usual or self.often(0.5))}"
        bitwise = kind.data is TRUTH or kind.data is NUMBER and not kind.private and self.often(0.3)
        signs = ("&=", "|=", "^=") if bitwise else ("+=", "-=", "*=", "++", "--")
        sign = self.source.choice(signs[:3] if kind.data is SIGNED else signs)
        if sign in ("++", "--"):
            return sign
        operand = replace(kind, dimension=kind.dimension and int(self.often(0.6)))
        return f"{sign} {self.words(self.wanted(operand), 2, usual or not self.trap_here())}"

    def element_store(self) -> str:
        held = self.changeable(True)
        if not held.usual and not self.trap_here():
            raise NoWay
        return f"{held.name} [ {self.index(1)} ] {self.stored(replace(held.type, dimension=0), True)}"

    def publish(self) -> str:
        kind = self.random_type(0.8 if self.plan.storing else 0.35)
        return f'publish ( "{self.source.choice(("x", "y", "result", "Z_9", "7"))}" , {self.words(kind, 3, self.often(0.6))} )'

    def assertion(self) -> str:
        """An `assert`, mostly of what is true."""
        inner = self.expression(FLAG, 2)
        return f"assert ( {inner.words if self.trap_here() else self.wrapped(inner, LEVEL_OF['||']) + ' || true'} )"

    def bare_expression(self) -> str:
        return self.words(self.random_type(), 3, self.often(0.5))

    def bare_call(self) -> str:
        return self.call(None, 2, False).words

    # Returns, choices and loops

    def returned(self) -> str:
        """A `return` as the function wants it."""
        kind = self.head.result
        if kind is None:
            return "return ;"
        try:
            return f"return {self.words(self.wanted(kind), 3, not self.trap_here())} ;"
        except NoWay:
            return f"return {self.words(kind, 0, False)} ;"

    def choice(self, depth: int) -> str:
        """An `if`, perhaps with more of them after, and a last `else`."""
        made = f"if ( {self.words(FLAG, 2)} ) {self.branch(depth)}"
        while self.often(0.3):
            made += f" else if ( {self.words(FLAG, 2)} ) {self.block(depth, 3)}"
        return made + (f" else {self.branch(depth)}" if self.often(0.5) else "")

    def leave(self, depth: int) -> str:
        """`break` or `continue`, mostly under a condition."""
        word = self.source.choice(("break", "continue"))
        return f"{word} ;" if self.often(0.2) else f"if ( {self.words(FLAG, 2)} ) {word} ;"

    def loop_body(self, depth: int, first: str = "") -> str:
        """A loop's body, which begins with what ends the loop."""
        self.loops += 1
        made = self.branch(depth) if not first and self.often(0.4) else self.block(depth, 3, first)
        self.loops -= 1
        return made

    def counted_loop(self, depth: int) -> str:
        """A `for` that counts."""
        self.blocks.append([])
        name = self.new_name("i")
        first = self.held(Held(name, COUNT, True, True), self.source.choice(("", " = 0")))
        bound = self.source.randrange(4) if self.often(0.8) else self.plan.length % 9
        step = self.source.choice((f"{name} ++", f"{name} += 1", f"{name} = {name} + 1"))
        test = self.source.choice((f"{name} < {bound}", f"{bound} > {name}", f"{name} != {bound}"))
        made = f"for ( {first} ; {test} ; {step} ) {self.loop_body(depth)}"
        self.blocks.pop()
        return made

    def own_loop(self, depth: int) -> str:
        """A loop that counts first thing in its body: a `while`, a `do`, or a `for` that is left by `break`."""
        name, turns, form = self.new_name("i"), self.source.randrange(4), self.source.randrange(3)
        first = self.held(Held(name, COUNT, True, True), f" = {turns}" if form == 0 else "")
        if form == 0:
            more = f" && {self.wrapped(self.expression(FLAG, 1), LEVEL_OF['&&'] + 1)}" if self.often(0.4) else ""
            return f"{first} ; while ( {name} != 0{more} ) {self.loop_body(depth, f'{name} -- ;')}"
        if form == 1:
            return f"{first} ; do {self.loop_body(depth, f'{name} ++ ;')} while ( {name} < {turns} ) ;"
        begin, test = self.source.choice((str, self.assignment))(), self.source.choice(("", "", "true"))
        step = self.source.choice((str, self.publish, self.assignment, self.bare_expression))()
        body = self.loop_body(depth, f"if ( {name} == {turns} ) break ; {name} ++ ;")
        return f"{first} ; for ( {begin} ; {test} ; {step} ) {body}"


class ProgramMaker:
    """Makes a whole program and its inputs."""

    def __init__(self, source: random.Random):
        self.source = source
        domains = source.choice(([], ["p"], ["p"], ["p", "q"], ["p", "q", "r"]))
        imports = source.choice((("stdlib", "shared3p"), ("stdlib", "shared3p"), ("shared3p",), ("stdlib",), ()))
        storing = source.random() < 0.25
        self.plan = Plan(
            domains, imports, source.choice(LONG_LENGTHS if storing else LENGTHS), source.choice((0.0, 0.01, 0.03, 0.1)),
            0.8 if storing else source.choice((0.3, 0.6, 0.8)), storing,
        )
        for _ in range(source.randrange(6)):
            size = self.plan.length if source.random() < 0.85 else source.randrange(5)
            self.plan.inputs.append(random_input(source, self.plan.inputs, size))

    def first_items(self) -> list[str]:
        """The imports, or else the kind, and the domains."""
        kind = [] if "shared3p" in self.plan.imports else ["kind shared3p ;"]
        return [*(f"import {name} ;" for name in self.plan.imports), *kind, *(f"domain {name} shared3p ;" for name in self.plan.domains)]

    def shape(self) -> tuple[Data, int]:
        """A data type and a dimension."""
        array = self.source.random() < (0.7 if self.plan.storing else 0.35)
        return self.source.choice((NUMBER, NUMBER, SIGNED, TRUTH, TRUTH)), int(array)

    def head(self, number: int) -> Head:
        """A function's head; one that calls itself counts down by its first parameter."""
        source = self.source
        variables = ("D", "E", "F", "G")[: source.choice((0, 0, 0, 0, 0, 1, 1, 1, 2, 2, 3, 4))]
        constrained = frozenset(name for name in variables if self.plan.domains and source.random() < 0.25)
        domains = [PUBLIC, *self.plan.domains, *variables]
        recursive = source.random() < 0.2
        chosen = [*variables, *(source.choice(domains) for _ in range(source.randrange(3)))]
        source.shuffle(chosen)
        parameters = [(COUNT, "n")] if recursive else []
        parameters += [(Type(domain, *self.shape()), f"t{place}") for place, domain in enumerate(chosen)]
        result = Type(source.choice(domains), *self.shape()) if source.random() < 0.75 else None
        return Head(f"f{number}", variables, constrained, result, tuple(parameters), recursive)

    def function(self, head: Head, callees: list[Head]) -> str:
        """A whole function."""
        body = Body(self.plan, self.source, head, callees + ([head] if head.recursive else []))
        statements = body.first_declarations()
        if head.recursive:
            statements.append(f"if ( n == 0 ) {body.returned()}")
        count = self.source.randrange(2, 16) if head.name == "main" else self.source.randrange(1, 5)
        statements += [body.statement(2) for _ in range(count)]
        if head.recursive and not body.recursed:
            statements.append((body.tried(lambda: body.call_of(head, None, 1).words) or "") + " ;")
        if head.result is not None or self.source.random() < 0.1:
            statements.append(body.returned())
        return f"{self.head_text(head, body)} {{ {' '.join(statements)} }}"

    def head_text(self, head: Head, body: Body) -> str:
        """What stands before a function's body."""
        variables = [f"domain {name}" + (" : shared3p" if name in head.constrained else "") for name in head.variables]
        template = f"template < {' , '.join(variables)} > " if variables else ""
        parameters = " , ".join(f"{body.type_text(kind)} {name}" for kind, name in head.parameters)
        return f"{template}{body.type_text(head.result) if head.result else 'void'} {head.name} ( {parameters} )"

    def case(self) -> Case:
        """A program and its inputs."""
        heads = [self.head(number) for number in range(self.source.choice((0, 0, 1, 2, 3, 4)))]
        items = self.first_items() + [self.function(head, heads[place + 1:]) for place, head in enumerate(heads)]
        items.append(self.function(Head("main"), heads))
        self.source.shuffle(items)
        self.source.shuffle(self.plan.inputs)
        share = self.source.choice((0.02, 0.1, 0.4))
        text = "".join("\n" if letter == " " and self.source.random() < share else letter for letter in "\n".join(items))
        return Case(text + "\n", self.plan.inputs)


def random_case(source: random.Random) -> Case:
    """A program and its inputs, made anew until one can be made."""
    while True:
        try:
            return ProgramMaker(source).case()
        except NoWay:
            continue


def budgets(source: random.Random, cost: int) -> list[int]:
    """Budgets about a cost, all of them where it is small."""
    if cost <= SMALL_COST:
        return list(range(cost + 2))
    return [0, 1, *sorted(source.randrange(2, cost - 1) for _ in range(3)), cost - 1, cost, cost + 1]


def cases(source: random.Random, count: int) -> Iterator[Case]:
    """So many cases: each program with the usual budget, and with some about its cost."""
    while count > 0:
        case = random_case(source)
        made = budgets(source, whole_report(case).cost)
        for budget in [None, *source.sample(made, min(BUDGETS_OF_ONE, count - 1))]:
            yield Case(case.program, case.inputs, budget)
            count -= 1


def scarce(source: random.Random, count: int) -> Iterator[Limited]:
    """So many cases: each program with budgets about its cost, and with tapes that suffice or are short by one word at one owner."""
    while count > 0:
        case = random_case(source)
        report = whole_report(case)
        needs = [dealer_need(case.inputs), *report.needs[1:]]
        made = [Limited(Case(case.program, case.inputs, budget), needs) for budget in budgets(source, report.cost)]
        for party in range(4):
            if needs[party]:
                made.append(Limited(case, [*needs[:party], needs[party] - 1, *needs[party + 1:]]))
        yield from made[:count]
        count -= len(made)
