"""The rules of types: all refusals of a tree, and what each call of an accepted one reaches."""

from dataclasses import dataclass, field

from tree import (
    Argument, Assert, Assign, Binary, Block, Call, Cast, Data, Declare, Declassify, DoWhile, Evaluate, Flip, For, Function, If, Index,
    Node, Number, Parentheses, Place, Program, Publish, Return, Truth, TypeName, Variable, While, Word,
)

PUBLIC = "public"
KNOWN_KIND = "shared3p"
ALWAYS_THERE = {"size": 1, "cat": 2}
BROUGHT_BY = {"stdlib": {"sum": 1}, "shared3p": {"sum": 1, "bitExtract": 1, "lookup": 2}}
ARITHMETIC = frozenset("+ - * / %".split())
DIVISIONS = frozenset("/ %".split())
EQUALITIES = frozenset("== !=".split())
ORDERINGS = frozenset("< <= > >=".split())
BITWISE = frozenset("& | ^".split())


@dataclass(frozen=True)
class Type:
    """The type of a value: its domain, data type and dimension."""

    domain: str
    data: Data
    dimension: int

    @property
    def private(self) -> bool:
        return self.domain != PUBLIC


VOID = "void"
Typing = Type | str | None


@dataclass(frozen=True)
class Instance:
    """A function of the program under a binding of its domain variables."""

    number: int
    binding: tuple[str, ...]


@dataclass
class Findings:
    """The refusals so far, templates that were called, and instances with what they call."""

    refusals: set[tuple[int, int]] = field(default_factory=set)
    called: set[int] = field(default_factory=set)
    calls: dict[Instance, dict[Call, Instance]] = field(default_factory=dict)
    waiting: list[Instance] = field(default_factory=list)

    def refuse(self, number: int, place: int) -> None:
        self.refusals.add((place, number))

    def reach(self, instance: Instance) -> None:
        if instance not in self.calls:
            self.calls[instance] = {}
            self.waiting.append(instance)


class Names:
    """What a program declares: domains, kinds and functions."""

    def __init__(self, program: Program, findings: Findings):
        imports = {word.text for word in program.imports}
        self.brings_kind = KNOWN_KIND in imports
        self.kind_known = self.brings_kind or any(word.text == KNOWN_KIND for word in program.kinds)
        self.builtins = dict(ALWAYS_THERE)
        for name in imports:
            self.builtins.update(BROUGHT_BY.get(name, {}))
        self.domains = {name.text for name, _ in program.domains}
        self.declared = sorted(
            [word for word in program.kinds] + [name for name, _ in program.domains], key=lambda word: word.place
        )
        self.functions: dict[str, int] = {}
        self.imports_told(program, findings)
        self.spaces_told(program, findings)
        self.functions_told(program, findings)

    def imports_told(self, program: Program, findings: Findings) -> None:
        for word in program.imports:
            if word.text not in BROUGHT_BY:
                findings.refuse(12, word.place)

    def spaces_told(self, program: Program, findings: Findings) -> None:
        """The refusals of kinds and domains."""
        for word in program.kinds:
            if word.text != KNOWN_KIND:
                findings.refuse(1, word.place)
        for _, kind in program.domains:
            if not (kind.text == KNOWN_KIND and self.kind_known):
                findings.refuse(1, kind.place)
        seen = {KNOWN_KIND} if self.brings_kind else set()
        for word in self.declared:
            if word.text in seen:
                findings.refuse(2, word.place)
            seen.add(word.text)

    def functions_told(self, program: Program, findings: Findings) -> None:
        """The refusals of names of functions."""
        for number, function in enumerate(program.functions):
            name = function.name.text
            if name in self.builtins or name in self.functions:
                findings.refuse(2, function.name.place)
            self.functions.setdefault(name, number)
        if not any(is_main(function) for function in program.functions):
            findings.refuse(11, program.end)


def is_main(function: Function) -> bool:
    """Whether this is a plain `void main()` without parameters."""
    return function.name.text == "main" and not function.variables and function.result is None and not function.parameters


def head_told(function: Function, names: Names, findings: Findings) -> None:
    """What the head of a template that is called is refused for without a binding."""
    used = {parameter.type.domain.text for parameter in function.parameters if parameter.type.domain is not None}
    seen = set()
    for variable in function.variables:
        name, place = variable.name.text, variable.name.place
        if variable.kind is not None and not (variable.kind.text == KNOWN_KIND and names.kind_known):
            findings.refuse(1, variable.kind.place)
        if name in seen or (names.brings_kind and name == KNOWN_KIND):
            findings.refuse(2, place)
        seen.add(name)
        for word in names.declared:
            if word.text == name:
                findings.refuse(2, max(word.place, place))
        if name not in used:
            findings.refuse(3, place)


def always_returns(statement: Node) -> bool:
    """Whether a statement returns by its form."""
    if isinstance(statement, Return):
        return True
    if isinstance(statement, Block):
        return any(always_returns(inner) for inner in statement.statements)
    if isinstance(statement, If):
        return statement.otherwise is not None and always_returns(statement.then) and always_returns(statement.otherwise)
    return False


class BodyChecker:
    """The types of one function under one binding."""

    def __init__(self, program: Program, names: Names, findings: Findings, instance: Instance):
        self.program = program
        self.names = names
        self.findings = findings
        self.instance = instance
        self.function = program.functions[instance.number]
        self.binding: dict[str, str] = {}
        for variable, domain in zip(self.function.variables, instance.binding):
            self.binding.setdefault(variable.name.text, domain)
        self.scopes: list[dict[str, Type | None]] = []
        self.result: Type | None = None

    # Names

    def refuse(self, number: int, place: int) -> None:
        self.findings.refuse(number, place)

    def resolve(self, written: TypeName) -> Type | None:
        """The type that is written, or None where its domain is unknown, which is told."""
        if written.domain is None:
            return Type(PUBLIC, written.data, written.dimension)
        name = written.domain.text
        if name in self.binding:
            return Type(self.binding[name], written.data, written.dimension)
        if name in self.names.domains:
            return Type(name, written.data, written.dimension)
        self.refuse(1, written.domain.place)
        return None

    def declare(self, name: Word, type_: Type | None) -> None:
        scope = self.scopes[-1]
        if name.text in scope:
            self.refuse(2, name.place)
            return
        scope[name.text] = type_

    def look_up(self, name: str, place: int) -> Type | None:
        for scope in reversed(self.scopes):
            if name in scope:
                return scope[name]
        self.refuse(1, place)
        return None

    # The function

    def check(self) -> None:
        self.scopes.append({})
        if self.function.result is not None:
            self.result = self.resolve(self.function.result)
        for parameter in self.function.parameters:
            self.declare(parameter.name, self.resolve(parameter.type))
        for statement in self.function.body.statements:
            self.statement(statement)
        if self.function.result is not None and not always_returns(self.function.body):
            self.refuse(14, self.function.name.place)

    def inner(self, *statements: Node) -> None:
        """Statements in a block of their own."""
        self.scopes.append({})
        for statement in statements:
            self.statement(statement)
        self.scopes.pop()

    def statement(self, statement: Node) -> None:
        """The refusals of a statement."""
        match statement:
            case Block():
                self.inner(*statement.statements)
            case If():
                self.condition(statement.condition)
                self.inner(statement.then)
                if statement.otherwise is not None:
                    self.inner(statement.otherwise)
            case While():
                self.condition(statement.condition)
                self.inner(statement.body)
            case DoWhile():
                self.inner(statement.body)
                self.condition(statement.condition)
            case For():
                self.counted_loop(statement)
            case Return():
                self.give_back(statement)
            case Assert():
                self.tested(statement.condition, self.value(statement.condition), 9)
            case Declare():
                self.declaration(statement)
            case Assign():
                self.assignment(statement)
            case Evaluate():
                self.typing(statement.value)

    def condition(self, condition: Node) -> None:
        self.tested(condition, self.value(condition), 4)

    def tested(self, condition: Node, found: Type | None, private: int) -> None:
        """A public truth value is wanted; `private` is the refusal of a private one."""
        if found is None:
            return
        if found.data != Data.TRUTH or found.dimension != 0:
            self.refuse(3, condition.place)
        elif found.private:
            self.refuse(private, condition.place)

    def counted_loop(self, loop: For) -> None:
        """A `for`: its condition is judged after its step."""
        self.scopes.append({})
        if loop.first is not None:
            self.statement(loop.first)
        found = self.value(loop.condition) if loop.condition is not None else None
        stepped: Typing = VOID
        if isinstance(loop.step, Assign):
            self.assignment(loop.step)
        elif loop.step is not None:
            stepped = self.typing(loop.step)
        if loop.condition is not None and stepped is not None:
            self.tested(loop.condition, found, 4)
        self.inner(loop.body)
        self.scopes.pop()

    def give_back(self, statement: Return) -> None:
        """A `return`, with or without a value."""
        if statement.value is None:
            if self.function.result is not None:
                self.refuse(3, statement.place)
            return
        found = self.value(statement.value)
        if found is None:
            return
        if self.function.result is None:
            self.refuse(3, statement.place)
        elif self.result is not None:
            self.stored(statement.value, found, self.result)

    def stored(self, value: Node, found: Type, wanted: Type) -> bool:
        """Whether a value may go where a type is wanted; else the refusal stands at the value."""
        if found.data != wanted.data or found.dimension != wanted.dimension:
            self.refuse(3, value.place)
        elif found.private and not wanted.private:
            self.refuse(7, value.place)
        elif found.private and found.domain != wanted.domain:
            self.refuse(10, value.place)
        else:
            return True
        return False

    def declaration(self, statement: Declare) -> None:
        """A declaration; `argument` has the type that is declared."""
        declared = self.resolve(statement.type)
        size = self.value(statement.size) if statement.size is not None else None
        if isinstance(statement.value, Argument) and statement.size is None:
            value = declared
        else:
            value = self.value(statement.value) if statement.value is not None else None
        whole = declared is not None
        whole = whole and (statement.size is None or size is not None)
        whole = whole and (statement.value is None or value is not None)
        if whole:
            self.declaration_fits(statement, declared, size, value)
        self.declare(statement.name, declared)

    def declaration_fits(self, statement: Declare, declared: Type, size: Type | None, value: Type | None) -> None:
        """Whether count and value fit what is declared."""
        wanted = declared
        if statement.size is not None:
            wanted = Type(declared.domain, declared.data, 0)
            if declared.dimension == 0:
                self.refuse(3, statement.size.place)
            elif size.data != Data.NUMBER or size.dimension != 0:
                self.refuse(3, statement.size.place)
            elif size.private:
                self.refuse(6, statement.size.place)
        if statement.value is not None:
            self.stored(statement.value, value, wanted)

    def assignment(self, statement: Assign) -> None:
        target = self.target(statement.target)
        found = self.value(statement.value)
        if target is not None and found is not None:
            self.stored(statement.value, found, target)

    def target(self, place: Place) -> Type | None:
        variable = self.look_up(place.name, place.place)
        if place.index is None:
            return variable
        return self.element(place.place, variable, place.index)

    def element(self, place: int, array: Type | None, index: Node) -> Type | None:
        """The type of an element of what begins at `place`."""
        found = self.value(index)
        if array is None or found is None:
            return None
        good = True
        if array.dimension == 0:
            self.refuse(3, place)
            good = False
        if found.data != Data.NUMBER or found.dimension != 0:
            self.refuse(3, index.place)
            good = False
        elif found.private:
            self.refuse(5, index.place)
            good = False
        return Type(array.domain, array.data, 0) if good else None

    # Expressions

    def value(self, expression: Node) -> Type | None:
        """The type of an expression where a value is wanted."""
        found = self.typing(expression)
        if found == VOID:
            self.refuse(3, expression.place)
            return None
        return found

    def typing(self, expression: Node) -> Typing:
        """The type of an expression; VOID for a call without a value, None where it has none since it is refused."""
        match expression:
            case Number():
                return Type(PUBLIC, Data.NUMBER, 0)
            case Truth():
                return Type(PUBLIC, Data.TRUTH, 0)
            case Variable():
                return self.look_up(expression.name, expression.place)
            case Parentheses():
                return self.value(expression.inner)
            case Argument():
                self.refuse(15, expression.place)
                return None
            case Flip():
                return self.flip(expression)
            case Cast():
                found = self.value(expression.inner)
                return None if found is None else Type(found.domain, expression.data, found.dimension)
            case Declassify():
                found = self.value(expression.inner)
                return None if found is None else Type(PUBLIC, found.data, found.dimension)
            case Publish():
                return None if self.value(expression.inner) is None else VOID
            case Index():
                return self.element(expression.place, self.value(expression.array), expression.index)
            case Binary():
                return self.binary(expression)
            case Call():
                return self.call(expression)
        raise AssertionError(expression)

    def flip(self, expression: Flip) -> Type | None:
        """The type of a negation."""
        found = self.value(expression.inner)
        if found is None:
            return None
        if found.data != Data.TRUTH:
            self.refuse(3, expression.place)
            return None
        return found

    def binary(self, expression: Binary) -> Type | None:
        """The type of an operator."""
        left, right = self.value(expression.left), self.value(expression.right)
        if left is None or right is None:
            return None
        faults = operator_faults(expression.operator, left, right)
        for number in faults:
            self.refuse(number, expression.place)
        if faults:
            return None
        domain = left.domain if left.private else right.domain
        data = Data.TRUTH if expression.operator in EQUALITIES | ORDERINGS else left.data
        return Type(domain, data, max(left.dimension, right.dimension))

    # Calls

    def call(self, call: Call) -> Typing:
        """The type of a call."""
        known = call.name in self.names.builtins or call.name in self.names.functions
        if not known:
            self.refuse(1, call.place)
        elif call.name not in self.names.builtins:
            number = self.names.functions[call.name]
            if self.program.functions[number].variables:
                self.findings.called.add(number)
        found = [self.value(argument) for argument in call.arguments]
        if not known or None in found:
            return None
        if call.name in self.names.builtins:
            return self.builtin(call, found)
        return self.own_call(call, self.names.functions[call.name], found)

    def builtin(self, call: Call, found: list[Type]) -> Typing:
        """The type of a call of a built-in function."""
        if len(found) != self.names.builtins[call.name]:
            self.refuse(13, call.place)
            return None
        first = found[0]
        if call.name == "cat":
            return self.joined(call, first, found[1])
        if call.name == "lookup":
            return self.looked_up(call, first, found[1])
        if call.name == "size":
            good, result = first.dimension == 1, Type(PUBLIC, Data.NUMBER, 0)
        elif call.name == "sum":
            good, result = first.dimension == 1 and first.data.is_number, Type(first.domain, first.data, 0)
        else:
            good, result = first.data == Data.NUMBER, Type(first.domain, Data.TRUTH, 1)
        if not good:
            self.refuse(3, call.place)
            return None
        return result

    def joined(self, call: Call, first: Type, second: Type) -> Typing:
        """The type of `cat`."""
        if first.dimension == 0 or second.dimension == 0 or first.data != second.data:
            self.refuse(3, call.place)
            return None
        if first.private and second.private and first.domain != second.domain:
            self.refuse(10, call.place)
            return None
        return first if first.private else second

    def looked_up(self, call: Call, array: Type, index: Type) -> Typing:
        """The type of `lookup`."""
        private = array.private or index.private
        if array.dimension == 0 or not array.data.is_number or index.data != Data.NUMBER or not private:
            self.refuse(3, call.place)
            return None
        if array.private and index.private and array.domain != index.domain:
            self.refuse(10, call.place)
            return None
        return Type(array.domain if array.private else index.domain, array.data, index.dimension)

    def own_call(self, call: Call, number: int, found: list[Type]) -> Typing:
        """The type of a call of a function of the program, which reaches an instance."""
        function = self.program.functions[number]
        if len(found) != len(function.parameters):
            self.refuse(13, call.place)
            return None
        binding = self.bind(call, function, found)
        if binding is None:
            return None
        if not self.arguments_fit(call, function, binding, found):
            return None
        instance = Instance(number, tuple(binding[variable.name.text] for variable in function.variables))
        self.findings.reach(instance)
        self.findings.calls[self.instance][call] = instance
        if function.result is None:
            return VOID
        return self.type_under(function.result, binding)

    def bind(self, call: Call, function: Function, found: list[Type]) -> dict[str, str] | None:
        """What each domain variable stands for, or None where the call is refused."""
        binding: dict[str, str] = {}
        good = True
        for variable in function.variables:
            name = variable.name.text
            private = {
                type_.domain
                for parameter, type_ in zip(function.parameters, found)
                if parameter.type.domain is not None and parameter.type.domain.text == name and type_.private
            }
            if len(private) > 1:
                self.refuse(10, call.place)
                good = False
            elif not private and variable.kind is not None:
                self.refuse(3, call.place)
                good = False
            binding.setdefault(name, private.pop() if len(private) == 1 else PUBLIC)
        return binding if good else None

    def type_under(self, written: TypeName, binding: dict[str, str]) -> Type | None:
        """A type of a head under a binding; None where its domain is unknown, which is told where the head is checked."""
        if written.domain is None:
            return Type(PUBLIC, written.data, written.dimension)
        name = written.domain.text
        if name in binding:
            return Type(binding[name], written.data, written.dimension)
        return Type(name, written.data, written.dimension) if name in self.names.domains else None

    def arguments_fit(self, call: Call, function: Function, binding: dict[str, str], found: list[Type]) -> bool:
        good = True
        for argument, parameter, type_ in zip(call.arguments, function.parameters, found):
            wanted = self.type_under(parameter.type, binding)
            if wanted is not None:
                good = self.stored(argument, type_, wanted) and good
        return good


def operator_faults(operator: str, left: Type, right: Type) -> list[int]:
    """What an operator is refused for at its place."""
    faults = []
    private = left.private or right.private
    if not data_fits(operator, left.data, right.data, private):
        faults.append(3)
    if operator in DIVISIONS and private:
        faults.append(8)
    if left.private and right.private and left.domain != right.domain:
        faults.append(10)
    return faults


def data_fits(operator: str, left: Data, right: Data, private: bool) -> bool:
    """Whether an operator takes these data types."""
    if left != right:
        return False
    if operator in ARITHMETIC or operator in ORDERINGS:
        return left.is_number
    if operator in EQUALITIES:
        return True
    if operator in BITWISE:
        return left == Data.TRUTH or left == Data.NUMBER and not private
    return left == Data.TRUTH


def checked_bodies(program: Program) -> tuple[Names, Findings]:
    """The names of a program, and what its bodies' types and calls come to."""
    findings = Findings()
    names = Names(program, findings)
    for number, function in enumerate(program.functions):
        if not function.variables:
            findings.reach(Instance(number, ()))
    while findings.waiting:
        BodyChecker(program, names, findings, findings.waiting.pop()).check()
    return names, findings


def check(program: Program) -> Findings:
    """All refusals of a program's types, and what its calls reach."""
    names, findings = checked_bodies(program)
    for number in findings.called:
        head_told(program.functions[number], names, findings)
    return findings
