"""What a program's tree fixes of its code: names, heads, and what each function does in the order in which its code has it."""
from __future__ import annotations

from bisect import bisect_right
from dataclasses import dataclass, field

import tree
from checker import BodyChecker, Findings, Instance, Names, Type, Typing, checked_bodies
from code_file import ARRAY, COMPARISONS, NOTHING, OPERATORS, PRIVATE, SIGNED, TRUTH, Code, Function, Tag
from limits import function_size, in_code_order, reached
from tree import Data, Node, Program

WEIGHT = 16
Did = tuple[object, ...]
UNSAID = (Tag.LITERAL, Tag.MOVE, Tag.CLASSIFY, Tag.JUMP, Tag.RETURN, Tag.RETURN_NONE)


def kind_of(type_: Type) -> int:
    """The kind of a register for values of a type."""
    return (PRIVATE if type_.private else 0) | data_of(type_.data) | (ARRAY if type_.dimension else 0)


def data_of(data: Data) -> int:
    """The bit of a data type."""
    return {Data.NUMBER: 0, Data.SIGNED: SIGNED, Data.TRUTH: TRUTH}[data]


class TypeRecorder(BodyChecker):
    """Checks a body again, and keeps the types of its expressions and of what it declares."""

    def __init__(self, program: Program, names: Names, findings: Findings, instance: Instance):
        super().__init__(program, names, findings, instance)
        self.types: dict[Node, Typing] = {}
        self.declared: dict[Node, Type] = {}
        self.targets: dict[Node, Type] = {}

    def typing(self, expression: Node) -> Typing:
        self.types[expression] = found = super().typing(expression)
        return found

    def declaration(self, statement: tree.Declare) -> None:
        self.declared[statement] = self.resolve(statement.type)
        super().declaration(statement)

    def target(self, place: tree.Place) -> Type | None:
        self.targets[place] = found = super().target(place)
        return found


@dataclass
class Form:
    """A function's code as far as it is fixed: what it does in order, how often it classifies, and its literals."""

    parameters: list[int]
    result: int
    size: int
    does: list[Did] = field(default_factory=list)
    classified: int = 0
    literals: set[tuple[int, int]] = field(default_factory=set)


class FormMaker:
    """Walks the body of one instance in the order of its code."""

    def __init__(self, recorder: TypeRecorder, order: dict[Instance, int], line_starts: list[int], size: int):
        self.recorder, self.order, self.line_starts = recorder, order, line_starts
        function = recorder.function
        self.form = Form([], NOTHING, size)
        recorder.check()
        self.form.parameters = [kind_of(recorder.resolve(parameter.type)) for parameter in function.parameters]
        if function.result is not None:
            self.form.result = kind_of(recorder.result)
        self.statement(function.body)

    def does(self, tag: Tag, *rest: object):
        self.form.does.append((tag, *rest))

    def line(self, node: Node) -> int:
        return bisect_right(self.line_starts, node.place)

    def stored(self, kind: int, wanted: int) -> int:
        """The kind after a classification, where one is wanted."""
        if wanted & PRIVATE and not kind & PRIVATE:
            self.form.classified += 1
            return kind | PRIVATE
        return kind

    # Statements

    def statement(self, node: Node):
        match node:
            case tree.Block():
                for inner in node.statements:
                    self.statement(inner)
            case tree.Evaluate():
                self.value(node.value)
            case tree.Declare():
                self.declaration(node)
            case tree.Assign():
                self.assignment(node)
            case tree.Return():
                if node.value is not None:
                    self.stored(self.value(node.value), self.form.result)
            case tree.Assert():
                self.value(node.condition)
                self.does(Tag.ASSERT, self.line(node))
            case tree.If():
                self.test(node.condition)
                self.statement(node.then)
                if node.otherwise is not None:
                    self.statement(node.otherwise)
            case tree.While() | tree.DoWhile() | tree.For():
                self.loop(node)

    def loop(self, node: tree.While | tree.DoWhile | tree.For):
        for part in in_code_order(node):
            if part is node.condition:
                self.test(part)
            elif isinstance(node, tree.For) and part is node.step and not isinstance(part, tree.Assign):
                self.value(part)
            else:
                self.statement(part)
        if node.condition is None:
            self.does(Tag.BRANCH)

    def test(self, condition: Node):
        self.value(condition)
        self.does(Tag.BRANCH)

    def declaration(self, node: tree.Declare):
        wanted = kind_of(self.recorder.declared[node])
        if node.size is not None:
            self.value(node.size)
            start = self.value(node.value) if node.value is not None else wanted & (TRUTH | SIGNED)
            start = self.stored(start, wanted)
            self.does(Tag.FILL, start | ARRAY, 0, start, self.line(node))
            return
        if isinstance(node.value, tree.Argument):
            self.does(Tag.ARGUMENT, wanted, node.value.name, self.line(node.value))
        elif node.value is not None:
            self.stored(self.value(node.value), wanted)
        else:
            self.stored(wanted & ~PRIVATE, wanted)
        self.does(Tag.STORE, wanted, wanted)

    def assignment(self, node: tree.Assign):
        wanted = kind_of(self.recorder.targets[node.target])
        if node.target.index is not None:
            self.value(node.target.index)
        self.stored(self.value(node.value), wanted)
        if node.target.index is None:
            self.does(Tag.STORE, wanted, wanted)
        else:
            self.does(Tag.PUT, wanted | ARRAY, 0, wanted, self.line(node.target))

    # Expressions

    def value(self, node: Node) -> int | None:
        """The code of an expression; the kind of its value."""
        match node:
            case tree.Number():
                self.form.literals.add((0, node.value))
                return 0
            case tree.Truth():
                self.form.literals.add((TRUTH, int(node.value)))
                return TRUTH
            case tree.Variable():
                return kind_of(self.recorder.types[node])
            case tree.Parentheses():
                return self.value(node.inner)
            case tree.Flip():
                return self.one(Tag.NOT, self.value(node.inner), lambda kind: kind)
            case tree.Cast():
                data = data_of(node.data)
                return self.one(Tag.CAST, self.value(node.inner), lambda kind: kind & (PRIVATE | ARRAY) | data)
            case tree.Declassify():
                return self.one(Tag.DECLASSIFY, self.value(node.inner), lambda kind: kind & ~PRIVATE)
            case tree.Publish():
                self.does(Tag.PUBLISH, node.name, self.value(node.inner))
                return None
            case tree.Index():
                array = self.value(node.array)
                self.does(Tag.AT, array & ~ARRAY, array, self.value(node.index), self.line(node))
                return array & ~ARRAY
            case tree.Binary():
                return self.binary(node)
            case tree.Call():
                return self.call(node)
        raise TypeError(type(node).__name__)

    def one(self, tag: Tag, kind: int, result) -> int:
        self.does(tag, result(kind), kind)
        return result(kind)

    def binary(self, node: tree.Binary) -> int:
        """An operator; one that may cut short is a test and its right operand. A connective of scalars can't trap: its line is 0."""
        left_type, right_type = self.recorder.types[node.left], self.recorder.types[node.right]
        left = self.value(node.left)
        if node.operator in ("&&", "||") and not left & (PRIVATE | ARRAY) and not right_type.dimension:
            self.does(Tag.BRANCH)
            right = self.value(node.right)
            self.form.classified += right & PRIVATE
            return right
        right = self.value(node.right)
        operator = {"&&": "&", "||": "|"}.get(node.operator, node.operator)
        private = (left | right) & PRIVATE
        if not (operator == "*" or operator == "&" and left_type.data is Data.TRUTH):
            left, right = self.stored(left, private), self.stored(right, private)
        to = private | (left | right) & ARRAY | (TRUTH if operator in COMPARISONS else left & (TRUTH | SIGNED))
        has_line = node.operator == operator or to & ARRAY
        self.does(Tag.BINARY, operator, to, left, right, self.line(node) if has_line else 0)
        return to

    def call(self, node: tree.Call) -> int | None:
        callee = self.recorder.findings.calls[self.recorder.instance].get(node)
        if callee is None:
            return self.builtin(node)
        wanted = [kind_of(type_) for type_ in self.parameter_types(node, callee)]
        for argument, kind in zip(node.arguments, wanted):
            self.stored(self.value(argument), kind)
        self.does(Tag.CALL, self.order[callee], self.line(node))
        found = self.recorder.types[node]
        return kind_of(found) if isinstance(found, Type) else None

    def parameter_types(self, node: tree.Call, callee: Instance) -> list[Type]:
        function = self.recorder.program.functions[callee.number]
        binding = dict(zip((variable.name.text for variable in function.variables), callee.binding))
        return [self.recorder.type_under(parameter.type, binding) for parameter in function.parameters]

    def builtin(self, node: tree.Call) -> int:
        """A function that is always there, or that an import brings."""
        if node.name == "cat":
            kinds = [kind_of(self.recorder.types[argument]) for argument in node.arguments]
            wanted = kinds[0] | kinds[1]
            for argument in node.arguments:
                self.stored(self.value(argument), wanted)
            self.does(Tag.CAT, wanted, wanted, wanted, self.line(node))
            return wanted
        if node.name == "lookup":
            kinds = [self.value(argument) for argument in node.arguments]
            array, index = (self.stored(kind, PRIVATE) for kind in kinds)
            to = array & ~ARRAY | index & ARRAY
            self.does(Tag.LOOKUP, to, array, index, self.line(node))
            return to
        kind = self.value(node.arguments[0])
        if node.name == "bitExtract":
            self.does(Tag.BITS, kind & PRIVATE | TRUTH | ARRAY, kind, self.line(node))
            return kind & PRIVATE | TRUTH | ARRAY
        if node.name == "size":
            return self.one(Tag.SIZE, kind, lambda _: 0)
        return self.one(Tag.SUM, kind, lambda _: kind & ~ARRAY)


def forms_of(program: Program, text: bytes) -> list[Form]:
    """The forms of all functions of the code of an accepted program, in their order."""
    names, findings = checked_bodies(program)
    instances = reached(program, findings)
    order = {instance: place for place, instance in enumerate(instances)}
    starts = [0] + [place + 1 for place, byte in enumerate(text) if byte == 0x0A]
    return [
        FormMaker(TypeRecorder(program, names, findings, instance), order, starts, function_size(program, instance.number)).form
        for instance in instances
    ]


def names_of(forms: list[Form]) -> list[str]:
    """The names of inputs and results in the order of their first use."""
    used = [one for form in forms for one in form.does if one[0] in (Tag.ARGUMENT, Tag.PUBLISH)]
    return list(dict.fromkeys(one[2] if one[0] is Tag.ARGUMENT else one[1] for one in used))


def done_by(code: Code, function: Function) -> list[Did]:
    """What the instructions of a function do, as a form says it: kinds in the place of registers."""
    found: list[Did] = []
    for instruction in function.instructions:
        tag, operands = instruction.tag, instruction.operands
        kinds = function.kinds
        if tag in UNSAID:
            continue
        if tag is Tag.BINARY:
            found.append((tag, OPERATORS[operands[0]], *(kinds[one] for one in operands[1:4]), operands[4]))
        elif tag is Tag.ARGUMENT:
            found.append((tag, kinds[operands[0]], code.names[operands[1]], operands[2]))
        elif tag is Tag.PUBLISH:
            found.append((tag, code.names[operands[0]], kinds[operands[1]]))
        elif tag is Tag.CALL:
            found.append((tag, operands[0], operands[-1]))
        elif tag is Tag.BRANCH:
            found.append((tag,))
        elif tag is Tag.ASSERT:
            found.append((tag, operands[1]))
        elif tag in (Tag.FILL, Tag.AT, Tag.PUT, Tag.CAT, Tag.BITS, Tag.LOOKUP):
            found.append((tag, *(kinds[one] for one in operands[:-1]), operands[-1]))
        else:
            found.append((tag, *(kinds[one] for one in operands)))
    return found


def function_faults(code: Code, function: Function, form: Form) -> list[str]:
    """Where the code of a function isn't of its form."""
    faults = []
    if list(function.kinds[: function.parameters]) != form.parameters or function.result != form.result:
        faults.append(f"head: model {form.parameters} {form.result}, program {function.kinds[:function.parameters]} {function.result}")
    for name, count in (("registers", len(function.kinds)), ("instructions", len(function.instructions))):
        if count > WEIGHT * form.size:
            faults.append(f"{count} {name} of a function of size {form.size}")
    done = done_by(code, function)
    if done != form.does:
        place = next((place for place, (want, have) in enumerate(zip(form.does, done)) if want != have), min(len(done), len(form.does)))
        faults.append(f"instructions from {place} on: model {form.does[place:place + 3]}, program {done[place:place + 3]}")
    classified = sum(one.tag is Tag.CLASSIFY for one in function.instructions)
    if classified != form.classified:
        faults.append(f"classifications: model {form.classified}, program {classified}")
    literals = {(function.kinds[one.operands[0]], one.operands[1]) for one in function.instructions if one.tag is Tag.LITERAL}
    if not form.literals <= literals:
        faults.append(f"literals that are not there: {sorted(form.literals - literals)}")
    return faults


def form_faults(code: Code, forms: list[Form]) -> list[str]:
    """Where code isn't of the forms of its program."""
    faults = []
    if code.names != names_of(forms):
        faults.append(f"names: model {names_of(forms)}, program {code.names}")
    if len(code.functions) != len(forms):
        return [*faults, f"functions: model {len(forms)}, program {len(code.functions)}"]
    for number, (function, form) in enumerate(zip(code.functions, forms)):
        faults += [f"function {number}: {fault}" for fault in function_faults(code, function, form)]
    return faults
