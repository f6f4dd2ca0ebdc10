"""What the second reading knows of a refusal of a program: L, Y, D and X."""
from __future__ import annotations

from dataclasses import dataclass
from difflib import get_close_matches

from .findings import Finding, spot_at, spot_of
from .likeness import nearest, offset
from .manual import place_of, rule_of, sign_of
from .reading import checker, lexer, limits, parser, tree
from .trade_words import row_of, said_of

EXPRESSION = frozenset(["NAME", "NUMBER", "(", "!", "true", "false", "argument", "declassify", "publish"])
OPERATORS = frozenset(parser.LEVEL_OF)
STORES = frozenset(["=", *parser.STORES, *parser.STEPS])
TYPES = frozenset(parser.DATA_TYPES)
STATEMENT = frozenset(["if", "while", "do", "for", "return", "assert", "{"])
ITEMS = frozenset(["import", "kind", "domain", "template", "void"])
GROUPS = (
    (STATEMENT | EXPRESSION | TYPES, "a statement"), (EXPRESSION, "an expression"), (OPERATORS, "an operator"), (STORES, "a store (`=`, `+=`, `++`, ..)"),
    (TYPES, "an element type (`uint64`, `int64`, `bool`)"), (ITEMS, "an import, a kind, a domain or a function"),
)
TAKEN = {
    "size": "an array", "cat": "two arrays of one element type", "sum": "an array of numbers", "bitExtract": "a `uint64` or an array of them",
    "lookup": "an array of numbers and a `uint64` index or an array of them, of which one is private at least",
}
KINDS = {"NAME": "a name", "NUMBER": "a number", "STRING": "a string in quotes", "END": "the end of the program"}
FOREIGN_TYPES = frozenset(
    "int8 int16 int32 uint8 uint16 uint32 float float32 float64 double string char xor_uint8 xor_uint16 xor_uint32 xor_uint64 "
    "fix32 fix64 size_t unsigned long short struct const auto var let def function".split()
)
ELEMENT_TYPES = "its element types are `uint64` (numbers from 0 to 2^64 - 1), `int64` (from -2^63 to 2^63 - 1) and `bool`"
TWO_KINDS = "numbers with a sign and without don't meet: `(int64)` and `(uint64)` cast one to the other's type, and literals are `uint64`"
NO_SIGNS = {"'": "strings stand in `\"`", "#": "there is no preprocessor, and comments begin with `//`", "?": "there is no conditional expression"}


def shown(token) -> str:
    """A token as it is told."""
    kind = token.kind.name
    return KINDS["END"].replace("program", "text") if kind == "END" else f"the name `{token.text}`" if kind == "NAME" else f"`{token.text}`"


def span(token) -> int:
    return max(1, len(token.text) + 2 * (token.kind is lexer.Kind.STRING))


def item_start(tokens, here: int) -> int:
    """Where the import, domain or function begins in which a token stands."""
    depth, start = 0, 0
    for place, token in enumerate(tokens[:here]):
        if token.text in ("{", "}") and token.kind is lexer.Kind.WORD:
            depth += 1 if token.text == "{" else -1
            if depth == 0:
                start = place + 1
        elif token.text == ";" and depth == 0:
            start = place + 1
    return start


def goes_on(tokens, candidate) -> bool:
    """Whether a program may go on so."""
    end = lexer.Token(lexer.Kind.END, "", 0, candidate.place + 1)
    try:
        parser.parse([*tokens, candidate, end])
    except lexer.Refused as refused:
        return refused.place != candidate.place
    return True


def may_stand(tokens, here: int) -> list[str]:
    """What may stand in place of a token, in groups."""
    before = tokens[item_start(tokens, here) : here]
    place = tokens[here].place
    words = sorted(lexer.KEYWORDS | lexer.LONG_SIGNS | lexer.SHORT_SIGNS)
    candidates = [(word, lexer.Token(lexer.Kind.WORD, word, 0, place)) for word in words]
    candidates += [(kind, lexer.Token(lexer.Kind[kind], "x", 0, place)) for kind in KINDS]
    good = {name for name, token in candidates if goes_on(before, token)}
    told = []
    for group, name in GROUPS:
        if group <= good:
            told.append(name)
            good -= group
    return told + [KINDS.get(one, f"`{one}`") for one in sorted(good)]


def of_token(finding: Finding, path: str, text: bytes, at: int):
    """What is known of a fault of the tokens."""
    found = text[at : at + 1]
    sign = sign_of(finding.line)
    if text.startswith(b"\xef\xbb\xbf") and at == 0:
        finding.note("the file begins with a byte order mark, which an editor wrote: save it as UTF-8 without one")
    elif sign == "L1" and found >= b"\x80":
        letter = text[at : at + 4].decode("utf-8", "ignore")[:1]
        finding.note(f"`{letter}` is no sign of ASCII; letters of other alphabets, and quotes and dashes of word processors, stand in comments alone")
    elif sign == "L1" and found.decode("latin-1") in NO_SIGNS:
        finding.note(NO_SIGNS[found.decode("latin-1")])
    elif sign == "L2":
        end = lexer.word_end(text, at)
        word = text[at:end].decode()
        finding.spot.length = end - at
        if word.isdigit() or word[:2] == "0x" and len(word) > 2 and all(one in "0123456789abcdefABCDEF" for one in word[2:]):
            finding.note(f"{word} is 2^64 or more")
        else:
            finding.note(f"`{word}` has what is no digit of its base: a name doesn't begin with a digit, and a number has no `_` and no ending")
    elif sign == "L6":
        finding.note(f"the text has {len(text)} bytes, {len(text) - lexer.TEXT_LIMIT} too many")


def of_tree(finding: Finding, path: str, text: bytes, at: int):
    """What was met, and what could stand there."""
    tokens = lexer.lex(text)
    here = next(place for place, token in enumerate(tokens) if token.place == at)
    met, before = tokens[here], tokens[here - 1] if here else None
    finding.spot.length = span(met)
    if sign_of(finding.line) == "Y2":
        finding.note(f"{shown(met)} stands in so many parts inside one another that the tree would be higher than {parser.HEIGHT_LIMIT}")
        return
    allowed = may_stand(tokens, here)
    after = f" after {shown(before)}" if before else ""
    finding.note(f"{shown(met)} was met{after}; what may stand there is {', '.join(allowed)}" if allowed else f"{shown(met)} was met{after}")
    line_before = text.count(b"\n", 0, before.place) + 1 if before else 1
    if "`;`" in allowed and line_before < finding.spot.line:
        end = before.place + span(before)
        finding.note(f"is a `;` missing at the end of line {line_before}?", spot_at(path, text, end))
    for token in (before, met):
        if token and token.kind is lexer.Kind.NAME and token.text in FOREIGN_TYPES:
            finding.note(f"`{token.text}` isn't in this profile of SecreC: {ELEMENT_TYPES}")
            break
    if met.text in ("break", "continue"):
        finding.note(f"`{met.text}` stands in no loop here")


def type_text(found) -> str:
    """A type as it is written."""
    domain = "" if found.domain == checker.PUBLIC else f"{found.domain} "
    return f"`{domain}{found.data.value}{'[[1]]' if found.dimension else ''}`" + ("" if domain else " (public)")


@dataclass
class Reached:
    """How an instance was reached first: from which one, and by which call."""

    caller: object
    call: object


class Tracer(checker.BodyChecker):
    """The checker, which notes what it knows where it refuses."""

    def __init__(self, program, names, findings, instance, notes):
        super().__init__(program, names, findings, instance)
        self.notes = notes
        self.declared: dict[tuple[int, str], int] = {}

    def refuse(self, number, place):
        super().refuse(number, place)
        self.notes.setdefault((place, number), ([], self.instance))

    def add(self, number, place, text, at=None):
        """Adds a sentence to a refusal that stands."""
        found = self.notes.get((place, number))
        if found and found[1] == self.instance and (text, at) not in found[0]:
            found[0].append((text, at))

    def declare(self, name, type_):
        taken = name.text in self.scopes[-1]
        super().declare(name, type_)
        if taken:
            self.add(2, name.place, f"`{name.text}` is declared in this block already", self.declared.get((id(self.scopes[-1]), name.text)))
        else:
            self.declared[(id(self.scopes[-1]), name.text)] = name.place

    def private_parts(self, node):
        """The private variables of an expression, with where they are declared; what is declassified is left out."""
        rest, found = [node], {}
        while rest:
            part = rest.pop(0)
            if isinstance(part, tree.Variable):
                for scope in reversed(self.scopes):
                    type_ = scope.get(part.name)
                    if part.name in scope:
                        if type_ is not None and type_.private:
                            found[part.name] = (type_, self.declared.get((id(scope), part.name)))
                        break
            if not isinstance(part, tree.Declassify) and not (isinstance(part, tree.Call) and part.name == "size"):
                rest.extend(part.children())
        return found

    def meeting(self, place, one, other):
        """Numbers of two types, where one is wanted."""
        if one.data is not other.data and one.data.is_number and other.data.is_number:
            self.add(3, place, TWO_KINDS)

    def why_private(self, number, node):
        for name, (type_, at) in self.private_parts(node).items():
            self.add(number, node.place, f"`{name}` is private: it has the type {type_text(type_)}", at)

    def tested(self, condition, found, private):
        super().tested(condition, found, private)
        if found is not None:
            self.why_private(private, condition)
            self.add(3, condition.place, f"a public truth value is wanted, and this is {type_text(found)}")

    def stored(self, value, found, wanted):
        good = super().stored(value, found, wanted)
        if not good:
            for number in (3, 7, 10):
                self.add(number, value.place, f"this is {type_text(found)}, and {type_text(wanted)} is wanted")
            self.meeting(value.place, found, wanted)
            self.why_private(7, value)
        return good

    def declaration_fits(self, statement, declared, size, value):
        super().declaration_fits(statement, declared, size, value)
        if statement.size is not None:
            self.why_private(6, statement.size)
            if declared.dimension == 0:
                name = statement.name.text
                self.add(3, statement.size.place, f"`{name}` is declared as a scalar; an array is `{declared.data.value}[[1]] {name} (..)`")

    def give_back(self, statement):
        super().give_back(statement)
        name = self.function.name
        if self.function.result is None:
            self.add(3, statement.place, f"`{name.text}` is declared `void`, so `return;` stands alone", name.place)
        elif statement.value is None and self.result is not None:
            self.add(3, statement.place, f"`{name.text}` gives {type_text(self.result)} back, so a value stands after `return`", name.place)

    def value(self, expression):
        found = super().value(expression)
        if found is None and isinstance(expression, tree.Call):
            number = self.names.functions.get(expression.name)
            if number is not None and self.program.functions[number].result is None:
                self.add(3, expression.place, f"`{expression.name}` is `void`: it gives no value back", self.program.functions[number].name.place)
        elif found is None and isinstance(expression, tree.Publish):
            self.add(3, expression.place, "`publish` gives no value back")
        return found

    def builtin(self, call, found):
        result = super().builtin(call, found)
        given = " and ".join(type_text(one) for one in found)
        for number in (3, 10):
            self.add(number, call.place, f"`{call.name}` takes {TAKEN[call.name]}, and {given} is given")
        return result

    def bind(self, call, function, found):
        binding = super().bind(call, function, found)
        for variable in function.variables:
            if variable.kind is not None and binding is None:
                said = f"`{variable.name.text}` of `{call.name}` stands for a private domain alone, and all arguments at it are public"
                self.add(3, call.place, said, variable.name.place)
        if binding is None:
            self.add(10, call.place, f"arguments of two private domains meet in one domain variable of `{call.name}`", function.name.place)
        return binding

    def element(self, place, array, index):
        found = super().element(place, array, index)
        self.why_private(5, index)
        if array is not None and array.dimension == 0:
            self.add(3, place, f"this is {type_text(array)}, and only an array has elements")
        return found

    def binary(self, expression):
        found = super().binary(expression)
        at = (expression.place,)
        if any((place, number) in self.notes for place in at for number in (3, 8, 10)):
            left, right = (self.quiet(part) for part in (expression.left, expression.right))
            if left is not None and right is not None:
                for number in checker.operator_faults(expression.operator, left, right):
                    self.add(number, expression.place, f"`{expression.operator}` has {type_text(left)} on its left and {type_text(right)} on its right")
                self.meeting(expression.place, left, right)
        return found

    def quiet(self, expression):
        """The type of an expression, with nothing refused anew."""
        findings, self.findings = self.findings, checker.Findings()
        self.findings.calls = {self.instance: {}}
        refuse, self.refuse = self.refuse, lambda number, place: None
        try:
            found = self.typing(expression)
        finally:
            self.findings, self.refuse = findings, refuse
        return found if isinstance(found, checker.Type) else None

    def look_up(self, name, place):
        found = super().look_up(name, place)
        if (place, 1) in self.notes:
            near = get_close_matches(name, {one for scope in self.scopes for one in scope}, 1, 0.6)
            self.add(1, place, f"no variable `{name}` is known here" + (f"; is `{near[0]}` meant?" if near else ""))
        return found

    def call(self, call):
        found = super().call(call)
        functions = {**self.names.builtins, **self.names.functions}
        near = get_close_matches(call.name, functions, 1, 0.6)
        if call.name in ("sum", "bitExtract", "lookup") and call.name not in functions:
            self.add(1, call.place, f"`{call.name}` comes with `import {'stdlib' if call.name == 'sum' else 'shared3p'};`")
        elif call.name not in functions:
            self.add(1, call.place, f"no function `{call.name}` is there" + (f"; is `{near[0]}` meant?" if near else ""))
            if said_of(call.name):
                self.add(1, call.place, said_of(call.name))
        elif call.name in self.names.functions:
            wanted = self.program.functions[self.names.functions[call.name]]
            self.add(13, call.place, f"`{call.name}` has {len(wanted.parameters)} parameters, and {len(call.arguments)} arguments are given", wanted.name.place)
        else:
            self.add(13, call.place, f"`{call.name}` takes {self.names.builtins[call.name]}, and {len(call.arguments)} arguments are given")
        return found


def traced(program):
    """The notes on all refusals of a tree by place and number, and how each instance was reached."""
    findings, notes, reached = checker.Findings(), {}, {}
    names = checker.Names(program, findings)
    for number, function in enumerate(program.functions):
        if not function.variables:
            findings.reach(checker.Instance(number, ()))
    while findings.waiting:
        instance = findings.waiting.pop()
        Tracer(program, names, findings, instance, notes).check()
        for call, callee in findings.calls[instance].items():
            reached.setdefault(callee, Reached(instance, call))
    return names, notes, reached


def of_types(finding: Finding, path: str, text: bytes, at: int):
    """What is known of a refusal of the checker."""
    program = parser.parse(lexer.lex(text))
    names, notes, reached = traced(program)
    number = int(sign_of(finding.line)[1:])
    finding.spot.length = span(next(token for token in lexer.lex(text) if token.place == at))
    said, instance = notes.get((at, number), ([], None))
    for sentence, place in said:
        finding.note(sentence, None if place is None else spot_at(path, text, place))
    if number == 1 and not said:
        unknown_name(finding, names, program, text, at)
    elif number == 2 and not said:
        declared_twice(finding, path, text, names, program, at)
    elif number == 11:
        no_main(finding, path, text, program)
    elif number == 14:
        finding.note("there is a way through its body that ends without `return`; that a condition is always true, or a loop never ends, doesn't count")
    bound_by(finding, path, text, program, instance, reached)


def unknown_name(finding: Finding, names, program, text: bytes, at: int):
    """Of a name of a kind or domain that is not known."""
    word = text[at : lexer.word_end(text, at)].decode("ascii", "replace")
    if word == checker.KNOWN_KIND:
        finding.note("the kind `shared3p` comes with `import shared3p;`, or is declared by `kind shared3p;`")
    elif any(kind.place == at for _, kind in program.domains) or any(kind.place == at for kind in program.kinds):
        finding.note(f"`{word}` is no kind: `shared3p` is the only one")
    else:
        near = get_close_matches(word, names.domains, 1, 0.6)
        declared = f"; is `{near[0]}` meant?" if near else f": declare it by `domain {word} shared3p;`"
        finding.note(f"`{word}` is no domain" + declared)
        if said_of(word):
            finding.note(said_of(word))


def declared_twice(finding: Finding, path: str, text: bytes, names, program, at: int):
    """Of a function, kind or domain that is declared again: what has its name already."""
    word = text[at : lexer.word_end(text, at)].decode("ascii", "replace")
    spaces = [[one.name for one in program.functions], [*program.kinds, *(name for name, _ in program.domains)]]
    space = next((one for one in spaces if any(name.place == at for name in one)), [])
    earlier = [name.place for name in space if name.text == word and name.place < at]
    if earlier:
        finding.note(f"`{word}` is declared already", spot_at(path, text, min(earlier), len(word)))
    elif word in names.builtins and space is spaces[0]:
        finding.note(f"`{word}` is a function that is built in" + ("" if word in checker.ALWAYS_THERE else ", by an import") + ": choose another name")
    elif word == checker.KNOWN_KIND and names.brings_kind:
        finding.note("`import shared3p;` declares the kind already")


def no_main(finding: Finding, path: str, text: bytes, program):
    """The functions called `main` that aren't the one that is wanted."""
    for function in program.functions:
        if function.name.text == "main":
            finding.note("this `main` has parameters, a result or domain variables", spot_at(path, text, function.name.place, len("main")))


def bound_by(finding: Finding, path: str, text: bytes, program, instance, reached):
    """The calls that bound the domain variables of the template in which a refusal stands."""
    seen = set()
    while instance is not None and instance.binding and instance not in seen and instance in reached:
        seen.add(instance)
        function = program.functions[instance.number]
        bound = ", ".join(f"{one.name.text} = {domain}" for one, domain in zip(function.variables, instance.binding))
        way = reached[instance]
        finding.note(f"this is so in `{function.name.text}` with {bound}, bound by this call:", spot_at(path, text, way.call.place, len(way.call.name)))
        instance = way.caller


def of_limits(finding: Finding, path: str, text: bytes):
    """The largest functions, where a program is too large."""
    program = parser.parse(lexer.lex(text))
    findings = checker.check(program)
    order = limits.reached(program, findings)
    sizes = {number: limits.function_size(program, number) for number in {one.number for one in order}}
    counts = {number: sum(one.number == number for one in order) for number in sizes}
    largest = sorted(sizes, key=lambda number: -sizes[number] * counts[number])[:3]
    limit = {"X1": limits.INSTANCE_LIMIT, "X2": limits.WHOLE_LIMIT, "X3": limits.FUNCTION_LIMIT}[sign_of(finding.line)]
    finding.note(f"the limit is {limit}")
    for number in largest:
        name = program.functions[number].name
        times = f", reached with {counts[number]} bindings" if counts[number] > 1 else ""
        finding.note(f"`{name.text}` has {sizes[number]} nodes and parameters{times}", spot_at(path, text, name.place, len(name.text)))


def explain(line: str, path: str, text: bytes) -> Finding:
    """All that is known of a program's refusal."""
    finding, sign, place = Finding(line), sign_of(line), place_of(line)
    rule = rule_of(sign)
    finding.means = rule.means if rule else ""
    if place is None:
        if sign in ("X1", "X2", "X3"):
            of_limits(finding, path, text)
        return finding
    at = offset(text, place)
    finding.spot = spot_of(path, text, *place)
    ways = {"L": of_token, "Y": of_tree, "D": of_types}
    ways[sign[0]](finding, path, text, at)
    word = text[at : lexer.word_end(text, at)].decode("ascii", "replace")
    finding.row = (row_of(word) if sign == "D1" else None) or nearest(sign, text, at)
    return finding
