"""Random programs: most of them well typed, some with faults, and texts in which tokens or bytes are changed."""

import random
from dataclasses import dataclass

from checker import PUBLIC, Type
from tree import Data

NUMBER, SIGNED, TRUTH = Data.NUMBER, Data.SIGNED, Data.TRUTH
WORDS = {NUMBER: ("uint64", "uint64", "uint"), SIGNED: ("int64", "int64", "int"), TRUTH: ("bool",)}
NAMES = ("a", "b", "c", "x", "y", "z", "sum", "size", "p", "D", "main", "f0", "t0", "count", "_", "X9", "stdlib", "shared3p")
EDGE_NUMBERS = (
    "0", "1", "2", "63", "64", "128", "18446744073709551615", "18446744073709551616", "0xffffffffffffffff", "0x10000000000000000",
    "0x0", "007", "0x", "1a", "9223372036854775808", "00", "0X1", "1048576", "0xFf",
)
POOL = (
    "import kind domain template public void uint64 uint bool if else while do for break continue return assert true false argument "
    "publish declassify ( ) [ ] { } < > , ; : = + - * / % & | ^ ! == != <= >= && || += -= *= &= |= ^= ++ --"
).split()
FAULTY_BYTES = (
    b"$", b"\x00", b"\x0c", b"\xff", b"\xc3", b"'", b".", b"\"", b"/*", b"//", b"*/", b"@", b"?", b"\\", b"#", b"~", b"\r", b"\n",
    b"\t", b" ", b"0", b"x", b"_", b"(",
)
ALIKE = [
    "+ - * / % == != < <= > >= & | ^ && ||".split(), "= += -= *= &= |= ^=".split(), "++ --".split(), "uint64 uint bool".split(),
    "true false 1".split(), "break continue".split(), "import kind".split(), "if while assert".split(), "declassify size ! sum".split(),
]
BLANKS = (" ", " ", "\n", "\t", "\r\n", "  ", "/* x */", "/**/", "// y\n", "//\r\n", "/*\n*/", "/* // */", " /***/ ")
FAULTY_ITEMS = (
    ["import", "other", ";"], ["domain", "p", "shared3p", ";"], ["kind", "other", ";"], ["kind", "shared3p", ";"],
)
DEEP = ((["("], [")"]), (["!"], []), (["(", "bool", ")"], []), (["declassify", "("], [")"]), (["(", "bool", ")", "!"], []))


@dataclass
class Signature:
    """A function that can be called."""

    name: str
    variables: list[tuple[str, bool]]
    result: Type | None
    parameters: list[tuple[Type, str]]


class Writer:
    """A writer of one random program, as a list of tokens."""

    def __init__(self, chooser: random.Random):
        self.chooser = chooser
        self.wild = chooser.choice((0, 0, 0, 0.01, 0.03, 0.1))
        self.brings_shared = chooser.random() < 0.8
        self.brings_standard = chooser.random() < 0.5
        self.domains = [name for name in ("p", "q", "r", "count")[: chooser.choice((0, 1, 1, 2, 2, 3, 4))]]
        self.functions: list[Signature] = []
        self.scopes: list[dict[str, Type]] = []
        self.local_domains: list[str] = []
        self.kinded_locals: set[str] = set()
        self.fresh = 0
        self.loops = 0

    # Choices

    def odds(self, chance: float) -> bool:
        return self.chooser.random() < chance

    def new_name(self) -> str:
        if self.odds(0.08):
            name = self.chooser.choice(NAMES)
            if name not in self.scopes[-1] or self.odds(self.wild):
                return name
        self.fresh += 1
        return f"v{self.fresh}"

    def domain(self) -> str:
        return self.chooser.choice([PUBLIC, PUBLIC] + self.local_domains)

    def kind(self) -> Type:
        return Type(self.domain(), self.chooser.choice((NUMBER, NUMBER, SIGNED, TRUTH)), self.chooser.choice((0, 0, 0, 1)))

    def known_kind(self) -> Type:
        """A type of which a value can be written."""
        return self.chooser.choice([Type(PUBLIC, NUMBER, 0), Type(PUBLIC, TRUTH, 0), *self.visible().values()])

    def visible(self) -> dict[str, Type]:
        found: dict[str, Type] = {}
        for scope in self.scopes:
            found.update(scope)
        return found

    def declared(self, name: str, kind: Type) -> None:
        self.scopes[-1][name] = kind

    # Types and signatures

    def type_tokens(self, kind: Type) -> list[str]:
        tokens = [] if kind.domain == PUBLIC else [kind.domain]
        if kind.domain == PUBLIC and self.odds(0.2):
            tokens = ["public"]
        if self.odds(self.wild / 4):
            tokens = ["nowhere"]
        tokens.append(self.chooser.choice(WORDS[kind.data]))
        if kind.dimension == 1:
            tokens += ["[", "[", self.chooser.choice(("1", "1", "1", "0x1", "01")), "]", "]"]
        elif self.odds(0.1):
            tokens += ["[", "[", "0", "]", "]"]
        return tokens

    def signature(self, number: int, template: bool) -> Signature:
        variables = []
        if template:
            for name in "DEFG"[: self.chooser.choice((1, 1, 1, 2, 2, 3, 4))]:
                variables.append((name, self.odds(0.3)))
        self.local_domains = self.domains + [name for name, _ in variables]
        parameters = [(self.kind(), f"u{k}") for k in range(self.chooser.randint(0, 3))]
        for name, _ in variables:
            if not self.odds(self.wild / 4):
                kind = Type(name, self.chooser.choice(tuple(Data)), self.chooser.choice((0, 0, 1)))
                parameters.insert(self.chooser.randint(0, len(parameters)), (kind, f"w{name}"))
        result = None if self.odds(0.3) else self.kind()
        name = ("t" if template else "f") + str(number)
        if self.odds(self.wild / 2):
            name = self.chooser.choice(("sum", "size", "bitExtract", "cat", "lookup", "f0", "main", "p"))
        return Signature(name, variables, result, parameters)

    # Expressions

    def expression(self, want: Type, room: int) -> list[str]:
        """An expression of exactly this type, as far as one is found."""
        if self.odds(self.wild):
            return self.fault(want, room)
        ways = [self.variable, self.variable, self.base]
        if room > 0:
            ways += [self.binary, self.binary, self.called, self.called, self.other, self.other, self.wrapped]
        for _ in range(6):
            found = self.chooser.choice(ways)(want, room - 1)
            if found is not None:
                return found
        return self.base(want, room) or self.conjured(want, room)

    def fault(self, want: Type, room: int) -> list[str]:
        """An expression of another type, or one that is refused for itself."""
        match self.chooser.randrange(24):
            case 0:
                return ["unknown"]
            case 1:
                return ["unknown", "(", *self.expression(self.known_kind(), room - 1), ")"]
            case 2:
                return ["argument", "(", '"q"', ")"]
            case 3:
                return self.called(None, room - 1) or ["publish", "(", '"s"', ",", "1", ")"]
            case 4 | 5:
                other = self.chooser.choice([data for data in Data if data is not want.data])
                return self.expression(Type(want.domain, other, want.dimension), room - 1)
            case 6 | 7 | 8:
                return self.expression(Type(want.domain, want.data, 1 - want.dimension), room - 1)
            case _:
                return self.expression(Type(self.domain(), want.data, want.dimension), room - 1)

    def variable(self, want: Type, room: int) -> list[str] | None:
        names = [name for name, kind in self.visible().items() if kind == want]
        return [self.chooser.choice(names)] if names else None

    def base(self, want: Type, room: int) -> list[str] | None:
        if want.domain != PUBLIC or want.dimension != 0:
            return self.variable(want, room)
        if want.data is TRUTH:
            return [self.chooser.choice(("true", "false"))]
        cast = ["(", self.chooser.choice(WORDS[SIGNED]), ")"] if want.data is SIGNED else []
        return [*cast, self.chooser.choice(("0", "1", "2", "7", "0x10", "18446744073709551615"))]

    def conjured(self, want: Type, room: int) -> list[str]:
        """A value of a type of which there is no variable."""
        if want.dimension == 1 and want.domain == PUBLIC:
            if self.brings_shared and want.data is TRUTH:
                return ["bitExtract", "(", "1", ")"]
            bits = self.variable(Type(PUBLIC, NUMBER if want.data is TRUTH else TRUTH, 1), 0)
            if bits:
                return ["(", want.data.value, ")", *bits]
        names = [name for name, kind in self.visible().items() if kind.domain == want.domain]
        if names:
            return [self.chooser.choice(names)]
        return ["nothing"]

    def mixed(self, want: Type, room: int, data: Data) -> tuple[list[str], list[str]]:
        """Two operands whose operator gives the domain and the dimension wanted."""
        kinds = [Type(want.domain, data, want.dimension), Type(want.domain, data, want.dimension)]
        if want.dimension == 1 and self.odds(0.4):
            kinds[1] = Type(want.domain, data, 0)
        if want.domain != PUBLIC and self.odds(0.5):
            kinds[1] = Type(PUBLIC, data, kinds[1].dimension)
        if self.odds(0.5):
            kinds.reverse()
        return self.operand(kinds[0], room), self.operand(kinds[1], room)

    def operand(self, want: Type, room: int) -> list[str]:
        found = self.expression(want, room)
        return found if len(found) == 1 or self.odds(0.2) else ["(", *found, ")"]

    def binary(self, want: Type, room: int) -> list[str] | None:
        private = want.domain != PUBLIC
        if want.data.is_number:
            signs = "+ - *".split() if private else "+ - * / %".split() if want.data is SIGNED else "+ - * / % & | ^".split()
            left, right = self.mixed(want, room, want.data)
        else:
            match self.chooser.randrange(3):
                case 0:
                    signs = "== != < <= > >=".split()
                    left, right = self.mixed(want, room, self.chooser.choice((NUMBER, SIGNED)))
                case 1:
                    signs = "== !=".split()
                    left, right = self.mixed(want, room, TRUTH)
                case _:
                    signs = "&& || & | ^".split()
                    left, right = self.mixed(want, room, TRUTH)
        if self.odds(self.wild):
            signs = "+ - * / % == != < <= > >= & | ^ && ||".split()
        return [*left, self.chooser.choice(signs), *right]

    def alike(self, want: Type) -> Type:
        """A type that differs in the domain alone, of which a value can be written."""
        visible = self.visible().values()
        return self.chooser.choice([want] + [kind for kind in visible if (kind.data, kind.dimension) == (want.data, want.dimension)])

    def wrapped(self, want: Type, room: int) -> list[str] | None:
        return ["(", *self.expression(want, room), ")"]

    def other(self, want: Type, room: int) -> list[str] | None:
        """A negation, a cast, an opening, an element or a built-in function."""
        match self.chooser.randrange(8):
            case 0 if want.data is TRUTH:
                return ["!", *self.operand(want, room)]
            case 1:
                inner = Type(want.domain, self.chooser.choice(tuple(Data)), want.dimension)
                return ["(", want.data.value, ")", *self.operand(inner, room)]
            case 2 if want.domain == PUBLIC:
                return ["declassify", "(", *self.expression(self.alike(want), room), ")"]
            case 3 if want.dimension == 0:
                array = self.variable(Type(want.domain, want.data, 1), 0)
                if array is not None:
                    return [*array, "[", *self.expression(Type(PUBLIC, NUMBER, 0), room), "]"]
            case 4 if want == Type(PUBLIC, NUMBER, 0):
                arrays = [kind for kind in self.visible().values() if kind.dimension == 1]
                return ["size", "(", *self.expression(self.chooser.choice(arrays), room), ")"] if arrays else None
            case 5 if want.dimension == 0 and want.data.is_number and (self.brings_shared or self.brings_standard):
                return ["sum", "(", *self.expression(Type(want.domain, want.data, 1), room), ")"]
            case 7 if want.data.is_number and want.domain != PUBLIC and self.brings_shared:
                array, index = self.chooser.choice(((want.domain, want.domain), (want.domain, PUBLIC), (PUBLIC, want.domain)))
                array_words = self.expression(Type(array, want.data, 1), room)
                return ["lookup", "(", *array_words, ",", *self.expression(Type(index, NUMBER, want.dimension), room), ")"]
            case 6 if want.dimension == 1:
                if want.data is TRUTH and self.brings_shared and self.odds(0.5):
                    return ["bitExtract", "(", *self.expression(Type(want.domain, NUMBER, self.chooser.choice((0, 1))), room), ")"]
                second = Type(self.chooser.choice((want.domain, PUBLIC)), want.data, 1)
                parts = [self.expression(want, room), self.expression(second, room)]
                self.chooser.shuffle(parts)
                return ["cat", "(", *parts[0], ",", *parts[1], ")"]
        return None

    def called(self, want: Type | None, room: int) -> list[str] | None:
        """A call whose result is of this type (None: of a function without one)."""
        choices = []
        for signature in self.functions:
            names = {name for name, _ in signature.variables}
            result = signature.result
            if (result is None) != (want is None):
                continue
            if want is None:
                choices.append((signature, {}))
            elif (result.data, result.dimension) == (want.data, want.dimension):
                if result.domain == want.domain and result.domain not in names:
                    choices.append((signature, {}))
                elif result.domain in names and (want.domain in self.kinds_for(signature, result.domain) or self.odds(self.wild)):
                    choices.append((signature, {result.domain: want.domain}))
        if not choices:
            return None
        signature, binding = self.chooser.choice(choices)
        return self.call_of(signature, dict(binding), room)

    def kinds_for(self, signature: Signature, variable: str) -> list[str]:
        """The domains that a domain variable can be bound to."""
        if dict(signature.variables)[variable]:
            return self.domains + sorted(self.kinded_locals)
        return [PUBLIC, *self.local_domains]

    def call_of(self, signature: Signature, binding: dict[str, str], room: int) -> list[str]:
        """A call with arguments under a binding."""
        for name, kinded in signature.variables:
            if name not in binding:
                binding[name] = self.chooser.choice(self.kinds_for(signature, name) or [PUBLIC])
        shown: set[str] = set()
        tokens = [signature.name, "("]
        for number, (kind, _) in enumerate(signature.parameters):
            if number:
                tokens.append(",")
            domain = binding.get(kind.domain, kind.domain)
            if domain != PUBLIC and self.odds(0.3) and (kind.domain not in binding or kind.domain in shown):
                domain = PUBLIC
            else:
                shown.add(kind.domain)
            tokens += self.expression(Type(domain, kind.data, kind.dimension), room)
        if self.odds(self.wild / 2):
            tokens += [","] * (len(tokens) > 2) + ["1"]
        return [*tokens, ")"]

    # Statements

    def block(self, room: int, result: Type | None) -> list[str]:
        tokens = ["{"]
        self.scopes.append({})
        for _ in range(self.chooser.randint(0, 4)):
            tokens += self.statement(room - 1, result)
        self.scopes.pop()
        return [*tokens, "}"]

    def body(self, room: int, result: Type | None) -> list[str]:
        """The statement of a branch or a loop, in a block of its own."""
        self.scopes.append({})
        tokens = self.block(room, result) if self.odds(0.6) else self.statement(room - 1, result)
        self.scopes.pop()
        return tokens

    def stored(self, want: Type, room: int) -> list[str]:
        """A value for where this type is wanted: public ones go where private ones do."""
        if want.domain != PUBLIC and self.odds(0.3):
            want = Type(PUBLIC, want.data, want.dimension)
        return self.expression(want, room)

    def declaration(self, room: int) -> list[str]:
        kind = self.kind()
        name = self.new_name()
        tokens = [*self.type_tokens(kind), name]
        if kind.dimension == 1 and self.odds(0.4):
            tokens += ["(", *self.expression(Type(PUBLIC, NUMBER, 0), room), ")"]
            if self.odds(0.5):
                tokens += ["=", *self.stored(Type(kind.domain, kind.data, 0), room)]
        elif self.odds(0.15):
            tokens += ["=", "argument", "(", '"in"', ")"]
        elif self.odds(0.7):
            tokens += ["=", *self.stored(kind, room)]
        self.declared(name, kind)
        return tokens

    def assignment(self, room: int) -> list[str] | None:
        names = list(self.visible().items())
        if not names:
            return None
        name, kind = self.chooser.choice(names)
        tokens = [name]
        if kind.dimension == 1 and self.odds(0.5):
            tokens += ["[", *self.expression(Type(PUBLIC, NUMBER, 0), room), "]"]
            kind = Type(kind.domain, kind.data, 0)
        if kind.data is NUMBER and self.odds(0.3):
            return [*tokens, self.chooser.choice(("++", "--"))]
        signs = ["="]
        if kind.data.is_number:
            signs += ["+=", "-=", "*="] + (["&=", "|=", "^="] if kind.domain == PUBLIC and kind.data is NUMBER else [])
        else:
            signs += ["&=", "|=", "^="]
        if self.odds(self.wild):
            signs = "= += -= *= &= |= ^=".split()
        return [*tokens, self.chooser.choice(signs), *self.stored(kind, room)]

    def condition(self, room: int) -> list[str]:
        return self.expression(Type(PUBLIC, TRUTH, 0), room)

    def statement(self, room: int, result: Type | None) -> list[str]:
        choice = self.chooser.randrange(20) if room > 0 else self.chooser.randrange(10)
        if choice < 4:
            return [*self.declaration(room), ";"]
        if choice < 7:
            found = self.assignment(room)
            return [*found, ";"] if found is not None else [";"]
        if choice == 7:
            found = self.called(None, room) if self.odds(0.6) else None
            return [*(found or self.expression(self.known_kind(), room)), ";"]
        if choice == 8:
            return ["publish", "(", '"out"', ",", *self.expression(self.known_kind(), room), ")", ";"]
        if choice == 9:
            return self.short(room, result)
        if choice < 13:
            tokens = ["if", "(", *self.condition(room), ")", *self.body(room, result)]
            if self.odds(0.5):
                tokens += ["else", *self.body(room, result)]
            return tokens
        if choice < 15:
            return self.block(room, result)
        return self.loop(choice, room, result)

    def short(self, room: int, result: Type | None) -> list[str]:
        match self.chooser.randrange(5):
            case 0:
                return [";"]
            case 1:
                return ["assert", "(", *self.condition(room), ")", ";"]
            case 2 if self.loops:
                return [self.chooser.choice(("break", "continue")), ";"]
            case 3:
                return self.returned(result, room)
        return [";"]

    def returned(self, result: Type | None, room: int) -> list[str]:
        if result is None or self.odds(self.wild / 4):
            return ["return", ";"]
        return ["return", *self.stored(result, room), ";"]

    def loop(self, choice: int, room: int, result: Type | None) -> list[str]:
        self.loops += 1
        self.scopes.append({})
        if choice == 15:
            tokens = ["do", *self.body(room, result), "while", "(", *self.condition(room), ")", ";"]
        elif choice < 18:
            tokens = ["while", "(", *self.condition(room), ")", *self.body(room, result)]
        else:
            first: list[str] = []
            if self.odds(0.7):
                first = self.declaration(room) if self.odds(0.7) else self.assignment(room) or []
            condition = self.condition(room) if self.odds(0.7) else []
            step: list[str] = []
            if self.odds(0.7):
                step = self.assignment(room) or []
            elif self.odds(0.5):
                step = self.called(None, room) or self.expression(self.known_kind(), room)
            tokens = ["for", "(", *first, ";", *condition, ";", *step, ")", *self.body(room, result)]
        self.scopes.pop()
        self.loops -= 1
        return tokens

    # Programs

    def function(self, signature: Signature) -> list[str]:
        tokens = []
        if signature.variables:
            tokens += ["template", "<"]
            for number, (name, kinded) in enumerate(signature.variables):
                tokens += [","] * (number > 0) + ["domain", name] + ([":", "shared3p"] if kinded else [])
            tokens.append(">")
        self.local_domains = self.domains + [name for name, _ in signature.variables]
        tokens += ["void"] if signature.result is None else self.type_tokens(signature.result)
        tokens += [signature.name, "("]
        self.scopes = [{}]
        for number, (kind, name) in enumerate(signature.parameters):
            tokens += [","] * (number > 0) + [*self.type_tokens(kind), name]
            self.declared(name, kind)
        tokens += [")", "{"]
        self.kinded_locals = {name for name, kinded in signature.variables if kinded}
        tokens += self.values_declared(self.chooser.choice((0.6, 0.95, 1, 1, 1)))
        for _ in range(self.chooser.randint(0, 5)):
            tokens += self.statement(self.chooser.randint(0, 3), signature.result)
        if signature.result is not None and not self.odds(self.wild / 2):
            tokens += self.returned(signature.result, 2)
        return [*tokens, "}"]

    def values_declared(self, chance: float) -> list[str]:
        """Declarations of one variable of most types."""
        tokens = []
        for domain in [PUBLIC, *self.local_domains]:
            for data in Data:
                for dimension in (0, 1):
                    kind = Type(domain, data, dimension)
                    if self.odds(chance):
                        name = f"m{len(self.scopes[0])}"
                        tokens += [*self.type_tokens(kind), name, ";"]
                        self.declared(name, kind)
        return tokens

    def main_function(self) -> list[str]:
        self.local_domains = list(self.domains)
        tokens = ["void", "main", "(", ")", "{"]
        self.scopes = [{}]
        self.kinded_locals = set()
        tokens += self.values_declared(self.chooser.choice((0.5, 0.9, 1, 1)))
        for _ in range(self.chooser.randint(1, 8)):
            tokens += self.statement(self.chooser.randint(0, 4), None)
        for signature in self.functions:
            if self.odds(0.5):
                tokens += [*self.call_of(signature, {}, 1), ";"]
        return [*tokens, "}"]

    def program(self) -> list[str]:
        for number in range(self.chooser.choice((0, 1, 2, 2, 3, 4))):
            self.functions.append(self.signature(number, self.odds(0.5)))
        items = [self.function(signature) for signature in self.functions]
        if not self.odds(0.01):
            items.append(self.main_function())
        if self.brings_standard:
            items.append(["import", "stdlib", ";"])
        if self.brings_shared:
            items.append(["import", "shared3p", ";"])
        elif self.domains or self.odds(0.2):
            items.append(["kind", "shared3p", ";"])
        for domain in self.domains:
            items.append(["domain", domain, "shared3p", ";"])
        if self.odds(self.wild):
            items.append(self.chooser.choice(FAULTY_ITEMS))
        self.chooser.shuffle(items)
        return [token for item in items for token in item]


def change_tokens(tokens: list[str], chooser: random.Random) -> list[str]:
    """One to three tokens deleted, doubled, swapped or replaced."""
    tokens = list(tokens)
    for _ in range(chooser.choice((1, 1, 1, 2, 3))):
        if not tokens:
            break
        at = chooser.randrange(len(tokens))
        match chooser.randrange(7):
            case 0:
                del tokens[at]
            case 1:
                tokens.insert(at, tokens[at])
            case 2:
                other = min(at + chooser.choice((1, 1, 2, 5)), len(tokens) - 1)
                tokens[at], tokens[other] = tokens[other], tokens[at]
            case 3:
                tokens[at] = chooser.choice(POOL)
            case 4:
                tokens[at] = chooser.choice(tokens)
            case 5:
                tokens.insert(at, chooser.choice(POOL))
            case _:
                change_alike(tokens, at, chooser)
    return tokens


def change_alike(tokens: list[str], at: int, chooser: random.Random) -> None:
    """A token replaced by one that may stand in its place."""
    token = tokens[at]
    for group in ALIKE:
        if token in group:
            tokens[at] = chooser.choice(group)
            return
    if token[:1].isdigit():
        tokens[at] = chooser.choice(EDGE_NUMBERS)
    elif token[:1].isalpha() or token[:1] == "_":
        names = [other for other in tokens if (other[:1].isalpha() or other[:1] == "_") and other not in POOL]
        tokens[at] = chooser.choice(names + ["unknown"]) if names else token


def long_names(tokens: list[str], chooser: random.Random) -> list[str]:
    """A name made as long as one may be, or longer by one."""
    names = sorted({token for token in tokens if (token[:1].isalpha() or token[:1] in "_\"") and token not in POOL})
    if not names:
        return tokens
    chosen = chooser.choice(names)
    quoted = chosen.startswith('"')
    longer = (chosen.strip('"') + "_" * 100)[: chooser.choice((63, 64, 64, 65))]
    longer = f'"{longer}"' if quoted else longer
    return [longer if token == chosen else token for token in tokens]


def glue(first: str, second: str) -> bool:
    """Whether two tokens need a blank between them."""
    word = lambda text: text[-1:].isalnum() or text[-1:] == "_"
    if word(first) and (second[:1].isalnum() or second[:1] == "_"):
        return True
    return (first[-1:] + second[:1]) in {"==", "!=", "<=", ">=", "&&", "||", "+=", "-=", "*=", "&=", "|=", "^=", "++", "--", "//", "/*"}


def text_of(tokens: list[str], chooser: random.Random) -> bytes:
    """The tokens with blanks and comments between them."""
    style = chooser.randrange(4)
    pieces = []
    for number, token in enumerate(tokens):
        pieces.append(token)
        following = tokens[number + 1] if number + 1 < len(tokens) else ""
        needed = glue(token, following)
        if style == 0:
            blank = " "
        elif style == 1:
            blank = " " if needed else ""
        elif style == 2:
            blank = "\n" if token in (";", "{", "}") else " "
        else:
            blank = chooser.choice(BLANKS)
        pieces.append(blank)
    ending = chooser.choice(("", "\n", "\n\n", " ", "// end", "/* end */", "\r\n"))
    return ("".join(pieces) + ending).encode()


def change_bytes(text: bytes, chooser: random.Random) -> bytes:
    """One or two bytes changed, put in or left out."""
    for _ in range(chooser.choice((1, 1, 2))):
        at = chooser.randrange(len(text) + 1)
        piece = chooser.choice(FAULTY_BYTES)
        match chooser.randrange(5):
            case 0:
                text = text[:at] + text[at + 1:]
            case 1:
                text = text[:at] + piece + text[at:]
            case 2:
                text = text[:at] + piece + text[at + 1:]
            case 3:
                text = text[:at] + bytes([chooser.randrange(256)]) + text[at + 1:]
            case _:
                text = text[:at]
    return text


def deepen(tokens: list[str], chooser: random.Random) -> list[str]:
    """A statement or an expression put at about the greatest depth."""
    ends = (")", "]", ";", "{", "}", "++", "--")
    places = [
        number for number, token in enumerate(tokens) if token == ";" and number and tokens[number - 1] in ends or token == "true"
    ]
    if not places:
        return tokens
    at = chooser.choice(places)
    if tokens[at] == ";":
        depth = chooser.randint(108, 126)
        opening, closing = chooser.choice(((["{"], ["}"]), (["if", "(", "true", ")"], []), (["while", "(", "true", ")", "{"], ["}"])))
        tail = chooser.choice(([";"], ["return", ";"], ["{", "}"], ["1", "+", "2", ";"], ["publish", "(", '"s"', ",", "1", ")", ";"]))
        return tokens[: at + 1] + opening * depth + tail + closing * depth + tokens[at + 1:]
    depth = chooser.randint(105, 126)
    opening, closing = chooser.choice(DEEP)
    depth //= 2 if len(opening) == 4 else 1
    return tokens[:at] + opening * depth + ["true"] + closing * depth + tokens[at + 1:]


def random_text(seed: str) -> bytes:
    """The random text of a seed."""
    chooser = random.Random(seed)
    tokens = Writer(chooser).program()
    way = chooser.randrange(10)
    if way in (4, 5, 6):
        tokens = change_tokens(tokens, chooser)
    if way == 7:
        tokens = long_names(tokens, chooser)
    if way == 8:
        tokens = deepen(tokens, chooser)
    text = text_of(tokens, chooser)
    if way == 9:
        text = change_bytes(text, chooser)
    return text


def random_graph(seed: str) -> bytes:
    """Templates that call one another, with statements that are good under some bindings only."""
    chooser = random.Random(seed)
    domains = ["p", "q", "r"][: chooser.randint(1, 3)]
    heads = {}
    for number in range(chooser.randint(1, 5)):
        variables = "DEFG"[: chooser.choice((0, 1, 1, 1, 2, 2, 3))]
        choices = list(variables) * 3 + [chooser.choice(domains + [PUBLIC])]
        parameters = list(variables) + [chooser.choice(choices) for _ in range(chooser.randint(0, 2))]
        chooser.shuffle(parameters)
        kinds = [chooser.random() < 0.15 for _ in variables]
        result = chooser.choice([None, None, *choices])
        heads[f"t{number}"] = (variables, kinds, parameters, result)
    faulty = chooser.choice((0, 0.05, 0.15, 0.3))
    items = []
    for name, (variables, kinds, parameters, result) in heads.items():
        values = [(f"u{k}", domain) for k, domain in enumerate(parameters)]
        items.append(graph_function(chooser, heads, domains, name, variables, kinds, values, result, faulty))
    items.append(graph_function(chooser, heads, domains, "main", "", [], [], None, faulty / 4))
    items.append("import shared3p;")
    items += [f"domain {domain} shared3p;" for domain in domains]
    chooser.shuffle(items)
    return chooser.choice(("\n", " ")).join(items).encode()


def graph_type(domain: str | None) -> str:
    return "void" if domain is None else "uint64" if domain == PUBLIC else f"{domain} uint64"


def graph_function(chooser, heads, domains, name, variables, kinds, values, result, faulty) -> str:
    """One function of a graph of calls."""
    head = ""
    if variables:
        head = "template <" + ", ".join(f"domain {v}" + (" : shared3p" if kinded else "") for v, kinded in zip(variables, kinds)) + "> "
    head += f"{graph_type(result)} {name}(" + ", ".join(f"{graph_type(domain)} {value}" for value, domain in values) + ") {"
    values = list(values)
    body = []
    for number in range(chooser.randint(0, 4)):
        domain = chooser.choice([PUBLIC, *domains, *variables])
        body.append(f"{graph_type(domain)} w{number};")
        values.append((f"w{number}", domain))
    names = [value for value, _ in values] + ["1"]
    for _ in range(chooser.randint(0, 4)):
        if chooser.random() < faulty:
            u, v = chooser.choice(names), chooser.choice(names)
            name = f"z{len(body)}"
            body.append(chooser.choice((
                f"if ({u} == {v}) ;", f"uint64 {name} = {u};", f"{chooser.choice(domains)} uint64 {name} = {u};", f"{u} / {v};",
                f"{u} + {v};", f"assert({u} < {v});", f"{u} & {v};", f"uint64[[1]] {name} ({u});", f"while ({u} != {v}) break;",
                f"{u} == {v};", "zz = 1;",
            )))
        elif heads:
            callee = chooser.choice(list(heads))
            body.append(graph_call(chooser, heads, callee, values) + ";")
    if result is not None:
        fitting = [value for value, domain in values if domain == result] or ["1"]
        chosen = chooser.choice(fitting if chooser.random() < 0.9 else names)
        if chooser.random() < 0.3:
            same = [callee for callee, head_ in heads.items() if head_[3] is not None and (head_[3] in head_[0] or head_[3] == result)]
            if same:
                chosen = graph_call(chooser, heads, chooser.choice(same), [pair for pair in values if pair[1] == result] or values)
        if chooser.random() > faulty / 8:
            body.append(f"return {chosen};")
    return head + " ".join(body) + " }"


def graph_call(chooser, heads, callee, values) -> str:
    """A call whose arguments mostly fit."""
    variables, kinds, parameters, _ = heads[callee]
    chosen = {}
    for variable, kinded in zip(variables, kinds):
        options = sorted({domain for _, domain in values if not (kinded and domain == PUBLIC)}) or [PUBLIC]
        chosen[variable] = chooser.choice(options)
    arguments = []
    for domain in parameters:
        wanted = chosen.get(domain, domain)
        fitting = [value for value, own in values if own == wanted] or [value for value, own in values if own == PUBLIC] or ["1"]
        if chooser.random() < 0.03:
            fitting = [value for value, _ in values] or ["1"]
        arguments.append(chooser.choice(fitting))
    if chooser.random() < 0.01:
        arguments.append("1")
    return f"{callee}({', '.join(arguments)})"


def random_typed(seed: str) -> bytes:
    """A random program without changed tokens, in which a few types are wrong."""
    chooser = random.Random(seed)
    writer = Writer(chooser)
    writer.wild = chooser.choice((0.002, 0.005, 0.01, 0.02))
    tokens = writer.program()
    if chooser.random() < 0.3:
        at = chooser.randrange(len(tokens))
        change_alike(tokens, at, chooser)
    return text_of(tokens, chooser)
