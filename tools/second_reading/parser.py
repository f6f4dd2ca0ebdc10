"""Tokens to a tree, or the first token at which none of the greatest height can go on.

Each call that reads a part is told the depth at which the part's node stands. A token is taken by `take`, which is told how deep
the least tree that goes on behind this token reaches; a token that no tree allows is refused before that is asked.
"""

from lexer import Kind, Refused, Token
from tree import (
    Argument, Assert, Assign, Binary, Block, Call, Cast, Data, Declare, Declassify, DomainVariable, DoWhile, Empty, Evaluate, Flip, For,
    Function, If, Index, Leave, Node, Number, Parameter, Parentheses, Place, Program, Publish, Return, Truth, TypeName, Variable,
    While, Word,
)

HEIGHT_LIMIT = 128
DATA_TYPES = {"uint64": Data.NUMBER, "uint": Data.NUMBER, "int64": Data.SIGNED, "int": Data.SIGNED, "bool": Data.TRUTH}
LEVELS = (("||",), ("&&",), ("|",), ("^",), ("&",), ("==", "!="), ("<", "<=", ">", ">="), ("+", "-"), ("*", "/", "%"))
LEVEL_OF = {operator: level for level, operators in enumerate(LEVELS) for operator in operators}
STORES = {"+=": "+", "-=": "-", "*=": "*", "&=": "&", "|=": "|", "^=": "^"}
STEPS = {"++": "+", "--": "-"}
VARIABLE_LIMIT = 4


class Parser:
    """A reader of one list of tokens."""

    def __init__(self, tokens: list[Token], limit: int = HEIGHT_LIMIT):
        self.tokens = tokens
        self.at = 0
        self.limit = limit

    # Tokens

    @property
    def now(self) -> Token:
        return self.tokens[self.at]

    def ahead(self) -> Token:
        return self.tokens[min(self.at + 1, len(self.tokens) - 1)]

    def sees(self, *words: str) -> bool:
        return self.now.kind is Kind.WORD and self.now.text in words

    def sees_kind(self, kind: Kind) -> bool:
        return self.now.kind is kind

    def refuse(self, sign: str = "Y1"):
        raise Refused(sign, self.now.place)

    def take(self, deepest: int = 0) -> Token:
        """The token, where the least tree after it reaches no deeper than the limit."""
        if deepest > self.limit:
            self.refuse("Y2")
        token = self.now
        self.at += 1
        return token

    def want(self, *words: str) -> Token:
        if not self.sees(*words):
            self.refuse()
        return self.take()

    def want_kind(self, kind: Kind) -> Token:
        if not self.sees_kind(kind):
            self.refuse()
        return self.take()

    def want_name(self) -> Word:
        token = self.want_kind(Kind.NAME)
        return Word(token.text, token.place)

    # Programs

    def program(self) -> Program:
        program = Program([], [], [], [], 0)
        while not self.sees_kind(Kind.END):
            self.item(program)
        program.end = self.now.place
        return program

    def item(self, program: Program) -> None:
        if self.sees("import", "kind"):
            names = program.imports if self.take().text == "import" else program.kinds
            names.append(self.want_name())
            self.want(";")
        elif self.sees("domain"):
            self.take()
            name = self.want_name()
            program.domains.append((name, self.want_name()))
            self.want(";")
        else:
            program.functions.append(self.function())

    def function(self) -> Function:
        variables = self.domain_variables() if self.sees("template") else ()
        if self.sees("void"):
            self.take()
            result = None
        else:
            result = self.type_name()
        name = self.want_name()
        parameters = self.parameters()
        return Function(variables, result, name, parameters, self.block(3, False))

    def domain_variables(self) -> tuple[DomainVariable, ...]:
        self.want("template")
        self.want("<")
        variables = [self.domain_variable()]
        while len(variables) < VARIABLE_LIMIT and self.sees(","):
            self.take()
            variables.append(self.domain_variable())
        self.want(">")
        return tuple(variables)

    def domain_variable(self) -> DomainVariable:
        self.want("domain")
        name = self.want_name()
        if not self.sees(":"):
            return DomainVariable(name, None)
        self.take()
        return DomainVariable(name, self.want_name())

    def parameters(self) -> tuple[Parameter, ...]:
        self.want("(")
        found = []
        if not self.sees(")"):
            found.append(self.parameter())
            while self.sees(","):
                self.take()
                found.append(self.parameter())
        self.want(")")
        return tuple(found)

    def parameter(self) -> Parameter:
        written = self.type_name()
        return Parameter(written, self.want_name())

    def type_name(self) -> TypeName:
        domain = None
        if self.sees("public"):
            self.take()
        elif self.sees_kind(Kind.NAME):
            domain = self.want_name()
        return self.type_behind(domain)

    def type_behind(self, domain: Word | None) -> TypeName:
        """The data type and the dimension after a domain."""
        word = self.want(*DATA_TYPES).text
        data = DATA_TYPES[word]
        dimension = 0
        if self.sees("["):
            self.take()
            self.want("[")
            if not self.sees_kind(Kind.NUMBER) or self.now.value > 1:
                self.refuse()
            dimension = self.take().value
            self.want("]")
            self.want("]")
        return TypeName(domain, data, dimension)

    # Statements, whose node stands at `depth`

    def block(self, depth: int, looped: bool) -> Block:
        if not self.sees("{"):
            self.refuse()
        block = Block(self.take(depth).place)
        while not self.sees("}"):
            block.statements.append(self.statement(depth + 1, looped))
        self.take()
        return block

    def statement(self, depth: int, looped: bool) -> Node:
        place = self.now.place
        if self.sees("{"):
            return self.block(depth, looped)
        if self.sees(";"):
            self.take(depth)
            return Empty(place)
        if self.sees("if"):
            return self.branches(depth, looped)
        if self.sees("while"):
            self.take(depth + 1)
            condition = self.in_parentheses(depth + 1)
            return While(place, condition, self.statement(depth + 1, True))
        if self.sees("do"):
            self.take(depth + 1)
            body = self.statement(depth + 1, True)
            self.want("while")
            condition = self.in_parentheses(depth + 1)
            self.want(";")
            return DoWhile(place, body, condition)
        if self.sees("for"):
            return self.counted_loop(depth)
        if looped and self.sees("break", "continue"):
            word = self.take(depth).text
            self.want(";")
            return Leave(place, word)
        if self.sees("return"):
            self.take(depth)
            value = None if self.sees(";") else self.expression(depth + 1)
            self.want(";")
            return Return(place, value)
        if self.sees("assert"):
            self.take(depth + 1)
            condition = self.in_parentheses(depth + 1)
            self.want(";")
            return Assert(place, condition)
        found = self.simple(depth)
        self.want(";")
        return found

    def in_parentheses(self, depth: int) -> Node:
        """An expression in parentheses that are no node."""
        self.want("(")
        inner = self.expression(depth)
        self.want(")")
        return inner

    def branches(self, depth: int, looped: bool) -> Node:
        place = self.take(depth + 1).place
        condition = self.in_parentheses(depth + 1)
        then = self.statement(depth + 1, looped)
        otherwise = None
        if self.sees("else"):
            self.take()
            otherwise = self.statement(depth + 1, looped)
        return If(place, condition, then, otherwise)

    def counted_loop(self, depth: int) -> Node:
        place = self.take(depth + 1).place
        self.want("(")
        first = None if self.sees(";") else self.first_part(depth + 1)
        self.want(";")
        condition = None if self.sees(";") else self.expression(depth + 1)
        self.want(";")
        step = None if self.sees(")") else self.step_part(depth + 1)
        self.want(")")
        return For(place, first, condition, step, self.statement(depth + 1, True))

    def begins_declaration(self) -> bool:
        """Whether what comes can be nothing but a declaration."""
        if self.sees("public", *DATA_TYPES):
            return True
        following = self.ahead()
        return self.sees_kind(Kind.NAME) and following.kind is Kind.WORD and following.text in DATA_TYPES

    def simple(self, depth: int) -> Node:
        """A declaration, an assignment or an expression, as a statement."""
        if self.begins_declaration():
            return self.declaration(depth)
        place = self.now.place
        if not self.sees_kind(Kind.NAME):
            return Evaluate(place, self.expression(depth + 1))
        name = self.named(depth)
        if self.sees("="):
            return self.assignment(name, None, 0, depth)
        if self.sees(*STORES, *STEPS):
            return self.assignment(name, None, 0, depth)
        if self.sees("["):
            self.take(depth + 2)
            index, tall = self.leveled(depth + 2, 0)
            self.want("]")
            if self.sees("=", *STORES, *STEPS):
                return self.assignment(name, index, tall, depth)
            read = Index(place, Variable(name.place, name.text), index)
            return Evaluate(place, self.operators(read, 1 + tall, depth + 1, 0)[0])
        if self.sees("("):
            call, tall = self.call(name, depth + 1)
            primary, tall = self.indexed(call, tall, depth + 1)
            return Evaluate(place, self.operators(primary, tall, depth + 1, 0)[0])
        if self.now.kind is Kind.WORD and self.now.text in LEVEL_OF:
            return Evaluate(place, self.operators(Variable(name.place, name.text), 1, depth + 1, 0)[0])
        if self.sees(";"):
            if depth + 1 > self.limit:
                self.refuse("Y2")
            return Evaluate(place, Variable(name.place, name.text))
        return self.refuse()

    def named(self, deepest: int) -> Word:
        token = self.take(deepest)
        return Word(token.text, token.place)

    def first_part(self, depth: int) -> Node:
        """The first part of a `for`: a declaration or an assignment."""
        if self.begins_declaration():
            return self.declaration(depth)
        if not self.sees_kind(Kind.NAME):
            self.refuse()
        name = self.named(depth)
        index, tall = None, 0
        if self.sees("["):
            self.take(depth + 2)
            index, tall = self.leveled(depth + 2, 0)
            self.want("]")
        if not self.sees("=", *STORES, *STEPS):
            self.refuse()
        return self.assignment(name, index, tall, depth)

    def step_part(self, depth: int) -> Node:
        """The third part of a `for`: an assignment or a bare expression."""
        if not self.sees_kind(Kind.NAME):
            return self.expression(depth)
        name = self.named(depth)
        read: Node = Variable(name.place, name.text)
        if self.sees("=", *STORES, *STEPS):
            return self.assignment(name, None, 0, depth)
        tall = 1
        if self.sees("["):
            self.take(depth + 1)
            index, tall = self.leveled(depth + 1, 0)
            self.want("]")
            if self.sees("=", *STORES, *STEPS):
                return self.assignment(name, index, tall, depth)
            read, tall = Index(name.place, read, index), 1 + tall
        elif self.sees("("):
            call, tall = self.call(name, depth)
            read, tall = self.indexed(call, tall, depth)
        return self.operators(read, tall, depth, 0)[0]

    def declaration(self, depth: int) -> Node:
        place = self.now.place
        domain = None
        if self.sees("public"):
            self.take(depth)
        elif self.sees_kind(Kind.NAME):
            domain = self.named(depth)
        elif depth > self.limit:
            self.refuse("Y2")
        written = self.type_behind(domain)
        name = self.want_name()
        size = value = None
        if self.sees("("):
            self.take(depth + 1)
            size = self.expression(depth + 1)
            self.want(")")
        if self.sees("="):
            self.take(depth + 1)
            value = self.expression(depth + 1)
        return Declare(place, written, name, size, value)

    def assignment(self, name: Word, index: Node | None, tall: int, depth: int) -> Node:
        """The rest of an assignment after its place, whose index has the height `tall`."""
        target = Place(name.place, name.text, index)
        if self.sees("="):
            self.take(depth + 1 + tall)
            return Assign(name.place, target, self.expression(depth + 1))
        read: Node = Variable(name.place, name.text)
        if index is not None:
            read = Index(name.place, read, index)
        token = self.take(depth + 2 + tall)
        if token.text in STEPS:
            return Assign(name.place, target, Binary(name.place, STEPS[token.text], read, Number(token.place, 1)))
        value = self.expression(depth + 2)
        return Assign(name.place, target, Binary(name.place, STORES[token.text], read, value))

    # Expressions, whose topmost node stands at `depth` as long as no operator follows; with their heights

    def expression(self, depth: int) -> Node:
        return self.leveled(depth, 0)[0]

    def leveled(self, depth: int, level: int) -> tuple[Node, int]:
        """An expression of operators that bind at least as tightly as `level`."""
        left, tall = self.unary(depth)
        return self.operators(left, tall, depth, level)

    def operators(self, left: Node, tall: int, depth: int, level: int) -> tuple[Node, int]:
        """What follows after a left operand of height `tall`."""
        while self.now.kind is Kind.WORD and LEVEL_OF.get(self.now.text, -1) >= level:
            token = self.take(depth + tall)
            right, right_tall = self.leveled(depth + 1, LEVEL_OF[token.text] + 1)
            left = Binary(left.place, token.text, left, right)
            tall = 1 + max(tall, right_tall)
        return left, tall

    def unary(self, depth: int) -> tuple[Node, int]:
        place = self.now.place
        if self.sees("!"):
            self.take(depth + 1)
            inner, tall = self.unary(depth + 1)
            return Flip(place, inner), 1 + tall
        if self.sees("("):
            self.take(depth + 1)
            if self.sees(*DATA_TYPES):
                data = DATA_TYPES[self.take().text]
                self.want(")")
                inner, tall = self.unary(depth + 1)
                return Cast(place, data, inner), 1 + tall
            inner, tall = self.leveled(depth + 1, 0)
            self.want(")")
            return self.indexed(Parentheses(place, inner), 1 + tall, depth)
        return self.indexed(*self.primary(depth), depth)

    def indexed(self, primary: Node, tall: int, depth: int) -> tuple[Node, int]:
        if not self.sees("["):
            return primary, tall
        self.take(depth + tall)
        index, index_tall = self.leveled(depth + 1, 0)
        self.want("]")
        return Index(primary.place, primary, index), 1 + max(tall, index_tall)

    def primary(self, depth: int) -> tuple[Node, int]:
        """A primary expression without parentheses around it."""
        place = self.now.place
        if self.sees_kind(Kind.NUMBER):
            return Number(place, self.take(depth).value), 1
        if self.sees("true", "false"):
            return Truth(place, self.take(depth).text == "true"), 1
        if self.sees_kind(Kind.NAME):
            name = self.named(depth)
            if self.sees("("):
                return self.call(name, depth)
            return Variable(place, name.text), 1
        if self.sees("argument"):
            self.take(depth)
            self.want("(")
            name = self.want_kind(Kind.STRING).text
            self.want(")")
            return Argument(place, name), 1
        if self.sees("declassify"):
            self.take(depth + 1)
            self.want("(")
            inner, tall = self.leveled(depth + 1, 0)
            self.want(")")
            return Declassify(place, inner), 1 + tall
        if self.sees("publish"):
            self.take(depth + 1)
            self.want("(")
            name = self.want_kind(Kind.STRING).text
            self.want(",")
            inner, tall = self.leveled(depth + 1, 0)
            self.want(")")
            return Publish(place, name, inner), 1 + tall
        return self.refuse()

    def call(self, name: Word, depth: int) -> tuple[Node, int]:
        """The arguments of a call, from the opening parenthesis on."""
        self.take(depth)
        arguments: list[Node] = []
        tall = 0
        if not self.sees(")"):
            while True:
                argument, argument_tall = self.leveled(depth + 1, 0)
                arguments.append(argument)
                tall = max(tall, argument_tall)
                if not self.sees(","):
                    break
                self.take()
        self.want(")")
        return Call(name.place, name.text, arguments), 1 + tall


def parse(tokens: list[Token], limit: int = HEIGHT_LIMIT) -> Program:
    """The tree of a program."""
    return Parser(tokens, limit).program()
