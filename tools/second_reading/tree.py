"""The tree of a program. Each node has the offset where it begins."""

from dataclasses import dataclass, field
from enum import Enum


class Data(Enum):
    """The three data types."""

    NUMBER = "uint64"
    SIGNED = "int64"
    TRUTH = "bool"

    @property
    def is_number(self) -> bool:
        return self is not Data.TRUTH


@dataclass(frozen=True)
class Word:
    """A name and its place."""

    text: str
    place: int


@dataclass(frozen=True)
class TypeName:
    """A type as written: its domain (None is public), data type and dimension."""

    domain: Word | None
    data: Data
    dimension: int


@dataclass(eq=False)
class Node:
    """What counts for the height and the size of a tree."""

    place: int

    def children(self) -> list["Node"]:
        return []


@dataclass(eq=False)
class Number(Node):
    """A number."""

    value: int


@dataclass(eq=False)
class Truth(Node):
    """`true` or `false`."""

    value: bool


@dataclass(eq=False)
class Variable(Node):
    """A variable that is read."""

    name: str


@dataclass(eq=False)
class Argument(Node):
    """`argument` with the name of an input."""

    name: str


@dataclass(eq=False)
class Parentheses(Node):
    """An expression in parentheses."""

    inner: Node

    def children(self):
        return [self.inner]


@dataclass(eq=False)
class Flip(Node):
    """`!`"""

    inner: Node

    def children(self):
        return [self.inner]


@dataclass(eq=False)
class Cast(Node):
    """An expression after a data type in parentheses."""

    data: Data
    inner: Node

    def children(self):
        return [self.inner]


@dataclass(eq=False)
class Declassify(Node):
    """`declassify`"""

    inner: Node

    def children(self):
        return [self.inner]


@dataclass(eq=False)
class Publish(Node):
    """`publish` with its name."""

    name: str
    inner: Node

    def children(self):
        return [self.inner]


@dataclass(eq=False)
class Binary(Node):
    """An operator between two operands."""

    operator: str
    left: Node
    right: Node

    def children(self):
        return [self.left, self.right]


@dataclass(eq=False)
class Index(Node):
    """An element of an array."""

    array: Node
    index: Node

    def children(self):
        return [self.array, self.index]


@dataclass(eq=False)
class Call(Node):
    """A call of a function, built in or not."""

    name: str
    arguments: list[Node]

    def children(self):
        return self.arguments


@dataclass(eq=False)
class Place(Node):
    """The target of an assignment."""

    name: str
    index: Node | None

    def children(self):
        return [] if self.index is None else [self.index]


@dataclass(eq=False)
class Block(Node):
    """Statements in braces."""

    statements: list[Node] = field(default_factory=list)

    def children(self):
        return self.statements


@dataclass(eq=False)
class Empty(Node):
    """`;`"""


@dataclass(eq=False)
class If(Node):
    """`if`, perhaps with `else`."""

    condition: Node
    then: Node
    otherwise: Node | None

    def children(self):
        return [self.condition, self.then] + ([] if self.otherwise is None else [self.otherwise])


@dataclass(eq=False)
class While(Node):
    """`while`"""

    condition: Node
    body: Node

    def children(self):
        return [self.condition, self.body]


@dataclass(eq=False)
class DoWhile(Node):
    """`do` .. `while`"""

    body: Node
    condition: Node

    def children(self):
        return [self.body, self.condition]


@dataclass(eq=False)
class For(Node):
    """The step is an assignment or a bare expression."""

    first: Node | None
    condition: Node | None
    step: Node | None
    body: Node

    def children(self):
        return [part for part in (self.first, self.condition, self.step, self.body) if part is not None]


@dataclass(eq=False)
class Leave(Node):
    """`break` or `continue`."""

    word: str


@dataclass(eq=False)
class Return(Node):
    """`return`, perhaps with a value."""

    value: Node | None

    def children(self):
        return [] if self.value is None else [self.value]


@dataclass(eq=False)
class Assert(Node):
    """`assert`"""

    condition: Node

    def children(self):
        return [self.condition]


@dataclass(eq=False)
class Declare(Node):
    """A declaration, perhaps with a count of elements and a value."""

    type: TypeName
    name: Word
    size: Node | None
    value: Node | None

    def children(self):
        return [part for part in (self.size, self.value) if part is not None]


@dataclass(eq=False)
class Assign(Node):
    """An assignment; `+=` and its like, `++` and `--` are written out."""

    target: Place
    value: Node

    def children(self):
        return [self.target, self.value]


@dataclass(eq=False)
class Evaluate(Node):
    """An expression as a statement."""

    value: Node

    def children(self):
        return [self.value]


@dataclass(frozen=True)
class DomainVariable:
    """A domain variable of a template, perhaps of a kind."""

    name: Word
    kind: Word | None


@dataclass(frozen=True)
class Parameter:
    """A parameter of a function."""

    type: TypeName
    name: Word


@dataclass(eq=False)
class Function:
    """A function; `result` is None where it is void."""

    variables: tuple[DomainVariable, ...]
    result: TypeName | None
    name: Word
    parameters: tuple[Parameter, ...]
    body: Block


@dataclass(eq=False)
class Program:
    """The four lists of items, each in the order of the text, and where the text ends."""

    imports: list[Word]
    kinds: list[Word]
    domains: list[tuple[Word, Word]]
    functions: list[Function]
    end: int


def node_count(node: Node) -> int:
    """How many nodes a tree has."""
    count, rest = 0, [node]
    while rest:
        at = rest.pop()
        count += 1
        rest.extend(at.children())
    return count


def height(node: Node) -> int:
    """How many nodes the longest way down has."""
    return 1 + max((height(child) for child in node.children()), default=0)
