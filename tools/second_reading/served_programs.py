"""Programs for served miners: each with a code file of it, put together by hand from the format."""
from __future__ import annotations

from dataclasses import dataclass

from clear import Input, ValueType, evaluate
from code_file import ARRAY, NOTHING, PRIVATE, TRUTH, Code, Function, Instruction, Tag, Verifier, decode, encode
from code_meaning import code_report
from commands import DEFAULT_BUDGET, runnable
from served import Setting
from tree import Data

TIMES, BOTH = 2, 11
LINE = 2
HEAD = "import stdlib; import shared3p; domain p shared3p; void main() {\n"
TWO = 'p uint64 a = argument("a"); p uint64 b = argument("b"); '


@dataclass(frozen=True)
class Served:
    """A program, code of it, and the names that it publishes without opening them."""

    text: str
    code: bytes
    told: tuple[str, ...] = ()

    def setting(self, inputs: list[Input], tapes: list[list[int]], budget: int = DEFAULT_BUDGET, filled: bool = False) -> Setting:
        lengths = [len(tape) for tape in tapes]
        report = evaluate(runnable(self.text.encode()), inputs, budget, lengths)
        assert code_report(decode(self.code), inputs, budget, lengths) == report
        return Setting(self.code, report, inputs, tapes, budget, self.told, filled)


def of_main(body: str) -> str:
    return f"{HEAD}{body}\n}}\n"


def code_of(names: list[str], kinds: tuple[int, ...], *instructions: tuple) -> bytes:
    """The bytes of code of one function."""
    made = [Instruction(tag, tuple(operands)) for tag, *operands in instructions]
    code = Code(names, [Function(0, NOTHING, kinds, made)])
    assert Verifier(code).fault() is None
    return encode(code)


def number(name: str, word: int) -> Input:
    return Input(name, ValueType(True, Data.NUMBER, False), (word,))


def numbers(name: str, *words: int) -> Input:
    return Input(name, ValueType(True, Data.NUMBER, True), words)


def truth(name: str, word: bool) -> Input:
    return Input(name, ValueType(True, Data.TRUTH, False), (int(word),))


def truths(name: str, count: int, period: int = 3) -> Input:
    """So many truth values, of which every third one, or that of another period, is true."""
    return Input(name, ValueType(True, Data.TRUTH, True), tuple(int(place % period == 0) for place in range(count)))


def public_number(name: str, word: int) -> Input:
    return Input(name, ValueType(False, Data.NUMBER, False), (word,))


# Both arguments in registers 0 and 1, by way of register 2.
GET_TWO = (
    (Tag.ARGUMENT, 2, 0, LINE), (Tag.STORE, 0, 2), (Tag.ARGUMENT, 2, 1, LINE), (Tag.STORE, 1, 2),
)
PRODUCT = Served(
    of_main(TWO + 'publish("c", declassify(a * b));'),
    code_of(["a", "b", "c"], (PRIVATE, PRIVATE, PRIVATE, 0), *GET_TWO, (Tag.BINARY, TIMES, 2, 0, 1, LINE), (Tag.DECLASSIFY, 3, 2),
            (Tag.PUBLISH, 2, 3), (Tag.RETURN_NONE,)),
)
KEPT_PRODUCT = Served(
    of_main(TWO + 'p uint64 c = a * b; publish("c", c);'),
    code_of(["a", "b", "c"], (PRIVATE,) * 4, *GET_TWO, (Tag.BINARY, TIMES, 2, 0, 1, LINE), (Tag.STORE, 3, 2), (Tag.PUBLISH, 2, 3),
            (Tag.RETURN_NONE,)),
    ("c",),
)
CONVERSION = Served(
    of_main('p bool b = argument("b"); publish("n", declassify((uint64) b));'),
    code_of(["b", "n"], (PRIVATE | TRUTH, PRIVATE | TRUTH, PRIVATE, 0), (Tag.ARGUMENT, 1, 0, LINE), (Tag.STORE, 0, 1), (Tag.CAST, 2, 0),
            (Tag.DECLASSIFY, 3, 2), (Tag.PUBLISH, 1, 3), (Tag.RETURN_NONE,)),
)
NOTHING_DONE = Served("void main() { }\n", code_of([], (), (Tag.RETURN_NONE,)))
TOLD = Served(
    of_main('p uint64[[1]] a = argument("a"); p bool b = argument("b"); publish("a", a); publish("b", b);'),
    code_of(["a", "b"], (PRIVATE | ARRAY, PRIVATE | ARRAY, PRIVATE | TRUTH, PRIVATE | TRUTH), (Tag.ARGUMENT, 1, 0, LINE), (Tag.STORE, 0, 1),
            (Tag.ARGUMENT, 3, 1, LINE), (Tag.STORE, 2, 3), (Tag.PUBLISH, 0, 0), (Tag.PUBLISH, 1, 2), (Tag.RETURN_NONE,)),
    ("a", "b"),
)
# Truth values in arrays: both are opened, and one of them handed out after an element of the other was stored in it.
TRUTHS = Served(
    of_main('p bool[[1]] a = argument("a"); p bool[[1]] b = argument("b"); publish("o", declassify(a & b)); b[0] = a[1]; publish("b", b);'),
    code_of(["a", "b", "o"], (PRIVATE | TRUTH | ARRAY,) * 3 + (TRUTH | ARRAY, 0, PRIVATE | TRUTH, 0), (Tag.ARGUMENT, 2, 0, LINE), (Tag.STORE, 0, 2),
            (Tag.ARGUMENT, 2, 1, LINE), (Tag.STORE, 1, 2), (Tag.BINARY, BOTH, 2, 0, 1, LINE), (Tag.DECLASSIFY, 3, 2), (Tag.PUBLISH, 2, 3),
            (Tag.LITERAL, 4, 0), (Tag.LITERAL, 6, 1), (Tag.AT, 5, 0, 6, LINE), (Tag.PUT, 1, 4, 5, LINE), (Tag.PUBLISH, 1, 1), (Tag.RETURN_NONE,)),
    ("b",),
)
INDEXED = Served(
    of_main('uint64[[1]] a (5); publish("x", a[5]);'),
    code_of(["x"], (0, 0, ARRAY, 0, 0), (Tag.LITERAL, 0, 5), (Tag.LITERAL, 1, 0), (Tag.FILL, 2, 0, 1, LINE), (Tag.LITERAL, 3, 5),
            (Tag.AT, 4, 2, 3, LINE), (Tag.PUBLISH, 0, 4), (Tag.RETURN_NONE,)),
)
