"""A small program with every file that a call can name, and good calls of each command."""
from __future__ import annotations

import random
from dataclasses import dataclass, replace

import code_file
from clear import Input, ValueType
from code_file import NOTHING, Code, Function, Instruction, Tag
from commands import Caller
from files import write_inputs, write_tapes
from gates import MASK
from tree import Data

PROGRAM = b"""import stdlib; import shared3p; domain p shared3p; void main() {
p uint64 a = argument("a"); p bool[[1]] b = argument("b"); uint64 k = argument("k");
publish("s", declassify(a * sum((uint64) b) + k)); for (uint64 i = 0; i < k; i++) ; publish("t", a);
}
"""
SEED = "000102030405060708090a0b0c0d0e0f101112131415161718191a1b1c1d1e1f"
LENGTHS = (4, 25, 18, 18)


# A function that multiplies two private numbers, publishes, counts down and calls another one, by hand; and the same as code of the first version.
MULTIPLYING = Code(["a", "s"], [
    Function(0, NOTHING, (1, 1, 0, 2, 0), [
        Instruction(Tag.ARGUMENT, (0, 0, 3)), Instruction(Tag.BINARY, (2, 1, 0, 0, 3)), Instruction(Tag.PUBLISH, (1, 1)),
        Instruction(Tag.LITERAL, (2, 2)), Instruction(Tag.LITERAL, (4, 1)), Instruction(Tag.CALL, (1, 2, 2, 4)),
        Instruction(Tag.BINARY, (6, 3, 4, 2, 5)), Instruction(Tag.BRANCH, (3, 1, 5)), Instruction(Tag.JUMP, (9,)), Instruction(Tag.RETURN_NONE, ()),
    ]),
    Function(1, 0, (0, 0), [
        Instruction(Tag.LITERAL, (1, 1)), Instruction(Tag.BINARY, (1, 0, 0, 1, 8)), Instruction(Tag.RETURN, (0,)),
    ]),
])
CODE, FIRST_CODE = code_file.encode(MULTIPLYING), code_file.encode(MULTIPLYING, code_file.FIRST)


@dataclass(frozen=True)
class Line:
    """The words of a call by their parts."""

    command: str
    places: tuple[str, ...]
    options: tuple[tuple[str, str], ...] = ()

    def words(self) -> list[str]:
        return [self.command, *self.places, *(word for name, value in self.options for word in (f"--{name}", value))]

    def having(self, name: str, value: str) -> Line:
        """The same with another value of an option."""
        return replace(self, options=tuple((one, value if one == name else other) for one, other in self.options))


ORDERED = (("schedule", "s"), ("budget", "100"))
LINES = (
    Line("check", ("p.sc",)),
    Line("compile", ("p.sc",), (("code", "code"),)),
    Line("eval", ("p.sc",), (("input", "i.json"), ("budget", "100"))),
    Line("need", ("p.sc",), (("input", "i.json"), ("budget", "100"))),
    Line("run", ("p.sc",), (("input", "i.json"), ("tape", "t"), *ORDERED, ("record", "r"), ("views", "v"))),
    Line("run", ("p.sc",), (("input", "i.json"), ("seed", SEED), ("words", "30"), ("shuffle", SEED), ("record", "r"))),
    Line("map", ("1", "p.sc"),
         (("input", "i.json"), ("tape", "t"), ("sim", "m"), ("public", "q"), ("opened", "o"), ("budget", "100"))),
    Line("simulate", ("2", "p.sc"), (("public", "public"), ("opened", "opened"), ("sim", "sim"), ("view", "w"), *ORDERED)),
    Line("simulate", ("3", "p.sc"), (("public", "public"), ("opened", "opened"), ("sim", "sim"), ("view", "w"), ("shuffle", SEED))),
    Line("twin", ("3", "p.sc"), (("input", "i.json"), ("second", "j.json"), ("tape", "t"), ("to", "u"), ("budget", "100"))),
    Line("client-map", ("p.sc",),
         (("input", "i.json"), ("tape", "t"), ("sim", "m"), ("public", "q"), ("opened", "o"), ("published", "h"), ("budget", "100"))),
    Line("client-simulate", ("p.sc",),
         (("public", "public"), ("opened", "opened"), ("published", "published"), ("sim", "client_sim"), ("view", "w"), ("budget", "100"))),
    Line("client-twin", ("p.sc",), (("input", "i.json"), ("second", "i.json"), ("tape", "t"), ("to", "u"), ("budget", "100"))),
    Line("deal", (), (("input", "i.json"), ("tape", "t"), ("to", "d"))),
    Line("load", (), (("number", "2"),)),
    Line("gather", ("first.2", "second.2"), (("me", "2"), ("to", "g"))),
    Line("join", ("text.1", "text.2", "text.3")),
    Line("upgrade", ("code.first",), (("code", "code"),)),
    # (these two end at a file that isn't there: else they would wait for peers, or start some)
    Line("miner", ("gone",), (("me", "2"), ("share", "first.2"), ("tape", "first.t2"), ("port", "47310"), ("out", "y"), ("budget", "100"))),
    Line("trio", ("gone",), (("input", "i.json"), ("tape", "t"), ("to", "d"), ("port", "47310"), ("budget", "100"))),
)
# The same two with all files, for calls that are made only where one of these is refused.
WAITING = (replace(LINES[-2], places=("code.m",)), replace(LINES[-1], places=("p.sc",)))
# The texts of three miners. Words of truth values may have bits after the last one.
TEXTS = [
    f"open 42 0\nshare t uint64 {first} {second}\npublish s true\nopen\nshare b bool 1 {bits}\nshare none bool 0\nshare c bool 65 {first} {bits}\n"
    "publish n\nend done cost 9\n".encode()
    for first, second, bits in ((MASK, 7, 1), (5, 18, 3), (3, 0, 4))
]
WRITTEN = {
    "compile": ("code",), "run": ("views", "record"), "map": ("sim", "public", "opened"), "simulate": ("view",), "twin": ("to",),
    "client-map": ("sim", "public", "opened", "published"), "client-simulate": ("view",), "client-twin": ("to",),
    "deal": ("to",), "gather": ("to",), "upgrade": ("code",),
}
FILE_OPTIONS = ("input", "second", "public", "opened", "published", "tape", "sim", "schedule")


def is_read(line: Line, name: str) -> bool:
    """Whether an option of a call names a file that is read."""
    return name in FILE_OPTIONS and name not in WRITTEN.get(line.command, ())


def inputs(number: int, bits: tuple[int, ...]) -> list[Input]:
    """The inputs of the small program."""
    kinds = ValueType(True, Data.NUMBER, False), ValueType(True, Data.TRUTH, True), ValueType(False, Data.NUMBER, False)
    return [Input("a", kinds[0], (number,)), Input("b", kinds[1], bits), Input("k", kinds[2], (3,))]


def made_files() -> dict[str, bytes]:
    """All good files; those that commands write are written by the model."""
    source = random.Random("tapes of the small program")
    files = {"p.sc": PROGRAM, "i.json": write_inputs(inputs(6, (1, 0, 1))), "j.json": write_inputs(inputs(12, (0, 1, 0)))}
    files["t"] = write_tapes([[source.randint(0, MASK) for _ in range(length)] for length in LENGTHS])
    caller = Caller(files, set())
    given = ["p.sc", "--input", "i.json", "--tape", "t"]
    for words in (["map", "2", *given, "--sim", "sim", "--public", "public", "--opened", "opened"],
                  ["client-map", *given, "--sim", "client_sim", "--public", "public", "--opened", "opened", "--published", "published"],
                  ["run", *given, "--shuffle", SEED, "--record", "s"]):
        answer = caller.call(words)
        files.update({path: data for path, data in answer.written if data is not None})
    files["other.json"] = write_inputs([replace(entry, name=f"other_{entry.name}") for entry in inputs(20, (1, 1))])
    for given, prefix in (("i.json", "first"), ("other.json", "second")):
        dealt = Caller(files, set()).call(["deal", "--input", given, "--tape", "t", "--to", prefix])
        files.update({path: data for path, data in dealt.written if path in ("first.1", "first.2", "first.t2", "second.2")})
    files.update({f"text.{miner}": text for miner, text in enumerate(TEXTS, 1)})
    files |= {"code.m": CODE, "code.first": FIRST_CODE}
    return files


GOOD_FILES = made_files()
