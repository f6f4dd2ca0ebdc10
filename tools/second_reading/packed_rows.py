#!/usr/bin/env python3
"""packed_rows FOLDER: writes the row files of truth values in arrays whose words are one, about one and more (truths.rows), and of code of the first version
that is written by the rules of the second (upgrades.rows), made by the model of this folder alone."""
from __future__ import annotations

import sys

sys.dont_write_bytecode = True
from clear import Input, ValueType
from clear import shown as elements
from code_file import FIRST, NOTHING, Code, Function, Instruction, Tag, decode, encode
from commands import Caller
from fault_calls_counted import answered, shown
from files import write_inputs, write_tapes
from good_calls import MULTIPLYING
from link_rows import ALL_ONES, Rows, ends, file, hexed, write_files
from served_programs import HEAD, NOTHING_DONE, PRODUCT
from tree import Data

SIZES = (1, 63, 64, 65)
BODIES = (
    'publish("x", declassify(a & b)); publish("y", a | b);',
    'publish("x", a ^ b); publish("y", declassify(a == b)); publish("z", a != b);',
    'publish("x", !a); publish("y", declassify(!(a & !b)));',
    'publish("x", a & s); publish("y", declassify(s | b)); publish("z", s == a);',
    'publish("x", k & a); publish("y", declassify(a & true)); publish("z", s & k); publish("w", a ^ k);',
    'publish("x", cat(a, b)); publish("y", cat(b, cat(a, k))[size(a)]); publish("z", declassify(cat(cat(k, a), b)));',
    'publish("x", declassify((uint64) a)); publish("y", sum((uint64) (a & b)));',
    'a[0] = s; a[size(a) - 1] = b[0]; publish("x", a); publish("y", a[size(a) / 2]); publish("z", declassify(a[size(a) - 1]));',
    'for (uint64 i = 0; i < size(a); i++) { a[i] = b[size(a) - 1 - i]; } publish("x", a); publish("y", declassify(a ^ b));',
    'p bool[[1]] v (size(a)) = s; v[size(a) / 3] = !s; publish("x", v); publish("y", declassify(v & a));',
    'p bool[[1]] v; publish("n", v); v = cat(v, a); publish("x", v); publish("e", cat(v, b) == cat(a, v));',
)
NUMBER_BODIES = (
    'publish("l", declassify(m < n)); publish("g", m >= n);',
    'publish("e", declassify(m == n)); publish("d", m != n); publish("z", (bool) m);',
    'publish("s", sum((uint64) (m <= n))); publish("t", sum((uint64) !(m > n)));',
)
OTHERS = (
    'p uint64 m = argument("m"); p bool[[1]] v = bitExtract(m); v[63] = v[0]; publish("v", v); publish("w", declassify(v ^ bitExtract(m)));',
    'p uint64[[1]] n = argument("n"); publish("v", declassify(bitExtract(n))); publish("w", bitExtract(n)[65]); publish("x", sum((uint64) bitExtract(n)));',
    'p bool s; publish("s", s); publish("t", declassify(s | true)); p bool[[1]] v (65); v[64] = true; publish("v", v);',
    'p bool[[1]] v (0); publish("v", v); publish("w", declassify(v & v)); publish("c", cat(v, v)); publish("n", size(v));',
)
LARGE = (
    'p bool[[1]] v (1048576) = true; v[64] = false; v = v & v; publish("x", v[64]); publish("y", declassify(v[1048575]));',
    'p bool[[1]] v (524288) = true; v = cat(v, !v); publish("x", v[524287]); publish("y", v[524288]); publish("z", declassify((v != v)[1048575]));',
    'p bool[[1]] v (32769) = true; v = v & !v; publish("x", declassify(v[32768])); publish("n", sum((uint64) !v));',
    'p bool[[1]] v (1048577);',
    'p bool[[1]] v (1048576); v = cat(v, v);',
)
ROOMY = "eval p.sc --input p.json --budget 9000000"


def listed(count: int, period: int, rest: int = 0) -> tuple[int, ...]:
    return tuple(int(place % period == rest) for place in range(count))


def entry(name: str, private: bool, data: Data, array: bool, *words: int) -> Input:
    return Input(name, ValueType(private, data, array), words)


def inputs_of(size: int) -> list[Input]:
    """The inputs of the bodies, with so many truth values in each array; the last one is true in one and false in the other."""
    return [
        entry("a", True, Data.TRUTH, True, *listed(size, 3, (size - 1) % 3)), entry("b", True, Data.TRUTH, True, *listed(size, 2, size % 2)),
        entry("s", True, Data.TRUTH, False, 1), entry("k", False, Data.TRUTH, True, *listed(size, 5, (size - 1) % 5)),
    ]


def numbers_of(size: int) -> list[Input]:
    first = [(place * 0x9E3779B97F4A7C15) & ALL_ONES for place in range(size)]
    second = [word if place % 4 == 0 else word ^ 1 << place for place, word in enumerate(first)]
    return [entry("m", True, Data.NUMBER, True, *first), entry("n", True, Data.NUMBER, True, *second)]


def given(inputs: list[Input]) -> str:
    parts = []
    for one in inputs:
        words = elements(one.type.data, one.words)
        value = f"[{','.join(words)}]" if one.type.array else words[0]
        parts.append(f"{one.name} {'private' if one.type.private else 'public'} {one.type.data.value} {value}")
    return f"given {'; '.join(parts)}".rstrip()


def declarations(inputs: list[Input]) -> str:
    lines = []
    for one in inputs:
        kind = ("p " if one.type.private else "") + one.type.data.value + ("[[1]]" if one.type.array else "")
        lines.append(f'{kind} {one.name} = argument("{one.name}");')
    return " ".join(lines)


class TruthRows(Rows):
    """Rows of programs, each in a line."""

    def programs(self, title: str, inputs: list[Input], start: str = "", call: str = "eval p.sc --input p.json"):
        """A group of programs that begin so, on these inputs."""
        self.start, self.inputs, self.words = f"{HEAD[:-1]} {start}".rstrip(), inputs, call.split()
        self.given = given(inputs)
        self.group(title, *([f"call {call}"] if call == ROOMY else []), "before", f">{self.start}", "after", "|", "|}", "", self.given)

    def done(self, body: str):
        """What a program prints, and what it needs."""
        self.add(f"do {body}")
        found = {"p.sc": f"{self.start}{body}\n}}\n".encode(), "p.json": write_inputs(self.inputs)}
        printed, needed = (Caller(found, set()).call([word, *self.words[1:]]).out.decode() for word in ("eval", "need"))
        self.add(*[f"= {line}" for line in (printed + needed).splitlines()])

    def call(self, title: str, words: str, found: dict[str, bytes], *spoken: str):
        """A row of a call, and the files of which it speaks."""
        self.row(title, *([f"call {words}"]), *[line for path in spoken for line in file(path, shown(found[path]))],
                 *answered(Caller(found, set()).call(words.split())))


def evaluated(rows: TruthRows):
    for size in SIZES:
        inputs = inputs_of(size)
        rows.programs(f"operations on {size} truth value{'s' if size > 1 else ''}", inputs, declarations(inputs))
        for body in BODIES:
            rows.done(body)
    for size in (1, 64, 65):
        inputs = numbers_of(size)
        rows.programs(f"comparisons of {size} number{'s' if size > 1 else ''}", inputs, declarations(inputs))
        for body in NUMBER_BODIES:
            rows.done(body)
    inputs = [entry("m", True, Data.NUMBER, False, 0x8000000100000003), entry("n", True, Data.NUMBER, True, ALL_ONES, 1 << 1 | 1 << 63, 6)]
    rows.programs("bits of numbers, values that nothing was stored in, and none", inputs)
    for body in OTHERS:
        rows.done(body)
    rows.programs("the words of 65 that are opened", [entry("a", True, Data.TRUTH, True, *[1] * 65)],
                  'p bool[[1]] a = argument("a"); bool[[1]] c = declassify(a & a);')
    rows.done('publish("c", c);')
    rows.programs("arrays of truth values about the greatest", [], call=ROOMY)
    for body in LARGE:
        rows.done(body)


def masks(length: int, miner: int) -> list[int]:
    return [place * 0x0123456789ABCDEF * (miner + 1) + (miner << 62) & ALL_ONES for place in range(1, length + 1)]


SEEN = (
    'p bool[[1]] a = argument("a"); p bool b = argument("b"); publish("c", declassify(a & b)); a[64] = b; publish("a", a); '
    'publish("s", (uint64) a[1]);'
)
LENGTHS = (6, 15, 12, 12)


def seen(rows: TruthRows):
    """Views, tapes of views, and twins of 65 truth values and one more."""
    def values(period: int, last: int) -> list[Input]:
        return [entry("a", True, Data.TRUTH, True, *listed(65, period)), entry("b", True, Data.TRUTH, False, last)]

    found = {
        "p.sc": f"{HEAD}{SEEN}\n}}\n".encode(), "p.json": write_inputs(values(3, 0)),
        "q.json": write_inputs(values(2, 0)), "r.json": write_inputs(values(3, 1)),
        "p.tape": write_tapes([masks(length, miner) for miner, length in enumerate(LENGTHS)]),
    }
    rows.group("what miners see of 65 truth values and one more",
               *[line for path in found for line in file(path, shown(found[path]))])
    rows.call("the three views", "run p.sc --input p.json --tape p.tape --views v --record r", found)
    rows.call("they are dealt", "deal --input p.json --tape p.tape --to d", found)
    for miner in (1, 2, 3):
        words = f"map {miner} p.sc --input p.json --tape p.tape --sim s --public u --opened o"
        rows.call(f"what the simulator of miner {miner} is given", words, found)
        made = found | {path: data for path, data in Caller(found, set()).call(words.split()).written}
        rows.call(f"the view that it makes for miner {miner}", f"simulate {miner} p.sc --public u --opened o --sim s --view v.{miner}", made, "s", "u", "o")
        rows.call(f"the tapes with which miner {miner} sees the same of other truth values",
                  f"twin {miner} p.sc --input p.json --second q.json --tape p.tape --to t", found)
    rows.call("others are opened", "twin 1 p.sc --input p.json --second r.json --tape p.tape --to t", found)
    words = "map 2 p.sc --input p.json --tape p.tape --sim s --public u --opened o"
    made = found | {path: data for path, data in Caller(found, set()).call(words.split()).written}
    simulate = "simulate 2 p.sc --public u --opened o --sim s --view v"
    for title, words in (
        ("of an opened word the lowest bit counts, whatever the others are", [ALL_ONES - 1, 2, 1 << 63] * 21 + [4, 6]),
        ("the same where all are odd", [ALL_ONES, 3, 1 << 63 | 1] * 21 + [5, 7]),
        ("a word too many is not used", [0] * 65 + [1]),
        ("64 opened words are too few for 65 truth values", [0] * 64),
        ("2 opened words are too few, though they are as many as are packed", [0, 0]),
    ):
        made["o"] = f"open {' '.join(map(str, words))}\n".encode()
        rows.call(title, simulate, made, "s", "u", "o")


def truth_rows() -> TruthRows:
    rows = TruthRows("Truth values in arrays whose packed words are one, about one and more. Made by tools/second_reading/packed_rows.py.")
    evaluated(rows)
    seen(rows)
    return rows


OLD = encode(decode(NOTHING_DONE.code), FIRST)
# A function that calls itself with two arguments, and one that is called with none.
CALLING = Code(["x"], [
    Function(0, NOTHING, (0, 0), [
        Instruction(Tag.LITERAL, (0, 3)), Instruction(Tag.LITERAL, (1, 4)), Instruction(Tag.CALL, (1, 0, 0, 1, 2)), Instruction(Tag.CALL, (2, 65535, 3)),
        Instruction(Tag.PUBLISH, (0, 0)), Instruction(Tag.RETURN_NONE, ()),
    ]),
    Function(2, 0, (0, 0, 2), [
        Instruction(Tag.BINARY, (5, 2, 0, 1, 7)), Instruction(Tag.BRANCH, (2, 1, 3)), Instruction(Tag.CALL, (1, 0, 1, 1, 8)), Instruction(Tag.RETURN, (0,)),
    ]),
    Function(0, NOTHING, (), [Instruction(Tag.RETURN_NONE, ())]),
])


def replaced(data: bytes, place: int, *values: int) -> bytes:
    return data[:place] + bytes(values) + data[place + len(values) :]


def called(number: int) -> bytes:
    """A `main` of the first version that calls a function of this number, without a result or an argument."""
    return OLD[:14] + b"\x02\x00" + bytes([Tag.CALL, number, 0, 255, 255, 9, 0, 0, 0, Tag.RETURN_NONE])


def upgrade_rows() -> TruthRows:
    rows = TruthRows("Code of the first version, which is written by the rules of the second. Made by tools/second_reading/packed_rows.py.")
    rows.group("the code of a program that does nothing", "call upgrade old --code new", *file("old", hexed(OLD)))
    calls = [
        ("it is written with the fifth byte 2", OLD), ("code of the second version", NOTHING_DONE.code), ("a version that there isn't", replaced(OLD, 4, 0)),
        ("it has one byte more", OLD + b"\x00"), ("it has one byte fewer", OLD[:-1]), ("it is empty", b""), ("another signature", replaced(OLD, 3, 0x51)),
        ("no function", OLD[:7] + bytes(2)), ("a kind of the return beyond 7", replaced(OLD, 11, 8)),
        ("an instruction that there isn't", replaced(OLD, 16, 0x19)),
        ("it gives back a register that it hasn't", OLD[:16] + b"\x17\x00\x00"), ("it ends with no return", OLD[:14] + b"\x00\x00"),
        ("it calls itself", called(0)), ("it calls a function that isn't there: of such a call no argument is read", called(1)),
        ("calls with two arguments and with none", encode(CALLING, FIRST)), ("a call with one argument", encode(MULTIPLYING, FIRST)),
        ("the same of the second version", encode(MULTIPLYING)), ("code without calls", encode(decode(PRODUCT.code), FIRST)),
        ("a call of the second rules with the first version's byte", replaced(encode(CALLING), 4, 1)),
    ]
    for title, data in calls:
        rows.call(title, "upgrade old --code new", {"old": data}, "old")
    rows.call("the new code goes where the old one stands", "upgrade --code=old old", {"old": OLD}, "old")
    rows.row("the code cannot be read", "fail files 0", *ends(9, "file old"), "absent new")
    rows.row("the code cannot be written", "fail files 1", *ends(9, "file new"), "absent new")
    rows.row("the number of functions cannot be printed, once the code is written", "fail out 0", *ends(16, "write"), "written new", *hexed(NOTHING_DONE.code))
    rows.row("the code is not there", "call upgrade no.code --code new", *ends(9, "file no.code"), "absent new")
    for title, words in (
        ("no place for the new code", "upgrade old"), ("no code", "upgrade --code new"), ("two codes", "upgrade old old --code new"),
        ("two places for the new code", "upgrade old --code new --code more"), ("an option that it hasn't", "upgrade old --code new --budget 5"),
    ):
        rows.row(f"usage: {title}", f"call {words}", *ends(2, "usage"), "absent new")
    rows.group("code that was upgraded is that of a miner", "call upgrade new --code again", *file("new", hexed(NOTHING_DONE.code)))
    rows.row("it is not upgraded again", *ends(3, "B3 place 4"), "absent again")
    return rows


def main(words: list[str]):
    if len(words) != 1:
        sys.exit(__doc__)
    write_files(words[0], {"truths": truth_rows(), "upgrades": upgrade_rows()})


if __name__ == "__main__":
    main(sys.argv[1:])
