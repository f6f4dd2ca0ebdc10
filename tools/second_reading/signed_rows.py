#!/usr/bin/env python3
"""signed_rows FOLDER: writes the row files of numbers with a sign (signed.rows) and of look-ups (lookups.rows), made by the model of this folder alone."""
from __future__ import annotations

import sys

sys.dont_write_bytecode = True
from code_file import NOTHING, Code, Function, Instruction, Tag, encode
from commands import Caller
from fault_calls_counted import shown
from files import write_inputs, write_tapes
from link_rows import ALL_ONES, ends, file, write_files
from packed_rows import TruthRows, declarations, entry, masks
from served_programs import HEAD
from tree import Data

LEAST, GREATEST, MINUS_ONE = 1 << 63, (1 << 63) - 1, ALL_ONES
EDGES = (LEAST, MINUS_ONE, 0, GREATEST)
SIGNS = ("+", "-", "*", "==", "!=", "<", "<=", ">", ">=")
PRIVATE_SIGNED, PUBLIC_SIGNED = (True, Data.SIGNED), (False, Data.SIGNED)


def pairs(chosen=EDGES) -> tuple[tuple[int, ...], tuple[int, ...]]:
    """Each of these before each of the chosen ones."""
    return tuple(u for u in EDGES for _ in chosen), tuple(v for _ in EDGES for v in chosen)


def operators(rows: TruthRows):
    """Each operator on each two edges: arrays, an array and a scalar, scalars; private, public, and one of both."""
    first, second = pairs()
    inputs = [
        entry("a", *PRIVATE_SIGNED, True, *first), entry("b", *PRIVATE_SIGNED, True, *second), entry("k", *PUBLIC_SIGNED, True, *second),
        entry("s", *PRIVATE_SIGNED, False, MINUS_ONE), entry("n", *PUBLIC_SIGNED, False, LEAST),
    ]
    rows.programs("each operator on each two of -2^63, -1, 0 and 2^63-1", inputs, declarations(inputs))
    for sign in SIGNS:
        rows.done(f'publish("x", declassify(a {sign} b)); publish("y", declassify(a {sign} k)); publish("z", declassify(k {sign} a));')
        rows.done(f'publish("x", declassify(s {sign} b)); publish("y", a {sign} s); publish("z", declassify(n {sign} a)); publish("w", s {sign} n);')
        rows.done(f'publish("x", k {sign} k); publish("y", n {sign} k); publish("z", k {sign} n); publish("w", n {sign} n);')
    first, second = pairs((LEAST, MINUS_ONE, 1, GREATEST))
    divided = [entry("a", *PUBLIC_SIGNED, True, *first), entry("b", *PUBLIC_SIGNED, True, *second), entry("m", *PUBLIC_SIGNED, False, MINUS_ONE)]
    rows.programs("division towards 0, and what it leaves; -2^63 by -1", divided, declarations(divided))
    for sign in "/%":
        rows.done(f'publish("x", a {sign} b); publish("y", m {sign} b); publish("z", a {sign} m); publish("w", m {sign} m);')
    rows.done('int64 x = (int64) 7; int64 y = (int64) 0 - (int64) 2; publish("q", x / y); publish("m", x % y);')
    rows.done('publish("q", a / (m + (int64) 1));')
    rows.done('publish("m", a[0] % (m - m));')


def casts(rows: TruthRows):
    inputs = [
        entry("a", *PRIVATE_SIGNED, True, *EDGES), entry("u", True, Data.NUMBER, True, *EDGES), entry("c", True, Data.TRUTH, True, 1, 0, 1),
        entry("k", *PUBLIC_SIGNED, True, *EDGES), entry("v", False, Data.NUMBER, True, *EDGES), entry("d", False, Data.TRUTH, True, 0, 1),
    ]
    rows.programs("casts between numbers with a sign, numbers and truth values", inputs, declarations(inputs))
    for body in (
        'publish("x", declassify((uint64) a)); publish("y", (int64) u); publish("z", declassify((int64) c)); publish("w", (bool) a);',
        'publish("x", (uint64) k); publish("y", (int64) v); publish("z", (int64) d); publish("w", (bool) k); publish("s", (int64) k);',
        'publish("x", declassify((int64) u[1])); publish("y", (uint64) a[0]); publish("z", declassify((int) c[0])); publish("w", declassify((bool) a[2]));',
        'publish("x", (uint64) k[0]); publish("y", (int) v[1]); publish("z", (int64) d[1]); publish("w", (bool) k[2]); publish("s", (int64) true);',
        'publish("x", declassify((uint64) a == u)); publish("y", declassify((int64) u < a)); publish("z", declassify((uint64) a < u));',
        'p int64 x; publish("x", (uint64) x); p uint64[[1]] y; publish("y", (int64) y); publish("z", declassify((bool) x)); publish("w", (int64) x);',
    ):
        rows.done(body)


OTHERS = (
    'publish("s", sum(a)); publish("t", declassify(sum(a))); publish("u", sum(k)); publish("e", sum(k) == k[0]);',
    'publish("c", cat(a, b)); publish("d", declassify(cat(k, a))); publish("e", cat(k, k)); publish("n", size(cat(a, k)));',
    'a[1] = s; a[2] = n; k[0] = n; publish("a", a); publish("k", k); publish("o", declassify(a[1] * a[2])); publish("x", a[0]);',
    'p int64[[1]] v (3) = s; v[2] = n; publish("v", declassify(v)); int64[[1]] w (2) = n; publish("w", w); p int64[[1]] z (2); publish("z", z);',
    'int64 x; publish("x", x); p int64 y; publish("y", declassify(y)); int[[1]] z; publish("z", z); x -= n; x *= x; publish("w", x);',
    'publish("x", s); publish("y", n); publish("z", declassify(s)); int64 w = declassify(s); publish("w", w * w);',
    'for (int64 i = n; i < (int64) 3; i += (int64) 1) { publish("i", i); }',
    'assert(n < (int64) 0); if (n == k[0]) { publish("x", k[0]); } else { publish("y", n); } publish("z", declassify(s <= n));',
)
TEMPLATES = (
    'int64 low(int64 x, int64 y) { if (x < y) { return x; } return y; }',
    'template <domain D> D int64 twice(D int64 x) { return x + x; }',
    'template <domain D : shared3p> D int64[[1]] clipped(D int64[[1]] x, D int64 y) { return x * (int64) (x < y) + y * (int64) !(x < y); }',
    'p int64 of(p int64 x, int64 y) { return x - y; }',
)


def others(rows: TruthRows):
    inputs = [
        entry("a", *PRIVATE_SIGNED, True, *EDGES), entry("b", *PRIVATE_SIGNED, True, MINUS_ONE - 4, 6), entry("k", *PUBLIC_SIGNED, True, 0, *EDGES),
        entry("s", *PRIVATE_SIGNED, False, MINUS_ONE - 1), entry("n", *PUBLIC_SIGNED, False, MINUS_ONE - 2),
    ]
    rows.programs("sums, arrays, stores, loops and conditions of numbers with a sign", inputs, declarations(inputs))
    for body in OTHERS:
        rows.done(body)
    rows.start = rows.start.replace(" void main() {", f" {' '.join(TEMPLATES)} void main() {{")
    rows.group("functions that take and give numbers with a sign", "before", f">{rows.start}", "after", "|", "|}", "", rows.given)
    for body in (
        'publish("l", low(n, (int64) 4)); publish("m", low((int64) 0 - (int64) 9, n)); publish("t", twice(n)); publish("u", declassify(twice(s)));',
        'publish("c", clipped(a, s)); publish("d", declassify(clipped(k, s))); publish("o", declassify(of(n, n))); publish("q", of(s, n));',
    ):
        rows.done(body)


# An `@` stands where the fault is.
REFUSED = (
    "D3 x = @u;", "D3 u = @x;", "D3 x = @1;", "D3 int64 y = @1;", "D3 a = @u;", "D3 a = @w;", "D3 xs = @us;", "D3 as = @us;", "D3 xs[0] = @1;",
    "D3 @x++;", "D3 @x += 1;", "D3 @xs[0]++;", "D3 x = @x + 1;", "D3 u = @u + x;", "D3 b = @x == u;", "D3 b = @x < 1;", "D3 c = @a < w;", "D3 c = @a == 0;",
    "D3 x = @x & x;", "D3 x = @x | x;", "D3 x = @x ^ x;", "D3 @x &= x;", "D3 a = @a & a;", "D3 x = xs[@x];", "D3 u = us[@x];", "D3 xs[@x] = x;",
    "D3 int64[[1]] y (@x);", "D3 bs = @bitExtract(x);", "D3 u = @sum(xs);", "D3 x = @sum(us);", "D3 xs = @cat(xs, us);", "D3 as = @cat(as, us);",
    "D3 x = @!x;", "D3 if (@x) { }", "D3 assert(@x);", "D3 b = @x && b;", "D3 f(@u);", "D3 f(@1);", "D3 x = g(@x);", "D3 x = h(@w);", "D3 x = @h(x);",
    "D8 a = @a / a;", "D8 a = @x % a;", "D8 a = @a / x;", "D3 a = @a / u;", "D3 a = @w % x;", "D3 x = @a + u;", "D7 x = @a;", "D7 x = @a + x;",
    "D7 xs[0] = @a;", "D3 x = @w;", "D10 a = @d;", "D3 a = @e;", "D10 a = @a + d;", "D3 a = @a + e;", "D3 a = @w + d;", "D7 a = f(@d);", "D7 f(@a);",
    "D3 f(@w);", "D5 x = xs[@w];", "D3 x = xs[@a];", "D6 int64[[1]] y (@w);",
)
GOOD = (
    "ok x = (int64) 1; x = x + x - x * x; x = x / x % x; x += x; x -= x; x *= x; b = x == x; b = x != x; b = x < x; b = x <= x; b = x > x; b = x >= x;",
    "ok a = x; a = a + x; a = x * a; a -= a; c = a < x; c = x == a; as = as + x; as = xs; as[0] = x; xs[u] = x; a = as[1]; x = declassify(a);",
    "ok x = sum(xs); a = sum(as); xs = cat(xs, xs); as = cat(xs, as); u = size(as); x = (int) u; u = (uint64) x; b = (bool) x; x = (int64) b; a = (int64) c;",
    "ok int y; int64 z = y; public int v2 = z; p int[[1]] v; int64[[0]] o = v2; p int64[[1]] q (3) = x; p int64 r2 = argument(\"r\"); f(x); x = g(u); d = x;",
    "ok for (int64 i; i < x; i += x) { } while (x < x) { x = x - x; } assert(x == x); if (x != x) int64 y; else int y; return;",
)


def types(rows: TruthRows):
    """Which types meet, beside one another and beside other refusals."""
    rows.add(
        "", "group statements of `main`: x, xs, a, as, d are numbers with a sign, u, us, w, e are without", "before",
        "|import stdlib; import shared3p; domain p shared3p; domain r shared3p; int64 f(int64 x) { return x; } int64 g(uint64 x) { return (int64) x; }",
        "|uint64 h(int64 x) { return (uint64) x; } void main() { int64 x; int64[[1]] xs; p int64 a; p int64[[1]] as; r int64 d; uint64 u; uint64[[1]] us;",
        "|p uint64 w; r uint64 e; bool b; bool[[1]] bs; p bool c;", "after", "|", "|}", "",
    )
    rows.add(*GOOD, *REFUSED)
    rows.add(
        "", "group words of types", "before", ">import shared3p; domain p shared3p; ", "after", ">", "",
        "ok void main() { int int6; int64 int_; p int int8 = (int) 5; }", "Y1 void main() { int64 @int; }", "Y1 void main() { uint64 @int64; }",
        "Y1 void main() { int64 @64; }", "Y1 int64 @int() { return (int64) 1; } void main() { }", "Y1 void main() { uint64 x = @int; }",
        "ok int f() { return (int64) 1; } void main() { public int64 x = f(); }", "D3 int64 f() { return @1; } void main() { }",
        "D3 uint64 f(int64 x) { return @x; } void main() { }", "D7 int64 f(p int64 x) { return @x; } void main() { }",
        "D3 int64 f(p uint64 x) { return @x; } void main() { }",
    )


def files(rows: TruthRows):
    """Values of files that numbers with a sign may have, and others."""
    rows.group("values of a file", "call eval p.sc --input p.json", "file p.sc",
               f'|{HEAD[:-1]} int64 x = argument("x"); publish("x", x); }}')
    good = ("0", "-1", "9223372036854775807", "-9223372036854775808", "5")
    bad = ("9223372036854775808", "-9223372036854775809", "18446744073709551615", "-0", "1.0", "-1.0", "1e2", "true", "null", '"-1"', "[1,-0]", "[true]")
    for value in (*good, *bad, "[-1]"):
        data = ('{"inputs":[{"name":"x","domain":"public","type":"int64","value":' + value + "}]}").encode()
        found = {"p.sc": f'{HEAD[:-1]} int64 x = argument("x"); publish("x", x); }}\n'.encode(), "p.json": data}
        rows.call(value, "eval p.sc --input p.json", found, "p.json")
    rows.group("inputs of other types where one is wanted")
    for wanted, given in (("int64", "uint64"), ("uint64", "int64"), ("bool", "int64"), ("int64[[1]]", "int64")):
        data = '{"inputs":[{"name":"x","domain":"public","type":"%s","value":1}]}' % given
        found = {"p.sc": f'{HEAD[:-1]} {wanted} x = argument("x"); }}\n'.encode(), "p.json": data.encode()}
        rows.call(f"{given} for {wanted}", "eval p.sc --input p.json", found, "p.sc", "p.json")


SEEN = (
    'p int64[[1]] a = argument("a"); p int64 b = argument("b"); int64 k = argument("k"); publish("c", declassify(a * b)); publish("a", a - k); '
    'publish("k", k);'
)
SEEN_LENGTHS = (6, 10, 10, 10)


def seen(rows: TruthRows):
    """Views, dealt shares, tapes of views and twins of numbers with a sign."""
    def values(*a: int, b: int = MINUS_ONE) -> bytes:
        return write_inputs([entry("a", *PRIVATE_SIGNED, True, *a), entry("b", *PRIVATE_SIGNED, False, b), entry("k", *PUBLIC_SIGNED, False, LEAST)])

    found = {
        "p.sc": f"{HEAD}{SEEN}\n}}\n".encode(), "p.json": values(LEAST, 4), "q.json": values(LEAST, MINUS_ONE - 3, b=1), "r.json": values(LEAST, 5),
        "p.tape": write_tapes([masks(length, miner) for miner, length in enumerate(SEEN_LENGTHS)]),
    }
    rows.group("what miners see of numbers with a sign", *[line for path in found for line in file(path, shown(found[path]))])
    rows.call("the three views", "run p.sc --input p.json --tape p.tape --views v --record r", found)
    rows.call("they are dealt", "deal --input p.json --tape p.tape --to d", found)
    dealt = found | {path: data for path, data in Caller(found, set()).call("deal --input p.json --tape p.tape --to d".split()).written}
    rows.call("what was dealt is put into one file", "gather 1 --share d.1 --to g", dealt, "d.1")
    for miner in (1, 3):
        words = f"map {miner} p.sc --input p.json --tape p.tape --sim s --public u --opened o"
        rows.call(f"what the simulator of miner {miner} is given", words, found)
        made = found | {path: data for path, data in Caller(found, set()).call(words.split()).written}
        rows.call(f"the view that it makes for miner {miner}", f"simulate {miner} p.sc --public u --opened o --sim s --view v.{miner}", made, "s", "u", "o")
        rows.call(f"others that are opened alike, of miner {miner}", f"twin {miner} p.sc --input p.json --second q.json --tape p.tape --to t", found)
    rows.call("others are opened: the words are told without a sign", "twin 1 p.sc --input p.json --second r.json --tape p.tape --to t", found)
    words = "map 2 p.sc --input p.json --tape p.tape --sim s --public u --opened o"
    made = found | {path: data for path, data in Caller(found, set()).call(words.split()).written}
    for line in ("open -9223372036854775808 -4", "open 9223372036854775808 18446744073709551612", "open -1 5 true", "open -0 1", "open -01 1",
                 "open -9223372036854775809 1", "open - 1", "open --1 1", "open +1 1", "open -1", "open -18446744073709551615 1"):
        made["o"] = f"{line}\n".encode()
        rows.call(f"opened: {line[5:]}", "simulate 2 p.sc --public u --opened o --sim s --view v", made, "s", "u", "o")


def told(rows: TruthRows):
    """Three miners' texts."""
    texts = ("share x int64 5 1", f"share x int64 {ALL_ONES - 5} 1", "share x int64 0 0")
    for title, lines in (
        ("a number below 0 and one above", texts), ("of another type", (texts[0], texts[1].replace("int64", "uint64"), texts[2])),
        ("opened and published ones", ("open -5 7\npublish k -1",) * 3), ("shares have no sign", ("share x int64 -5 1", *texts[1:])),
        ("a type that there isn't", ("share x int 5 1", *texts[1:])), ("-0", ("open -0",) * 3), ("one below the least", ("open -9223372036854775809",) * 3),
        ("the least", ("open -9223372036854775808",) * 3), ("they differ in a sign", ("open 5", "open -5", "open 5")),
    ):
        found = {f"t{miner}": f"{line}\nend done cost 3\n".encode() for miner, line in enumerate(lines, 1)}
        rows.call(title, "join t1 t2 t3", found, *found)


def code(*does: Instruction, kinds: tuple[int, ...]) -> bytes:
    return encode(Code(["x"], [Function(0, NOTHING, kinds, [*does, Instruction(Tag.RETURN_NONE, ())])]))


def coded(rows: TruthRows):
    """Kinds and instructions of code that miners refuse, or take."""
    miner = "miner p.code --me 1 --share p.share --tape p.tape --port 7"
    share = b'{"inputs":[],"lens":[0,0,0,0],"miner":1}'
    def binary(operator: int, to: int, left: int, right: int) -> Instruction:
        return Instruction(Tag.BINARY, (operator, to, left, right, 1))

    cases = [(f"kind {kind}", code(kinds=(kind,))) for kind in (10, 11, 14, 15, 16)]
    cases += [
        ("a literal of a number with a sign", code(Instruction(Tag.LITERAL, (0, 5)), kinds=(8,))),
        ("a sum of one with a sign and one without", code(binary(0, 0, 0, 1), kinds=(8, 0))),
        ("a comparison of one with a sign and one without", code(binary(7, 2, 0, 1), kinds=(8, 0, 2))),
        ("bits of a number with a sign, and", code(binary(11, 0, 0, 1), kinds=(8, 8))), ("or", code(binary(12, 0, 0, 1), kinds=(8, 8))),
        ("exclusive or", code(binary(13, 0, 0, 1), kinds=(8, 8))), ("a private quotient", code(binary(3, 0, 0, 1), kinds=(9, 9))),
        ("a sum that has lost its sign", code(Instruction(Tag.SUM, (0, 1)), kinds=(0, 12))),
        ("an index with a sign", code(Instruction(Tag.AT, (0, 1, 2, 1)), kinds=(0, 4, 8))),
        ("bits of a number with a sign", code(Instruction(Tag.BITS, (0, 1, 1)), kinds=(6, 8))),
        ("a look-up in a public array", code(Instruction(Tag.LOOKUP, (0, 1, 2, 1)), kinds=(1, 4, 1))),
        ("at a public index", code(Instruction(Tag.LOOKUP, (0, 1, 2, 1)), kinds=(1, 5, 0))),
        ("at an index with a sign", code(Instruction(Tag.LOOKUP, (0, 1, 2, 1)), kinds=(1, 5, 9))),
        ("of truth values", code(Instruction(Tag.LOOKUP, (0, 1, 2, 1)), kinds=(3, 7, 1))),
        ("that gives one for many", code(Instruction(Tag.LOOKUP, (0, 1, 2, 1)), kinds=(1, 5, 5))),
        ("that loses its sign", code(Instruction(Tag.LOOKUP, (0, 1, 2, 1)), kinds=(1, 13, 1))),
        ("a scalar as an array", code(Instruction(Tag.LOOKUP, (0, 1, 2, 1)), kinds=(1, 1, 1))),
    ]
    rows.group("code that no program has: kinds and instructions", f"call {miner}", *file("p.share", [f">{share.decode()}"]), "file p.tape", "u64 0")
    for title, data in cases:
        found = {"p.code": data, "p.share": share, "p.tape": bytes(8)}
        rows.call(title, miner, found, "p.code")


def signed_rows() -> TruthRows:
    rows = TruthRows("Numbers with a sign. Made by tools/second_reading/signed_rows.py.")
    for part in (operators, casts, others, types, files, seen, told, coded):
        part(rows)
    return rows


TABLE = (10, 20, 30)
LOOKED_UP = (
    'publish("v", declassify(lookup(a, i)));', 'publish("v", lookup(a, i)); publish("w", declassify(lookup(k, i)));',
    'publish("v", declassify(lookup(a, n))); publish("w", lookup(a, 0)); publish("x", declassify(lookup(a, 3)));',
    'publish("v", declassify(lookup(a, is))); publish("w", lookup(k, is)); publish("x", declassify(lookup(a, ns)));',
    'publish("v", declassify(lookup(g, i))); publish("w", declassify(lookup(h, is))); publish("x", lookup(g, ns));',
    'publish("v", declassify(lookup(a, lookup(a, i)))); publish("w", declassify(lookup(cat(a, k), i + i)));',
    'p uint64[[1]] e; publish("v", declassify(lookup(e, i))); publish("w", lookup(e, is)); publish("x", declassify(lookup(a, e)));',
    'p uint64 j; publish("v", declassify(lookup(a, j))); p uint64[[1]] w (2) = i; publish("w", declassify(lookup(w, j)));',
)
LOOK_UP_REFUSED = (
    "ok w = lookup(as, w); ws = lookup(as, ws); w = lookup(us, w); w = lookup(as, u); ws = lookup(as, us); a = lookup(xs, w); as2 = lookup(ss, us);",
    "D3 w = @lookup(us, u);", "D3 w = @lookup(us, 0);", "D3 ws = @lookup(us, us);", "D3 w = @lookup(as, true);", "D3 w = @lookup(as, c);",
    "D3 w = @lookup(w, w);",
    "D3 w = @lookup(cs, w);", "D3 w = @lookup(as, x);", "D3 w = @lookup(as, a);", "D3 a = @lookup(as, w);", "D3 w = @lookup(ss, w);",
    "D13 w = @lookup(as);", "D13 w = @lookup(as, w, w);", "D10 w = @lookup(as, e);", "D10 w = @lookup(es, w);", "D7 u = @lookup(as, w);",
    "D10 e = @lookup(as, w);",
    "D10 w = @lookup(ss, e);", "D1 w = lookup(as, @y);", "D1 w = lookup(@y, w);", "D3 ws = @lookup(as, w);", "D3 w = @lookup(as, ws);",
)


def lookup_inputs(index: int, table: tuple[int, ...] = TABLE) -> list:
    return [
        entry("a", True, Data.NUMBER, True, *table), entry("k", False, Data.NUMBER, True, *[word * 7 for word in table]),
        entry("g", *PRIVATE_SIGNED, True, MINUS_ONE, LEAST, 5), entry("h", *PUBLIC_SIGNED, True, MINUS_ONE - 6, GREATEST),
        entry("i", True, Data.NUMBER, False, index), entry("n", False, Data.NUMBER, False, 2),
        entry("is", True, Data.NUMBER, True, 2, 0, 3, ALL_ONES), entry("ns", False, Data.NUMBER, True, 0, 1 << 63),
    ]


LARGEST = (
    'p uint64[[1]] a (1024) = 7; p uint64[[1]] i (1024); publish("v", sum(lookup(a, i)));',
    'p uint64[[1]] a (1048576) = 7; a[1048575] = 9; p uint64 i = 1048575; publish("v", declassify(lookup(a, i)));',
)
TOO_LARGE = (
    'p uint64[[1]] a (1025); p uint64[[1]] i (1024); publish("v", lookup(a, i));',
    'p uint64[[1]] a (1048576); p uint64[[1]] i (2); publish("v", lookup(a, i));',
)


def lookup_rows() -> TruthRows:
    rows = TruthRows("Look-ups of private elements at private indices. Made by tools/second_reading/signed_rows.py.")
    for index in (1, 3, ALL_ONES, 0):
        inputs = lookup_inputs(index)
        rows.programs(f"in a table of three, at {index}", inputs, declarations(inputs))
        for body in LOOKED_UP if index < 2 else LOOKED_UP[:3]:
            rows.done(body)
    own = [entry("a", True, Data.NUMBER, True, *TABLE), entry("i", True, Data.NUMBER, False, 1)]
    rows.programs("in a table of three alone", own, declarations(own))
    rows.done(LOOKED_UP[0])
    own = [entry("a", True, Data.NUMBER, True), entry("i", True, Data.NUMBER, False, 5)]
    rows.programs("in an empty table", own, declarations(own))
    rows.done(LOOKED_UP[0])
    rows.programs("over the largest", [], call="eval p.sc --input p.json --budget 9000000")
    for body in TOO_LARGE:
        rows.done(body)
    rows.group("the largest, which takes more words than a tape has")
    for body in LARGEST:
        found = {"p.sc": f"{HEAD}{body}\n}}\n".encode(), "p.json": b'{"inputs":[]}'}
        rows.call("the words", "need p.sc --input p.json --budget 9000000", found, "p.sc", "p.json")
        rows.call("on shares", f"run p.sc --input p.json --seed {'0' * 64} --words 1000 --budget 9000000", found, "p.sc", "p.json")
    template = 'template <domain D> D uint64 at(p uint64[[1]] x, D uint64 y) { p uint64 z = lookup(x, y); return y; }'
    rows.add("", "group under both bindings of a domain variable", "before",
             f">import stdlib; import shared3p; domain p shared3p; {template} "
             "template <domain D> p uint64 of(D uint64[[1]] x, D uint64 y) { return lookup(x, y); } "
             "void main() { p uint64[[1]] a; p uint64 i; uint64[[1]] k;", "after", "|", "|}", "",
             "ok at(a, i); at(a, 1); of(a, i);")
    rows.add("", "group a template that is bound to public where one must be private", "before", ">import shared3p; domain p shared3p; ", "after", ">", "",
             "D3 template <domain D> void of(D uint64[[1]] x, D uint64 y) { @lookup(x, y); } void main() { uint64[[1]] k; of(k, 1); }",
             "ok template <domain D> void of(D uint64[[1]] x, D uint64 y) { lookup(x, y); } void main() { p uint64[[1]] k; of(k, 1); }",
             "D2 uint64 @lookup(uint64 x) { return x; } void main() { }", "D2 uint64 @lookup() { return 1; } void main() { lookup(); }",
             "ok void main() { uint64 lookup = 1; p uint64[[1]] k; p uint64 w = lookup(k, lookup); }")
    rows.add("", "group where the import stands after, or isn't there", "before", ">", "after", ">", "",
             "ok uint64 lookup(uint64 x) { return x; } void main() { uint64 y = lookup(1); }",
             "ok import stdlib; uint64 lookup(uint64 x) { return x; } void main() { uint64 y = lookup(1); }",
             "D2 uint64 @lookup(uint64 x) { return x; } import shared3p; void main() { }",
             "D1 import stdlib; kind shared3p; domain p shared3p; void main() { p uint64[[1]] k; p uint64 w = @lookup(k, 1); }")
    rows.add("", "group which types it takes: w, ws, as, e, es are private numbers, a, as2, ss, xs have a sign, u, us are public", "before",
             "|import stdlib; import shared3p; domain p shared3p; domain r shared3p;",
             "|void main() { p uint64 w; p uint64[[1]] ws; p uint64[[1]] as; r uint64 e; r uint64[[1]] es; uint64 u; uint64[[1]] us; p bool c; p bool[[1]] cs;",
             "|p int64 a; p int64[[1]] ss; p int64[[1]] as2; int64 x; int64[[1]] xs;", "after", "|", "|}", "")
    rows.add(*LOOK_UP_REFUSED)
    looked_up_seen(rows)
    return rows


LOOKUP_LENGTHS = (8, 79, 67, 67)


def looked_up_seen(rows: TruthRows):
    """Views, twins and short tapes of a look-up."""
    body = 'p uint64[[1]] a = argument("a"); p uint64 i = argument("i"); publish("v", declassify(lookup(a, i)));'

    def values(table: tuple[int, ...], index: int) -> bytes:
        return write_inputs([entry("a", True, Data.NUMBER, True, *table), entry("i", True, Data.NUMBER, False, index)])

    def tape(lengths) -> bytes:
        return write_tapes([masks(length, miner) for miner, length in enumerate(lengths)])

    found = {"p.sc": f"{HEAD}{body}\n}}\n".encode(), "p.json": values((20, 20, 30), 0), "q.json": values((20, 20, 30), 1), "p.tape": tape(LOOKUP_LENGTHS)}
    rows.group("what miners see of a look-up", *[line for path in found for line in file(path, shown(found[path]))])
    rows.call("the three views", "run p.sc --input p.json --tape p.tape --views v", found)
    for miner in (1, 2, 3):
        rows.call(f"miner {miner} can't tell which place was looked up", f"twin {miner} p.sc --input p.json --second q.json --tape p.tape --to t", found)
    words = "map 1 p.sc --input p.json --tape p.tape --sim s --public u --opened o"
    made = found | {path: data for path, data in Caller(found, set()).call(words.split()).written}
    rows.call("what the simulator of miner 1 is given", words, found)
    rows.call("the view that it makes", "simulate 1 p.sc --public u --opened o --sim s --view v.1", made, "s", "u", "o")
    for party in range(4):
        lengths = [length - (place == party) for place, length in enumerate(LOOKUP_LENGTHS)]
        rows.call(f"tape {party} is short by a word", "run p.sc --input p.json --tape p.tape", found | {"p.tape": tape(lengths)}, "p.tape")
    for party, used in ((1, 78), (2, 66), (3, 66)):
        lengths = [length if place != party else used - 1 for place, length in enumerate(LOOKUP_LENGTHS)]
        rows.call(f"tape {party} is short before the opening", "run p.sc --input p.json --tape p.tape", found | {"p.tape": tape(lengths)}, "p.tape")


def main(words: list[str]):
    if len(words) != 1:
        sys.exit(__doc__)
    write_files(words[0], {"signed": signed_rows(), "lookups": lookup_rows()})


if __name__ == "__main__":
    main(sys.argv[1:])
