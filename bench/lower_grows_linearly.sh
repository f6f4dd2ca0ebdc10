#!/usr/bin/env bash
# Times `secrec compile` over made programs of deep expressions, and prints processor time and peak memory with their ratios: first
# programs of 4, 8 and 15 functions with expressions as high as the language accepts (the last nearly as large as a program may be),
# then those of 15 functions with as many nodes in expressions of half, a quarter and an eighth of that height. Time is to grow with
# the first and to stay with the second. It measures; it tests nothing. It wants bash and python3.
. "$(dirname "$0")/begin.sh"

python3 - "$program" "$work" <<'PY'
import sys
from measure import called, least, written

program, work = sys.argv[1:]

HEAD = """import stdlib; import shared3p; domain p shared3p;
template <domain D> D uint64 g(D uint64 y) { return y; }
"""
FUNCTION = "uint64 f%d(uint64 x, bool b) { p uint64 a; p bool s; uint64[[1]] xs; p uint64[[1]] ps;\n%sreturn x; }\n"

# An expression of so many parts in one another, and the nodes that a part has at most.
shapes = {
    "negations": (lambda n: "s = " + "!" * n + "s;", 1),
    "casts": (lambda n: "x = " + "(uint64) " * n + "x;", 1),
    "left sums": (lambda n: "a = a" + " + x" * n + ";", 2),
    "right sums": (lambda n: "a = " + "x + (" * n + "a" + ")" * n + ";", 3),
    "connectives": (lambda n: "b = b" + " && b" * n + ";", 2),
    "left arrays": (lambda n: "ps = " + "cat(" * n + "ps" + ", xs)" * n + ";", 2),
    "right arrays": (lambda n: "ps = " + "cat(xs, " * n + "ps" + ")" * n + ";", 2),
    "calls": (lambda n: "a = " + "g(" * n + "a" + ")" * n + ";", 1),
    "indices": (lambda n: "x = " + "xs[" * n + "x" + "]" * n + ";", 2),
}
# How many nodes in expressions a function has, somewhat below the most that a function may have.
NODES = 3600

def made(shape, parts, functions):
    """A program of so many functions, each with expressions of so many parts."""
    piece, nodes = shape
    body = (piece(parts) + "\n") * (NODES // (nodes * parts + 3))
    calls = "".join(f"x = f{k}(x, b);\n" for k in range(functions))
    return HEAD + "".join(FUNCTION % (k, body) for k in range(functions)) + "void main() { uint64 x; bool b;\n" + calls + "}\n"

def source(shape, parts, functions):
    """The path of such a program."""
    return written(f"{work}/made.sc", made(shape, parts, functions))

def greatest(shape):
    """The most parts in one another that are accepted."""
    low, high = 1, 128
    while low + 1 < high:
        middle = (low + high) // 2
        status, text, _ = called(program, "check", source(shape, middle, 1))
        assert status == 0 or text.startswith(b"error: Y2"), (middle, status, text)
        low, high = (middle, high) if status == 0 else (low, middle)
    return low

def measured(shape, parts, functions):
    path = source(shape, parts, functions)
    def once():
        status, text, took = called(program, "compile", path, "--code", f"{work}/made.code")
        assert status == 0 and text.startswith(b"functions "), (parts, functions, status, text)
        return took
    return least(5, once)

def row(name, parts, functions, took, before):
    over = f"{took.seconds / before.seconds:9.1f} {took.peak / before.peak:6.1f}" if before else ""
    print(f"{name:14} {parts:5} {functions:9} {took.seconds:9.3f} {took.peak:9}   {over}")

print(f"{'program':14} {'parts':>5} {'functions':>9} {'seconds':>9} {'peak kB':>9}   over the row before: time, memory")
for name, shape in shapes.items():
    most, before = greatest(shape), None
    for functions in (4, 8, 15):
        took = measured(shape, most, functions)
        row(name, most, functions, took, before)
        before = took
    for parts in (most // 2, most // 4, most // 8):
        took = measured(shape, parts, 15)
        row("  less high", parts, 15, took, before)
        before = took
PY
