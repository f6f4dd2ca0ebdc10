#!/usr/bin/env bash
# Times `secrec check` over made programs of 64 KiB, 256 KiB and 1 MiB, and prints processor time and peak memory with their
# ratios: plain statements, statements with deep expressions, nested blocks, many names, many functions, many templates. It
# measures; it tests nothing. It wants bash and python3.
. "$(dirname "$0")/begin.sh"

python3 - "$program" "$work" <<'PY'
import os, sys
from measure import called, least, written

program, work = sys.argv[1:]

def filled(size, head, piece, tail):
    """A text of nearly this size: pieces by their number between a head and a tail."""
    parts, left, number = [head], size - len(head) - len(tail), 0
    while True:
        text = piece(number)
        if len(text) > left:
            return "".join(parts) + tail
        parts.append(text)
        left -= len(text)
        number += 1

MAIN = "import shared3p; domain p shared3p;\nvoid main() { uint64 x; p uint64 a; uint64[[1]] xs (3);\n"

def functions(size, each):
    """Functions, and a main that calls each of them."""
    text, calls, number = ["import shared3p; domain p shared3p;\n"], [], 0
    while size > 400:
        define, call = each(number)
        size -= len(define) + len(call)
        text.append(define)
        calls.append(call)
        number += 1
    return "".join(text) + "void main() { uint64 x; p uint64 a;\n" + "".join(calls) + "}\n"

shapes = {
    "statements": lambda size: filled(size, MAIN, lambda k: f"x = x * 3 + {k};\n", "}\n"),
    "expressions": lambda size: filled(size, MAIN, lambda k: "a = " + "(" * 50 + "a + x" + ") + 1" * 50 + ";\n", "}\n"),
    "blocks": lambda size: filled(size, MAIN, lambda k: "if (x == 1) {" * 50 + f" x = {k}; " + "}" * 50 + "\n", "}\n"),
    "names": lambda size: filled(size, MAIN, lambda k: f"uint64 v{k} = x; xs[v{k}] = v{k};\n", "}\n"),
    "functions": lambda size: functions(size, lambda k: (f"uint64 f{k}(uint64 y) {{ return y + {k}; }}\n", f"x = f{k}(x);\n")),
    "templates": lambda size: functions(size, lambda k: (f"template <domain D> D uint64 t{k}(D uint64 y) {{ return y; }}\n", f"x = t{k}(x); a = t{k}(a);\n")),
}

def run(path):
    status, text, took = called(program, "check", path)
    # (a program that is too large to be run has been read, typed and counted whole)
    assert status == 0 and text == b"ok\n" or status == 3 and text.startswith(b"error: X"), (path, status, text)
    return took

print(f"{'program':12} {'KiB':>6} {'seconds':>9} {'peak kB':>9}   over the size before: time, memory")
for name, made in shapes.items():
    before = None
    for size in (65536, 262144, 1048576):
        path = written(f"{work}/{name}.sc", made(size))
        assert os.stat(path).st_size <= 1048576, path
        took = least(5, lambda: run(path))
        ratios = f"{took.seconds / before.seconds:9.1f} {took.peak / before.peak:6.1f}" if before else ""
        print(f"{name:12} {os.stat(path).st_size // 1024:6} {took.seconds:9.3f} {took.peak:9}   {ratios}")
        before = took
PY
