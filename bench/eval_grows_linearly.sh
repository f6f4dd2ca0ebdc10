#!/usr/bin/env bash
# Times `secrec eval` over arrays of 4,096, 16,384 and 65,536 elements, and prints processor time and peak memory with their ratios:
# a loop that reads and writes each element, private operators on whole arrays, and calls that pass them on. It measures; it tests
# nothing. It wants bash and python3.
. "$(dirname "$0")/begin.sh"

python3 - "$program" "$work" <<'PY'
import sys
from measure import least, ran, written

program, work = sys.argv[1:]

HEAD = "import stdlib; import shared3p; domain p shared3p;\n"
shapes = {
    "loop": ("public", HEAD + "void main() { uint64[[1]] a = argument(\"a\"); uint64 s = 0; uint64 i = 0; "
        "for (i = 0; i < size(a); i++) { s = s + a[i]; a[i] = s; } publish(\"s\", s); }\n"),
    "operators": ("private", HEAD + "void main() { p uint64[[1]] a = argument(\"a\"); publish(\"s\", declassify(sum(a * a + a))); "
        "publish(\"l\", declassify(sum((uint64)(a < a)))); }\n"),
    "calls": ("private", HEAD + "p uint64[[1]] f(p uint64[[1]] a, uint64 n) { if (n == 0) return a; return f(a + 1, n - 1); }\n"
        "void main() { p uint64[[1]] a = argument(\"a\"); publish(\"s\", declassify(sum(f(a, 20)))); }\n"),
}

def run(source, given):
    return ran(program, "eval", source, "--input", given, "--budget", "1000000000")

print(f"{'program':12} {'elements':>9} {'seconds':>9} {'peak kB':>9}   over the size before: time, memory")
for name, (domain, text) in shapes.items():
    source, last = written(f"{work}/{name}.sc", text), None
    for size in (4096, 16384, 65536):
        given = written(f"{work}/a.json", '{"inputs":[{"name":"a","domain":"%s","type":"uint64","value":[%s]}]}' % (domain, ",".join(["1"] * size)))
        took = least(3, lambda: run(source, given))
        over = "" if last is None else f"   {took.seconds / last.seconds:.1f} {took.peak / last.peak:.1f}"
        print(f"{name:12} {size:9} {took.seconds:9.3f} {took.peak:9}{over}")
        last = took
PY
