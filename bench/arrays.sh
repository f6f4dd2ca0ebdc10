#!/usr/bin/env bash
# Times `secrec run` over the same work on whole arrays and number by number: products, comparisons, and the greatest of 1,024 private numbers; and a loop
# that only moves them. Seconds are processor time of the run of three that took least; messages are those that were delivered.
# It measures; it tests nothing. It wants bash and python3; another program than the one that `./secrec` runs can be named.
. "$(dirname "$0")/begin.sh"

python3 - "$program" "$work" <<'PY'
import sys
from measure import least, ran, written

program, work = sys.argv[1:]
COUNT, WORDS = 1024, "262144"
HEAD = "import stdlib; import shared3p; domain p shared3p;\n"
MAIN = """void main() {
    p uint64[[1]] a = argument("a"); p uint64[[1]] b = argument("b"); uint64 n = size(a); p uint64 s; p uint64[[1]] c (n);
    %s
    assert(n == size(c));
}
"""
LARGEST = """p uint64[[1]] part(p uint64[[1]] xs, uint64 from, uint64 to) {
    p uint64[[1]] found (to - from);
    for (uint64 i = from; i < to; i++) found[i - from] = xs[i];
    return found;
}
p uint64[[1]] greater(p uint64[[1]] xs, p uint64[[1]] ys) {
    p uint64[[1]] first = (uint64) (xs > ys);
    return ys + first * (xs - ys);
}
p uint64 greatest(p uint64[[1]] xs) {
    while (size(xs) > 1) {
        uint64 half = size(xs) / 2;
        xs = greater(part(xs, 0, half), part(xs, half, 2 * half));
    }
    return xs[0];
}
"""
CASES = [
    ("products", "", "c = a * b; s = sum(c);", "for (uint64 i = 0; i < n; i++) c[i] = a[i] * b[i]; s = sum(c);"),
    ("comparisons", "", "s = sum((uint64) (a > b));", "for (uint64 i = 0; i < n; i++) s += (uint64) (a[i] > b[i]);"),
    ("the greatest", LARGEST, "s = greatest(a);",
     "s = a[0]; for (uint64 i = 1; i < n; i++) s = s + (uint64) (a[i] > s) * (a[i] - s);"),
    ("elements moved", "", "", "for (uint64 i = 0; i < n; i++) c[n - 1 - i] = a[i]; s = c[0];"),
]
SEED = "00" * 31 + "07"


def entry(name, step):
    return '{"name":"%s","domain":"private","type":"uint64","value":%s}' % (name, [one * step % 1009 for one in range(COUNT)])


def took(name, functions, body):
    """What a run took, and how many messages it delivered."""
    if not body:
        return "-", "-"
    text = written(f"{work}/{name.replace(' ', '_')}.sc", HEAD + functions + MAIN % body)
    files = written(f"{work}/input.json", '{"inputs":[%s,%s]}' % (entry("a", 37), entry("b", 91)))
    words = [program, "run", text, "--input", files, "--seed", SEED, "--words", WORDS, "--budget", "100000000"]
    spent = least(3, lambda: ran(*words))
    ran(*words, "--record", f"{work}/links")
    with open(f"{work}/links", encoding="utf-8") as links:
        return f"{spent.seconds:.3f}", f"{sum(1 for _ in links):,}"


print("| 1,024 times | on arrays, seconds | number by number, seconds | messages on arrays | number by number |")
print("|---|---|---|---|---|")
for name, functions, arrays, numbers in CASES:
    (first, few), (second, many) = took(name, functions, arrays), took(name, functions, numbers)
    print(f"| {name} | {first} | {second} | {few} | {many} |")
PY
