#!/usr/bin/env bash
# Times what programs do on shares, at three sizes each: `secrec run` over products of private numbers, in arrays of 65,536, and over comparisons of private
# numbers, each beside the same messages written by hand in plain Rust; over products of two numbers, one after another; and over a loop of public steps beside
# `secrec eval`. Both read their words from one tape file where they draw them. Processor time and peak memory are those of the run of five that took least
# processor time. The time of a run over the same inputs that computes nothing is taken away. It measures; it tests nothing. It wants bash, python3, rustc, and
# 2 GB of memory and of room for files; another program than the one that `./secrec` runs can be named.
. "$(dirname "$0")/begin.sh"
for name in multiply compare; do rustc -O -o "$work/${name}_by_hand" "$top/bench/${name}_by_hand.rs"; done

python3 - "$program" "$work" <<'PY'
import random
import sys
from measure import least, ran, written

program, work = sys.argv[1:]
HEAD = "import stdlib; import shared3p; domain p shared3p;\n"
PRODUCTS = HEAD + """void main() {
    p uint64[[1]] a = argument("a"); p uint64[[1]] b = argument("b"); uint64 n = argument("n");
    uint64 i = 0;
    for (i = 0; i < n; i++) { a = a * b; }
    publish("size", size(a));
}
"""
COMPARISONS = HEAD + """void main() {
    p uint64[[1]] a = argument("a"); p uint64[[1]] b = argument("b");
    p bool[[1]] less = a < b;
    publish("size", size(less));
}
"""
NO_COMPARISONS = COMPARISONS.replace("    p bool[[1]] less = a < b;\n", "").replace("size(less)", "size(a)")
SCALARS = HEAD + """void main() {
    p uint64 x = argument("x"); uint64 n = argument("n");
    for (uint64 i = 0; i < n; i++) { x = x * x; }
}
"""
STEPS = """void main() {
    uint64 n = argument("n"); uint64 i = 0; uint64 s = 0;
    for (i = 0; i < n; i++) { s = s + i; }
    publish("s", s);
}
"""


def entry(name, domain, value):
    return '{"name":"%s","domain":"%s","type":"uint64","value":%s}' % (name, domain, value)


def numbers(count, factor):
    return "[" + ",".join(str(k * factor % 2**64) for k in range(count)) + "]"


def pairs(count):
    return [entry("a", "private", numbers(count, 2862933555777941757)), entry("b", "private", numbers(count, 3202034522624059733))]


def taken(*words):
    return least(5, lambda: ran(*words))


def called(command, text, entries, *more):
    source, given = written(f"{work}/p.sc", text), written(f"{work}/p.json", '{"inputs":[' + ",".join(entries) + "]}")
    return taken(program, command, source, "--input", given, "--budget", "1000000000000", *more)


def tape(dealer, words):
    """A tape file of so many words for the dealer, and for each miner."""
    path, drawn = f"{work}/p.tape", random.Random(7)
    with open(path, "wb") as file:
        for length in (dealer, words, words, words):
            file.write(length.to_bytes(8, "little"))
        for _ in range(dealer + 3 * words >> 10):
            file.write(drawn.randbytes(8 << 10))
        file.write(drawn.randbytes(8 * ((dealer + 3 * words) % 1024)))
    return path


def run(text, entries, *tapes):
    return called("run", text, entries, *tapes)


def by_hand(name, *counts, words):
    """The seconds that the same takes by hand, without the making of the shares."""
    program, counts = f"{work}/{name}_by_hand", [str(count) for count in counts]
    return taken(program, *counts, words).seconds - taken(program, *counts, "shares").seconds


def told(name, size, seconds, memory, last, more=""):
    over = "" if last is None else f"{seconds / last:.2f}"
    print(f"{name:12} {size:9} {seconds:9.3f} {1e9 * seconds / size:9.1f} {memory / 1024:9.0f} {over:>9}   {more}", flush=True)
    return seconds


print(f"{'what':12} {'how many':>9} {'seconds':>9} {'ns each':>9} {'peak MB':>9} {'growth':>9}")
def beside(name, size, none, took, hand, last):
    """A line of what a run took beyond one that computes nothing, beside the same by hand."""
    spent = took.seconds - none.seconds
    return told(name, size, spent, took.peak, last, f"by hand {1e9 * hand / size:.1f} ns each; over by hand {spent / hand:.2f}")


SIZE, last = 65536, None
for times in (4, 16, 64):
    words = tape(4 * SIZE, 3 * SIZE * times)
    none, took = (run(PRODUCTS, pairs(SIZE) + [entry("n", "public", n)], "--tape", words) for n in (0, times))
    last = beside("products", SIZE * times, none, took, by_hand("multiply", SIZE, times, words=words), last)
seed = ("--seed", "00" * 32, "--words", str(3 * SIZE * 64))
none, took = (run(PRODUCTS, pairs(SIZE) + [entry("n", "public", n)], *seed) for n in (0, 64))
told("of a seed", SIZE * 64, took.seconds - none.seconds, took.peak, None)
last = None
for size in (4096, 16384, 65536):
    words = tape(4 * size, 119 * size)
    none, took = (run(text, pairs(size), "--tape", words) for text in (NO_COMPARISONS, COMPARISONS))
    last = beside("comparisons", size, none, took, by_hand("compare", size, words=words), last)
last = None
for count in (2000, 8000, 32000):
    one = [entry("x", "private", 3)]
    words = tape(2, 3 * count)
    none, took = (run(SCALARS, one + [entry("n", "public", n)], "--tape", words) for n in (0, count))
    last = told("scalars", count, took.seconds - none.seconds, took.peak, last)
last = evaluated = None
for size in (62500, 250000, 1000000):
    given = [entry("n", "public", size)]
    clear, shared = called("eval", STEPS, given), run(STEPS, given, "--seed", "00" * 32, "--words", "1")
    evaluated = told("steps, eval", size, clear.seconds, clear.peak, evaluated)
    last = told("steps, run", size, shared.seconds, shared.peak, last, f"over eval {shared.seconds / clear.seconds:.2f}")
PY
