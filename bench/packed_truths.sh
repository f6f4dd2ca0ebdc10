#!/usr/bin/env bash
# Measures what packed truth values take on shares: `secrec run` over 1,048,576 of them by `&`, `|` and `!=`, and opened; over comparisons that are opened; over
# the bits of numbers; and over a loop that sets each element of an array, beside the same loop over numbers and one that stores nothing. Told are the words
# of miner 1, the messages and the processor time, each beyond a run over the same inputs without the operation, and the peak memory; of three runs the one
# that took least. It measures; it tests nothing. Another program than the one that `./secrec` runs can be named, and after it one of a
# release before 0.13, which is measured beside it.
. "$(dirname "$0")/begin.sh"

python3 - "$work" "$program" "${@:2}" <<'PY'
import random
import subprocess
import sys
from measure import least, ran, tape, written

work, *programs = sys.argv[1:]
BUDGET = "1000000000000"
HEAD = "import stdlib; import shared3p; domain p shared3p;\nvoid main() {\n"
# The whole array is made of inputs, of which one has at most 65,536 elements.
TRUTHS = """p bool[[1]] a = argument("a"); p bool[[1]] b = argument("b");
for (uint64 i = 0; i < 4; i++) { a = cat(a, a); b = cat(b, b); }
/* here */
publish("n", size(a));
"""
NUMBERS = """p uint64[[1]] x = argument("x"); p uint64[[1]] y = argument("y");
/* here */
publish("n", size(x));
"""
STORES = """p bool t = argument("t"); p uint64 u = argument("u"); uint64 n = argument("n"); p bool[[1]] v (n); p uint64[[1]] w (n);
for (uint64 i = 0; i < n; i++) { /* here */ }
publish("n", n);
"""
WHOLE = 1 << 20
EACH = 1 << 16
OPERATIONS = (
    ("a & b", TRUTHS, "a = a & b;", WHOLE),
    ("a | b", TRUTHS, "a = a | b;", WHOLE),
    ("a != b", TRUTHS, "a = a != b;", WHOLE),
    ("declassify(a)", TRUTHS, "bool[[1]] c = declassify(a);", WHOLE),
    ('publish("a", a)', TRUTHS, 'publish("a", a);', WHOLE),
    ("declassify(x < y)", NUMBERS, "bool[[1]] c = declassify(x < y);", EACH),
    ("declassify(x == y)", NUMBERS, "bool[[1]] c = declassify(x == y);", EACH),
    ("bitExtract(x)", NUMBERS.replace('argument("x");', 'argument("z");'), "p bool[[1]] c = bitExtract(x);", WHOLE),
)


def entry(name, kind, value, domain="private"):
    return '{"name":"%s","domain":"%s","type":"%s","value":%s}' % (name, domain, kind, value)


def numbers(count, factor):
    return "[" + ",".join(str(k * factor % 2**64) for k in range(count)) + "]"


def truths(seed):
    drawn = random.Random(seed)
    return "[" + ",".join(drawn.choice(("true", "false")) for _ in range(EACH)) + "]"


WIDE = [entry("a", "bool", truths(1)), entry("b", "bool", truths(2))]
LONG = [entry("x", "uint64", numbers(EACH, 2862933555777941757)), entry("y", "uint64", numbers(EACH, 3202034522624059733)),
        entry("z", "uint64", numbers(WHOLE // 64, 2862933555777941757))]


def given(entries):
    return written(f"{work}/p.json", '{"inputs":[' + ",".join(entries) + "]}")


def called(program, command, *more):
    return [program, command, f"{work}/p.sc", "--input", f"{work}/p.json", "--budget", BUDGET, *more]


def needed(program):
    """The words of the dealer and of the miners."""
    found = subprocess.run(called(program, "need"), capture_output=True, text=True, check=True)
    return [int(word) for word in found.stdout.split()[1:]]


def taken(program, text):
    """Words of miner 1, messages, and what a run takes."""
    written(f"{work}/p.sc", HEAD + text + "}\n")
    needs = needed(program)
    path = tape(f"{work}/p.tape", needs)
    subprocess.run(called(program, "run", "--tape", path, "--record", f"{work}/links"), stdout=subprocess.DEVNULL, check=True)
    with open(f"{work}/links", "rb") as file:
        messages = sum(1 for _ in file)
    return needs[1], messages, least(3, lambda: ran(*called(program, "run", "--tape", path)))


def told(name, count, none, some):
    spent = some[2].seconds - none[2].seconds
    print(f"{name:20} {count:9,} {some[0] - none[0]:11,} {some[1] - none[1]:9,} {spent:9.3f} {1e9 * spent / count:9.1f} {some[2].peak / 1024:9.0f}", flush=True)


for program in programs:
    print(program)
    print(f"{'what':20} {'elements':>9} {'words':>11} {'messages':>9} {'seconds':>9} {'ns each':>9} {'peak MB':>9}")
    given([*WIDE, *LONG])
    for name, text, here, count in OPERATIONS:
        none, some = (taken(program, text.replace("/* here */", one)) for one in ("", here))
        told(name, count, none, some)
    for size in (EACH // 4, EACH):
        given([entry("t", "bool", "true"), entry("u", "uint64", "7"), entry("n", "uint64", str(size), "public")])
        none, truth, number = (taken(program, STORES.replace("/* here */", one)) for one in (";", "v[i] = t;", "w[i] = u;"))
        told("v[i] = t, each", size, none, truth)
        told("w[i] = u, each", size, none, number)
PY
