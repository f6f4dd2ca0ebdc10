#!/usr/bin/env bash
# Measures what look-ups at private places take on shares: `secrec run` over a table of 65,536 elements with 1, 4 and 9 indices, and one of 1,024 with 512,
# beside the same by hand, a comparison of each index with each place. Told are the words of miner 1, the messages and the processor time, each beyond a run
# over the same inputs without it, the time for each element times index, and the peak memory; of three runs the one that took least. The last two columns say
# how time and memory grow over the row before it, beside how elements times indices do: where both are linear the three are alike.
# It measures; it tests nothing. It wants bash and python3; another program than the one that `./secrec` runs can be named.
. "$(dirname "$0")/begin.sh"

python3 - "$program" "$work" <<'PY'
import random
import subprocess
import sys
from collections import namedtuple
from measure import least, ran, tape, written

program, work = sys.argv[1:]
BUDGET = "1000000000000"
TEXT = """import stdlib; import shared3p; domain p shared3p;
void main() {
    p uint64[[1]] a = argument("a"); p uint64[[1]] i = argument("i"); p uint64 s; uint64[[1]] k (size(a));
    for (uint64 j = 0; j < size(a); j++) k[j] = j;
    /* here */
    publish("s", s);
}
"""
WAYS = (
    ("lookup(a, i)", "s = sum(lookup(a, i));"),
    ("by hand", "for (uint64 j = 0; j < size(i); j++) s += sum(a * (uint64) (k == i[j]));"),
)
SIZES = ((65_536, 1), (65_536, 4), (65_536, 9), (1_024, 512))
Taken = namedtuple("Taken", "words messages took")


def entry(name, elements):
    return '{"name":"%s","domain":"private","type":"uint64","value":[%s]}' % (name, ",".join(map(str, elements)))


def given(count, wanted):
    """A table of so many elements, and so many places of it."""
    drawn = random.Random(count + wanted)
    elements, places = [drawn.randrange(1 << 32) for _ in range(count)], [drawn.randrange(count) for _ in range(wanted)]
    written(f"{work}/p.json", '{"inputs":[' + entry("a", elements) + "," + entry("i", places) + "]}")


def called(command, *more):
    return [program, command, f"{work}/p.sc", "--input", f"{work}/p.json", "--budget", BUDGET, *more]


def taken(body):
    """What a run with this in it takes."""
    written(f"{work}/p.sc", TEXT.replace("/* here */", body))
    needs = subprocess.run(called("need"), capture_output=True, text=True, check=True).stdout.split()[1:]
    path = tape(f"{work}/p.tape", [int(word) for word in needs])
    ran(*called("run", "--tape", path, "--record", f"{work}/links"))
    with open(f"{work}/links", "rb") as file:
        messages = sum(1 for _ in file)
    return Taken(int(needs[1]), messages, least(3, lambda: ran(*called("run", "--tape", path))))


def growth(pairs, before, spent, peak):
    """How elements times indices, time and memory grow over the row before."""
    return "" if before is None else f"   {pairs / before[0]:.2f}: {spent / before[1]:.2f} {peak / before[2]:.2f}"


print(f"{'what':14} {'elements':>8} {'indices':>7} {'words':>11} {'messages':>9} {'seconds':>9} {'ns each':>9} {'peak MB':>9}   grows by: time, memory")
last = {}
for count, wanted in SIZES:
    given(count, wanted)
    none, pairs = taken(""), count * wanted
    for name, body in WAYS:
        some = taken(body)
        spent, peak = some.took.seconds - none.took.seconds, some.took.peak / 1024
        grown = growth(pairs, last.get(name), spent, peak)
        print(f"{name:14} {count:8,} {wanted:7,} {some.words - none.words:11,} {some.messages - none.messages:9,} {spent:9.3f} {1e9 * spent / pairs:9.1f} "
              f"{peak:9.0f}{grown}", flush=True)
        last[name] = pairs, spent, peak
PY
