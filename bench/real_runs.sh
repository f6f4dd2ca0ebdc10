#!/usr/bin/env bash
# A hundred real runs in a row: `trio` on one port again and again, and as many runs of three `miner` that are started in every order, up to 5 milliseconds
# apart, on that port too. None may fail. It says how long a run took. It is no step of the gate. It wants bash and python3; another program than the one that
# `./secrec` runs can be named, and after it another count.
. "$(dirname "$0")/begin.sh"

python3 - "$program" "$work" "${2:-100}" <<'PY'
import itertools
import os
import random
import statistics
import struct
import sys
import time
from bounded_calls import FIRST_PORT, ended, together

program, work, count = sys.argv[1], sys.argv[2], int(sys.argv[3])
PATIENCE = 60
TEXT = b"publish c 42\nend done cost 7\n"
PROGRAM = """import stdlib; import shared3p; domain p shared3p; void main() {
p uint64 a = argument("a"); p uint64 b = argument("b"); p uint64 c = a * b; publish("c", c);
}
"""
ENTRY = '{"name":"%s","domain":"private","type":"uint64","value":%d}'


def write(name, data):
    with open(f"{work}/{name}", "wb") as file:
        file.write(data)


def by_trio(_number):
    """One call of `trio` on words drawn for it."""
    write("t.tape", struct.pack("<4Q", 4, 4, 4, 4) + os.urandom(128))
    words = ["trio", "p.sc", "--input", "i.json", "--tape", "t.tape", "--to", "d", "--port", str(FIRST_PORT)]
    found = ended([program, *words], work, PATIENCE)
    assert (found.status, found.out, found.err) == (0, TEXT, b""), found


def by_three(number):
    """Three calls of `miner` in one of the six orders."""
    order = list(itertools.permutations((1, 2, 3)))[number % 6]
    with together() as start:
        calls = []
        for me in order:
            words = ["miner", "d.code", "--me", str(me), "--share", f"d.{me}", "--tape", f"d.t{me}", "--port", str(FIRST_PORT), "--out", f"d.o{me}"]
            calls.append(start([program, *words], work))
            time.sleep(random.uniform(0, 0.005))
        for me, call in zip(order, calls):
            found = call.result(PATIENCE)
            assert (found.status, found.err) == (0, b""), (order, me, found)
    found = ended([program, "join", "d.o1", "d.o2", "d.o3"], work, PATIENCE)
    assert (found.status, found.out) == (0, TEXT), found


write("p.sc", PROGRAM.encode())
write("i.json", ('{"inputs":[%s,%s]}' % (ENTRY % ("a", 6), ENTRY % ("b", 7))).encode())
failed = 0
for what, run in (("trio", by_trio), ("three miners", by_three)):
    seconds, wrong = [], 0
    for number in range(count):
        began = time.monotonic()
        try:
            run(number)
        except AssertionError as fault:
            wrong += 1
            print(f"real_runs: {what}, run {number}: {fault}", file=sys.stderr)
        seconds.append(time.monotonic() - began)
    print(f"{what}: {count} runs, {wrong} failed; {statistics.median(seconds):.3f} s each, {max(seconds):.3f} at most")
    failed += wrong
sys.exit(1 if failed else 0)
PY
