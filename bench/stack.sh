#!/usr/bin/env bash
# Finds how much stack `secrec eval` takes for the programs that want most: 64 calls in one another, the most there may be, each from inside
# an expression or a statement of the greatest height that the parser takes. It prints the least stack, to 64 kB, with which each shape ends, and ends
# with status 1 where a shape doesn't end within 8 MiB, the stack that most systems give. It wants bash and python3; another program than the one
# that `./secrec` runs can be named.
. "$(dirname "$0")/begin.sh"

python3 - "$program" "$work" <<'PY'
import sys
from deep_programs import SHAPES, deepest
from measure import called, written

program, work = sys.argv[1:]
WITHIN = 8192  # kB


def is_accepted(text):
    return called(program, "check", written(f"{work}/tried.sc", text))[0] == 0


given = written(f"{work}/given.json", '{"inputs":[]}')


def ended(source, kilobytes):
    limited = f'ulimit -S -s {kilobytes} && exec "$0" "$@"'
    status, text, _ = called("bash", "-c", limited, program, "eval", source, "--input", given)
    return status >= 0 and b"depth" in text.lower()


beyond = False
print(f"{'shape':28} {'parts':>5}   least stack, kB")
for name, made in SHAPES.items():
    parts = deepest(is_accepted, made)
    if parts is None:
        print(f"{name:28} no program of this shape is accepted")
        beyond = True
        continue
    source = written(f"{work}/deep.sc", made(parts))
    low, high = 0, 64 * 1024
    if not ended(source, high):
        print(f"{name:28} {parts:5}   doesn't end within {high}")
        beyond = True
        continue
    while high - low > 64:
        middle = (low + high) // 2
        low, high = (low, middle) if ended(source, middle) else (middle, high)
    beyond = beyond or high > WITHIN
    print(f"{name:28} {parts:5}   {high:6}{'   beyond 8 MiB' if high > WITHIN else ''}")
sys.exit(1 if beyond else 0)
PY
