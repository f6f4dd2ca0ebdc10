#!/usr/bin/env bash
# Times how many messages a second `secrec run` delivers, in turn, shuffled, and as recorded, over programs that multiply private numbers one after
# another: six messages each. Processor time is that of the run of three that took least, with what the same program takes that multiplies nothing taken
# away. It measures; it tests nothing. It wants bash and python3; another program than the one that `./secrec` runs can be named.
. "$(dirname "$0")/begin.sh"

python3 - "$program" "$work" <<'PY'
import sys
from measure import least, ran, written

program, work = sys.argv[1:]
SEED = "00" * 31 + "07"
PRODUCTS = """import shared3p; domain p shared3p;
void main() {
    p uint64 x = argument("x"); uint64 n = argument("n");
    for (uint64 i = 0; i < n; i++) { x = x * x; }
}
"""


def inputs(count):
    private = '{"name":"x","domain":"private","type":"uint64","value":3}'
    return written(f"{work}/input.json", '{"inputs":[%s,{"name":"n","domain":"public","type":"uint64","value":%d}]}' % (private, count))


def seconds(count, *options):
    """The least processor time of three runs."""
    words = [program, "run", written(f"{work}/products.sc", PRODUCTS), "--input", inputs(count), "--seed", SEED, "--words", "400000",
             "--budget", "100000000", *options]
    return least(3, lambda: ran(*words)).seconds


recorded = f"{work}/recorded"
orders = [("in turn", ["--record", recorded]), ("shuffled", ["--shuffle", SEED]), ("as recorded", ["--schedule", recorded]),
          ("in turn, with views", ["--views", f"{work}/view"])]
print("order of delivery      messages   seconds   messages a second")
for count in (2_000, 8_000, 32_000):
    idle = seconds(0)
    for name, options in orders:
        spent = seconds(count, *options)
        with open(recorded) as links:
            messages = sum(1 for _ in links)
        print(f"{name:20} {messages:10,} {spent:9.2f} {messages / max(spent - idle, 0.01):15,.0f}")
PY
