#!/usr/bin/env bash
# Times three processes that meet over this machine's network against one: `secrec trio` beside `secrec run` of the same program on the same tape, over products
# of arrays, comparisons, and products of scalars one after another, which are many small messages; and beside the messages of the products written by hand in
# plain Rust, by three processes over sockets, too. Seconds are those that went by, of the run of three that took least; the processor's are those of all
# three. It measures; it tests nothing but that both print the same. It wants bash, python3 and rustc; another program than the one that `./secrec` runs can be
# named, and after it by what to divide the sizes (for one that isn't proved: 100).
. "$(dirname "$0")/begin.sh"
rustc -O -o "$work/by_hand" "$top/bench/messages_by_hand.rs"

python3 - "$program" "$work" "${2:-1}" <<'PY'
import os
import struct
import sys
from measure import called, written

program, work, divided = sys.argv[1], sys.argv[2], int(sys.argv[3])
PORT = 47310
HEAD = "import stdlib; import shared3p; domain p shared3p;\nvoid main() {\n"
PRODUCTS = HEAD + """p uint64[[1]] a = argument("a"); uint64 n = argument("n");
for (uint64 i = 0; i < n; i++) a = a * a;
publish("first", a[0]);
}
"""
COMPARISONS = HEAD + """p uint64[[1]] a = argument("a"); uint64 n = argument("n");
for (uint64 i = 0; i < n; i++) a = a + (uint64) (a < 2 * a);
publish("first", a[0]);
}
"""
SCALARS = HEAD + """p uint64 a = argument("a"); uint64 n = argument("n");
for (uint64 i = 0; i < n; i++) a = a * a;
publish("first", a);
}
"""


def least(words):
    """The call of three that took the least time: its last line but one, seconds that went by and of the processor."""
    calls = [called(*words) for _ in range(3)]
    assert all(status == 0 for status, _, _ in calls), calls
    _, text, took = min(calls, key=lambda one: one[2].passed)
    return text, took


def case(name, text, elements, times, by_hand):
    """A program on an array, or on a scalar where no elements are given; of an array the elements are divided, else the times."""
    if elements is None:
        elements, times, value = 1, max(times // divided, 1), "3"
    else:
        elements = max(elements // divided, 1)
        value = "[" + ",".join(str(3 + 2 * k) for k in range(elements)) + "]"
    source = written(f"{work}/p.sc", text)
    given = written(f"{work}/i.json", '{"inputs":[{"name":"a","domain":"private","type":"uint64","value":%s},'
                    '{"name":"n","domain":"public","type":"uint64","value":%d}]}' % (value, times))
    shared = [source, "--input", given, "--budget", "1000000000000"]
    status, need, _ = called(program, "need", *shared)
    assert status == 0, need
    lengths = [int(word) for word in need.split()[1:]]
    with open(f"{work}/t.tape", "wb") as file:
        file.write(struct.pack("<4Q", *lengths) + os.urandom(8 * sum(lengths)))
    shared += ["--tape", f"{work}/t.tape"]
    called(program, "run", *shared, "--record", f"{work}/links")
    with open(f"{work}/links") as links:
        messages = sum(1 for _ in links)
    text_run, run = least([program, "run", *shared])
    text_trio, trio = least([program, "trio", *shared, "--to", f"{work}/d", "--port", str(PORT)])
    assert text_run == text_trio, (text_run, text_trio)
    row = f"{name:22} {messages:9,} {run.passed:8.2f} {run.seconds:8.2f} {trio.passed:8.2f} {trio.seconds:8.2f} {messages / trio.passed:11,.0f}"
    if by_hand:
        _, hand = least([f"{work}/by_hand", str(PORT), str(times), str(elements)])
        row += f" {hand.passed:8.2f} {hand.seconds:8.2f} {messages / hand.passed:11,.0f} {trio.passed / hand.passed:7.1f}"
    print(row, flush=True)


print("                                     run              trio                     by hand")
print("                        messages  seconds  of cpu  seconds  of cpu  messages/s  seconds  of cpu  messages/s   ratio")
case("products of arrays", PRODUCTS, 65_536, 10, True)
case("comparisons", COMPARISONS, 16_384, 1, False)
case("products of scalars", SCALARS, None, 20_000, True)
PY
