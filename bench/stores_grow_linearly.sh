#!/usr/bin/env bash
# Times `secrec run` over as many stores into a private array as it has elements, at three sizes each: in `main`; where each reads its element first; in
# a loop that asks for the size in its test; and in a function that was passed the array; and over the same loop without a store. Prints the processor time
# and the peak memory of the run of three that took least, and how they grow. The sizes grow by four: so does the time of stores that are done in place, and
# that of copies would grow by sixteen. It measures; it tests nothing. It wants bash and python3; another program than the one that `./secrec` runs can be
# named.
. "$(dirname "$0")/begin.sh"

python3 - "$program" "$work" <<'PY'
import sys
from measure import least, ran, written

program, work = sys.argv[1:]
HEAD = "import stdlib; import shared3p; domain p shared3p;\n"
MAIN = HEAD + """void main() {
    uint64 n = argument("n"); p uint64[[1]] a (n); p uint64 x = 7; uint64 i = 0;
    for (i = 0; i < %s; i++) { %s }
    publish("size", size(a));
}
"""
CALLED = HEAD + """p uint64[[1]] stored(p uint64[[1]] a, p uint64 x) {
    uint64 n = size(a); uint64 i = 0;
    for (i = 0; i < n; i++) { a[i] = x; }
    return a;
}
void main() {
    uint64 n = argument("n"); p uint64[[1]] a (n); p uint64 x = 7;
    a = stored(a, x);
    publish("size", size(a));
}
"""


def run(text, size):
    source = written(f"{work}/p.sc", text)
    given = written(f"{work}/p.json", '{"inputs":[{"name":"n","domain":"public","type":"uint64","value":%d}]}' % size)
    words = [program, "run", source, "--input", given, "--budget", "1000000000000", "--seed", "00" * 32, "--words", "1"]
    return least(3, lambda: ran(*words))


print(f"{'loop':16} {'turns':>9} {'seconds':>9} {'ns each':>9} {'peak kB':>9}   over the size before: time, memory")
LOOPS = (
    ("no store", MAIN % ("n", "")),
    ("stores", MAIN % ("n", "a[i] = x;")),
    ("read and store", MAIN % ("n", "a[i] = a[i] + x;")),
    ("size in the test", MAIN % ("size(a)", "a[i] = x;")),
    ("in a call", CALLED),
)
for name, text in LOOPS:
    last = None
    for size in (16384, 65536, 262144):
        took = run(text, size)
        over = "" if last is None else f"   {took.seconds / last.seconds:.1f} {took.peak / last.peak:.1f}"
        print(f"{name:16} {size:9} {took.seconds:9.3f} {1e9 * took.seconds / size:9.0f} {took.peak:9}{over}", flush=True)
        last = took
PY
