#!/usr/bin/env bash
# Runs `secrec run` on tapes of as few words as the run needs, and of the most that there can be (four times 16,777,216 words), from files (512 MiB) and
# from a seed; then products in arrays without and with views of more than 100 MiB each. It prints processor seconds and peak memory of each. The words of a
# tape are read or made where they are drawn, so neither grows with the tape: where a run with the longest tapes holds more than 64 MiB, or more than 4 MiB
# above the one with the shortest, or tells or writes anything else, the bench fails. It wants bash, python3 and a file system that keeps files with holes
# (else 600 MB in TMPDIR or /tmp), and 400 MB for the views; another program than the one that `./secrec` runs can be named.
. "$(dirname "$0")/begin.sh"

python3 - "$program" "$work" "$top/examples/sum" <<'PY'
import os
import struct
import sys
from measure import called, least, written

program, work, example = sys.argv[1:]
FEW, MOST = 4, 16_777_216
MOST_KB, MORE_KB = 64 * 1024, 4096
SIZE, TIMES = 65_536, 12
PRODUCTS = """import stdlib; import shared3p; domain p shared3p; void main() {
p uint64[[1]] a = argument("a"); uint64 n = argument("n"); uint64 i = 0; for (i = 0; i < n; i++) { a = a * a; } publish("size", size(a)); }
"""


def tapes(words):
    """A file of four tapes of so many words each, all of them 0."""
    path = f"{work}/{words}.tape"
    with open(path, "wb") as tape:
        tape.write(struct.pack("<4Q", words, words, words, words))
        tape.truncate(32 + 32 * words)
    return "--tape", path


def seed(words):
    return "--seed", "00" * 32, "--words", str(words)


def views(name):
    found = []
    for miner in (1, 2, 3):
        with open(f"{work}/{name}.{miner}", "rb") as file:
            found.append(file.read())
    return found


def run(what, text, entries, source, *more):
    """The run of three that took least processor time, which has to end well, and what it printed."""
    words = [program, "run", text, "--input", entries, *source, "--budget", "1000000000", *more]
    def once():
        status, said, took = called(*words)
        assert status == 0, (words, status, said)
        return took, said
    took, said = least(3, once)
    print(f"{what:34} {took.seconds:9.3f} {took.peak:11,}", flush=True)
    return took, said


print(f"{'what':34} {'seconds':>9} {'peak kB':>11}")
failed = []
for kind, source in (("tape file", tapes), ("seed", seed)):
    found = []
    for words in (FEW, MOST):
        took, said = run(f"{kind}, 4 x {words:,} words", f"{example}/sum.sc", f"{example}/sum.json", source(words), "--views", f"{work}/v")
        found.append((took, said, views("v")))
    (less, said, seen), (more, said_again, seen_again) = found
    if more.peak > MOST_KB or more.peak > less.peak + MORE_KB:
        failed.append(f"{kind}: peak memory is {more.peak:,} kB, with the shortest tapes {less.peak:,}")
    if said != said_again or seen != seen_again:
        failed.append(f"{kind}: another text or another view with the longest tapes")

numbers = "[" + ",".join(str(k * 2862933555777941757 % 2**64) for k in range(SIZE)) + "]"
entry = '{"name":"%s","domain":"%s","type":"uint64","value":%s}'
entries = '{"inputs":[%s,%s]}' % (entry % ("a", "private", numbers), entry % ("n", "public", TIMES))
text, given, words = written(f"{work}/p.sc", PRODUCTS), written(f"{work}/p.json", entries), seed(SIZE * (2 + 3 * TIMES))
without, _ = run(f"{SIZE * TIMES:,} products", text, given, words)
seen, _ = run("the same with views", text, given, words, "--views", f"{work}/p")
size = sum(os.path.getsize(f"{work}/p.{miner}") for miner in (1, 2, 3))
print(f"three views of {size / 3 / 2**20:.0f} MiB; peak memory grows by {(seen.peak - without.peak) / 1024:.0f} MiB")
for line in failed:
    print(f"run_holds_no_tape: {line}", file=sys.stderr)
sys.exit(1 if failed else 0)
PY
