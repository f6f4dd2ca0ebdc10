#!/usr/bin/env bash
# Runs three `secrec miner` over this machine's network with own tapes of as many words as the run needs, and with the largest that there can be
# (16,777,216 words, 128 MiB), and prints the peak memory of each miner and the seconds that went by. The words are read where they are drawn, so neither
# grows with the tape: where the memory with the largest tapes is more than 4 MiB above the other, the bench fails. It wants bash, python3 and a file system
# that keeps files with holes (else 400 MB in TMPDIR or /tmp).
. "$(dirname "$0")/begin.sh"

python3 - "$program" "$work" <<'PY'
import os
import struct
import sys
from concurrent.futures import ThreadPoolExecutor
from measure import ran, written

program, work = sys.argv[1], sys.argv[2]
PORT = 47310
MINERS = (1, 2, 3)
FEW, MOST = 4, 16_777_216
MORE_KB = 4096
TEXT = """import stdlib; import shared3p; domain p shared3p; void main() {
p uint64 a = argument("a"); p uint64 b = argument("b"); publish("c", declassify(a * b));
}
"""
SHARES = {1: (0, 0), 2: (0, 0), 3: (6, 7)}
ENTRY = '{"domain":"private","name":"%s","shape":"scalar","share":[%d],"type":"uint64"}'


def files(words):
    """The share files and the own tapes of so many words each, all of them 0."""
    for miner in MINERS:
        entries = ",".join(ENTRY % pair for pair in zip("ab", SHARES[miner]))
        written(f"{work}/p.{miner}", '{"inputs":[%s],"lens":[4,%d,%d,%d],"miner":%d}' % (entries, words, words, words, miner))
        with open(f"{work}/p.t{miner}", "wb") as tape:
            tape.write(struct.pack("<Q", words))
            tape.truncate(8 + 8 * words)


def play(miner):
    """One of three miners, which has to end well."""
    named = ["--me", str(miner), "--share", f"{work}/p.{miner}", "--tape", f"{work}/p.t{miner}", "--port", str(PORT), "--out", f"{work}/p.o{miner}"]
    took = ran(program, "miner", f"{work}/p.code", *named)
    with open(f"{work}/p.o{miner}", "rb") as text:
        assert text.read() == b"open 42\npublish c 42\nend done cost 7\n"
    return took


def run(words):
    """Three miners at once."""
    files(words)
    with ThreadPoolExecutor(len(MINERS)) as pool:
        found = list(pool.map(play, MINERS))
    size = os.path.getsize(f"{work}/p.t1") // 1024
    print(f"{words:12,} {size:10,}" + "".join(f" {took.peak:11,}" for took in found) + f" {max(took.passed for took in found):9.2f}", flush=True)
    return found


ran(program, "compile", written(f"{work}/p.sc", TEXT), "--code", f"{work}/p.code")
print("       words    tape kB  miner 1 kB  miner 2 kB  miner 3 kB   seconds")
few, most = run(FEW), run(MOST)
grown = max(more.peak - less.peak for less, more in zip(few, most))
if grown > MORE_KB:
    sys.exit(f"peak memory grows with the tape, by {grown:,} kB")
PY
