#!/usr/bin/env bash
# Times `secrec run` over large files and over files of a sixteenth of their size, and prints both with their ratios. Large:
# tapes of 4 x 16,777,216 words, and an input file of 64 arrays of 65,536 elements. Between them, large tapes with the small
# inputs show what time and memory go into. It measures; it tests nothing. It wants bash, python3, about 700 MB in TMPDIR
# (or /tmp), and 2 GB of memory.
. "$(dirname "$0")/begin.sh"

# A file of four tapes of so many words each.
tapes() {
  python3 - "$work/$1.tape" "$2" <<'PY'
import struct, sys
path, words = sys.argv[1], int(sys.argv[2])
with open(path, "wb") as tape:
    tape.write(struct.pack("<4Q", words, words, words, words))
    block = bytes(range(256)) * 4096
    left = 4 * words * 8
    while left:
        left -= tape.write(block[:left])
PY
}

# An input file of so many private arrays of 65,536 elements beside `a` and `b`.
inputs() {
  python3 - "$work/$1.json" "$2" <<'PY'
import sys
path, arrays = sys.argv[1], int(sys.argv[2])
entry = '{"name":"%s","domain":"private","type":"uint64","value":%s}'
values = "[" + ",".join(str(k * 2862933555777941757 % 2**64) for k in range(65536)) + "]"
with open(path, "w") as file:
    file.write('{"inputs":[' + entry % ("a", 6) + "," + entry % ("b", 7))
    for k in range(arrays):
        file.write("," + entry % (f"x{k}", values))
    file.write("]}")
PY
}

# Of five runs over these tapes and these inputs the one with the least processor time: its processor time in the program and in
# the kernel, the time that went by (seconds), and its peak memory (kilobytes).
measure() {
  python3 - "$program" "$top/examples/sum/sum.sc" "$work/$1.tape" "$work/$2.json" <<'PY'
import sys
from measure import called, least
program, source, tape, inputs = sys.argv[1:]
def run():
    status, text, took = called(program, "run", source, "--input", inputs, "--tape", tape)
    assert status == 0 and text == b"open 13\npublish s 13\nend done cost 7\n", (status, text)
    return took
print("%.3f %.3f %.3f %d" % least(5, run)[1:])
PY
}

size() { echo $(($(stat -c %s "$work/$1") / 1024)); }

tapes small 1048576
tapes large 16777216
inputs small 4
inputs large 64
declare -A found
row() { printf '%-6s %-6s %9s %9s %9s %9s %9s %9s\n' "$@"; }
row tapes inputs 'tapes kB' 'inputs kB' 'program s' 'kernel s' 'passed s' 'peak kB'
for of in 'small small' 'large small' 'large large'; do
  read -r tape input <<<"$of"
  found[$of]=$(measure "$tape" "$input")
  # shellcheck disable=SC2086
  row "$tape" "$input" "$(size "$tape.tape")" "$(size "$input.json")" ${found[$of]}
done
python3 - ${found[large large]} ${found[small small]} <<'PY'
import sys
more, less = [float(word) for word in sys.argv[1:5]], [float(word) for word in sys.argv[5:]]
processor = (more[0] + more[1]) / (less[0] + less[1])
print(f"large over small: files 16, processor time {processor:.1f} (program {more[0] / less[0]:.1f}, kernel {more[1] / less[1]:.1f}), "
      f"time passed {more[2] / less[2]:.1f}, memory {more[3] / less[3]:.1f}")
PY
