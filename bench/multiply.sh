#!/usr/bin/env bash
# Nanoseconds an element of multiplication by three miners in one process, in blocks of 512, for 2^20 elements: the proved
# program beside the same messages written by hand in plain Rust, in turns, the best of five each. It measures; it tests nothing.
set -eu
top=$(cd "$(dirname "$0")/.." && pwd)
work=$(mktemp -d)
trap 'rm -rf "$work"' EXIT
elements=1048576
rustc -O -o "$work/by_hand" "$top/bench/multiply_by_hand.rs"
(cd "$top/crates/multiply_bench" && rt run -- 1000 quiet) >"$work/log" 2>&1 || { tail -n 20 "$work/log" >&2; exit 1; }
proved=$top/crates/multiply_bench/out/multiply_bench

time_of() { "$@" "$elements" | awk '/^nanoseconds/ { print $2 }'; }
for _ in 1 2 3 4 5; do
  time_of "$proved" >>"$work/proved.times"
  time_of "$work/by_hand" >>"$work/by_hand.times"
done
best() { sort -n "$1" | head -n 1; }
python3 - "$elements" "$(best "$work/proved.times")" "$(best "$work/by_hand.times")" <<'PY'
import sys
elements, proved, by_hand = map(int, sys.argv[1:])
print(f"proved: {proved / elements:.1f} ns an element; by hand: {by_hand / elements:.1f}; proved over by hand: {proved / by_hand:.2f}")
PY
