#!/usr/bin/env bash
# lengths.sh PROGRAM.sc MADE.json..: the words that each miner draws, of what several owners have made up by `random_input`; they go into settings.sh.
set -eu
. "$(dirname -- "$0")/parts.sh"
work=$(mktemp -d)
trap 'rm -rf "$work"' EXIT
"$random_input" "${@:2}" --to "$work/made.json"
need=$("$secrec" need "$1" --input "$work/made.json" --budget "$budget") || {
  status=$?
  say "the words can't be known: with what was made up $1 doesn't come to its end (status $status)"
  exit "$status"
}
read -ra words <<<"${need#need }"
echo "${words[*]:1}"
