#!/usr/bin/env bash
# rehearse.sh PROGRAM.sc INPUT.json: the owner deals made-up inputs of the same names, types and shapes in place of the true ones, and prints what the analyst must
# read of them. The hosts and the analyst do as on the day itself.
set -eu
. "$(dirname -- "$0")/parts.sh"
folder=$(mktemp -d)
trap 'rm -rf "$folder"' EXIT
"$random_input" "$2" --to "$folder/made.json"
"$here/owner.sh" "$1" "$folder/made.json"
"$secrec" eval "$1" --input "$folder/made.json" --budget "$budget"
