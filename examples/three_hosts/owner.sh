#!/usr/bin/env bash
# owner.sh PROGRAM.sc INPUT.json: the owner of the data splits it, and sends each host its share and nothing else.
set -eu
. "$(dirname -- "$0")/parts.sh"
work=$(mktemp -d)
trap 'rm -rf "$work"' EXIT
need=$("$secrec" need "$1" --input "$2" --budget "$budget") || {
  status=$?
  say "nothing is dealt: $1 doesn't come to its end with a budget of $budget (status $status)"
  exit "$status"
}
# (how many words a run takes: after the dealer's, which dealing counts itself, those of each host)
read -ra words <<<"${need#need }"
deal_to_hosts "$2" share "${words[@]:1}"
