#!/usr/bin/env bash
# one_owner.sh OWNER INPUT.json: one of several owners splits its data, and sends each host its share, as OWNER.1, .2 or .3, and nothing else.
set -eu
. "$(dirname -- "$0")/parts.sh"
work=$(mktemp -d)
trap 'rm -rf "$work"' EXIT
if ! [[ " ${owners[*]} " == *" $1 "* ]] || [ "${#lengths[@]}" -ne 3 ]; then
  say "settings.sh must have $1 among the owners, and the three lengths on which all agreed"
  exit 1
fi
deal_to_hosts "$2" "$1" "${lengths[@]}"
