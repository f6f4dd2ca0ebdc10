#!/usr/bin/env bash
# host2.sh PROGRAM.sc [SUM]: the second host, which goes to the first and to which the third comes.
set -eu
. "$(dirname -- "$0")/parts.sh"
prepare 2 "$1" "${*:2}"
wait_for "$host1" "$port"
lead "$host1" "$port"
mine 2
