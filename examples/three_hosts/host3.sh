#!/usr/bin/env bash
# host3.sh PROGRAM.sc [SUM]: the third host, which goes to both others.
set -eu
. "$(dirname -- "$0")/parts.sh"
prepare 3 "$1" "${*:2}"
wait_for "$host1" $((port + 1))
wait_for "$host2" $((port + 2))
lead "$host1" $((port + 1))
lead "$host2" $((port + 2))
mine 3
