#!/usr/bin/env bash
# host1.sh PROGRAM.sc [SUM]: the first host, which both others come to. Start it first.
set -eu
. "$(dirname -- "$0")/parts.sh"
prepare 1 "$1" "${*:2}"
mine 1
