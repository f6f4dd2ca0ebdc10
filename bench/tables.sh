#!/usr/bin/env bash
# tables.sh [FOLDER]: seven more tables go from CSV to results by at most three commands each, and are compared with what Python computes. They are those of
# the Debian packages python3-statsmodels and python3-sklearn, unpacked in FOLDER, or fetched by `apt-get download` where none is given. They aren't kept
# here: the two largest for their size, the others since nothing says that they may be handed on.
set -eu
cd "$(dirname "$0")/.."
top=$PWD
. tools/build.sh
program=${SECREC_PROGRAM:-}
[ -n "$program" ] || find_program
folder=${1-}
if [ -z "$folder" ]; then
  folder=$(mktemp -d)
  trap 'rm -rf -- "$folder"' EXIT
  (cd "$folder" && apt-get download -qq python3-statsmodels python3-sklearn && for file in *.deb; do dpkg -x "$file" .; done)
fi
export PYTHONDONTWRITEBYTECODE=1
python3 tools/recipes/check_tables.py --program "$(realpath "$program")" --packages "$folder/usr/lib/python3/dist-packages"
