# Sourced by the benches. Sets `top`, the repository; `program`, the one that is named by the first word, else the one that ./secrec runs, built where it
# has to be; and `work`, a folder that goes when the bench ends. Python finds bench/measure.py and the modules in tools/.
set -eu
top=$(cd "$(dirname "$0")/.." && pwd)
program=${1-}
if [ -z "$program" ]; then
  . "$top/tools/build.sh"
  find_program
fi
export PYTHONPATH=$top/bench:$top/tools PYTHONDONTWRITEBYTECODE=1
work=$(mktemp -d)
trap 'rm -rf "$work"' EXIT
