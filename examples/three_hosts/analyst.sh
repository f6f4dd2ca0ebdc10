#!/usr/bin/env bash
# analyst.sh: who may know the results puts the three hosts' texts together, once all have come. Those that have come stay until then; what came of a run that
# failed has to go before the next one.
set -eu
. "$(dirname -- "$0")/parts.sh"
missing=
for me in 1 2 3; do [ -e "text.$me" ] || missing+=" text.$me"; done
if [ -n "$missing" ]; then
  say "nothing is joined:$missing not here yet. After a run that failed take away what came: rm -f text.1 text.2 text.3"
  exit "$lost"
fi
status=0
"$secrec" join text.1 text.2 text.3 || status=$?
rm -f text.1 text.2 text.3
exit "$status"
