# What the scripts of the hosts have in common.
# shellcheck shell=bash disable=SC2154
here=$(dirname -- "$(readlink -f -- "${BASH_SOURCE[0]}")")
# shellcheck source=settings.sh
. "${SETTINGS:-$here/settings.sh}"
: "${patience:=600}" "${log:=}" "${random_input:=random_input}" "${secrec_sum:=secrec-sum}"
[ -n "${owners+x}" ] || owners=()
[ -n "${lengths+x}" ] || lengths=()
# (a command that fails inside `$(..)` ends that, too)
shopt -s inherit_errexit
umask 077
ulimit -c 0
trap 'exit 130' INT
trap 'exit 143' TERM
trap 'exit 129' HUP
tunnels=()
miner=
# What a script ends with where it lost a peer, and where the hosts don't run the same, as a miner does.
lost=10
unlike=11

say() { echo "${0##*/}: $*" >&2; }

# wait_for HOST PORT: until the miner on that host listens there. It can't be asked at the port: the first who comes is taken for its peer.
wait_for() {
  local until=$((SECONDS + patience))
  while [ "$SECONDS" -lt "$until" ]; do
    if on "$1" ss -ltnH | grep -qF " 127.0.0.2:$2 "; then return; fi
    sleep 1
  done
  say "nobody listens at port $2 of $1 after $patience seconds"
  exit "$lost"
}

# lead HOST PORT: a tunnel that stands while this script does. Its standard input is a pipe that this script holds, so it ends even where this script is killed.
lead() {
  local pipe held
  pipe=$(mktemp -u)
  mkfifo "$pipe"
  tunnel "$1" "$2" <"$pipe" 9<&- &
  tunnels+=("$!")
  exec {held}>"$pipe"
  rm -f "$pipe"
}

# goes_on ID: whether a program that was started here has not ended yet
goes_on() { grep -qx "$1" <(jobs -pr); }

# However the run ended, the words that were drawn are gone first: they are for one run. Then the miner and the tunnels end, of which any may have ended before.
let_go() {
  local status=$? one
  trap - EXIT
  trap '' INT TERM HUP
  rm -f own.tape
  for one in $miner "${tunnels[@]}"; do
    if goes_on "$one"; then kill "$one" 2>/dev/null || true; fi
  done
  wait || true
  exit "$status"
}

# deal_to_hosts INPUT NAME MINER1 MINER2 MINER3: splits an input file with words of the dealer's own, and sends each host its share as NAME.1, .2 or .3. What
# `deal` writes for the miners goes nowhere, since each draws its own words, as many as this says. `work` is a folder of the script's own.
deal_to_hosts() {
  local me host
  for me in 1 2 3; do ln -s /dev/null "$work/$2.t$me"; done
  "$random_tape" --deal "$1" "${@:3}" --to "$work/words.tape"
  "$secrec" deal --input "$1" --tape "$work/words.tape" --to "$work/$2"
  for me in 1 2 3; do
    host=host$me
    send "${!host}" "$work/$2.$me"
  done
}

# ready ME PROGRAM: compiles the program that was agreed on, puts together what several owners have sent, and prints the one sum of the run.
ready() {
  "$secrec" compile "$2" --code program.code >/dev/null
  [ "${#owners[@]}" -eq 0 ] || "$secrec" gather --me "$1" --to "share.$1" "${owners[@]/%/.$1}"
  [ -e "share.$1" ] || { say "share.$1 isn't here yet: the owner deals it"; exit 1; }
  "$secrec_sum" program.code "share.$1" --budget "$budget"
}

# prepare ME PROGRAM [SUM]: makes all ready, and draws this miner's words, as many as its share file says. Another sum than the one that is given ends it.
prepare() {
  local words sum
  exec 9<.
  flock -n 9 || { say "another run goes on in $PWD"; exit 1; }
  trap let_go EXIT
  # (of a run that was killed)
  rm -f own.tape
  sum=$(ready "$1" "$2")
  echo "$sum"
  if [ -n "${3:-}" ] && [ "$sum" != "$3" ]; then
    say "the sum of this host's files is another one: compare program, inputs, budget and the order of owners"
    exit "$unlike"
  fi
  words=$(sed -E 's/.*"lens":\[([0-9,]+)\].*/\1/' "share.$1")
  "$random_tape" --own "$(cut -d, -f$(($1 + 1)) <<<"$words")" --to own.tape
}

# watch: waits for the miner. One that goes on though a tunnel has ended has lost a peer: it is given five seconds to find that itself.
watch() {
  local one left=25
  while goes_on "$miner"; do
    for one in "${tunnels[@]}"; do
      goes_on "$one" || left=$((left - 1))
    done
    if [ "$left" -le 0 ]; then
      say "a tunnel has ended, so the miner is ended"
      return "$lost"
    fi
    sleep 0.2
  done
  wait "$miner"
}

# mine ME: one miner's part, whose text goes to the analyst; then its share is gone, too.
mine() {
  local status=0
  "$secrec" miner program.code --me "$1" --share "share.$1" --tape own.tape --port "$port" --out "text.$1" --budget "$budget" \
    --wait "$patience" ${log:+--log "$log"} &
  miner=$!
  watch || status=$?
  case $status in
    0 | 1 | 7 | 8) ;;
    *) return "$status" ;;
  esac
  send "$analyst" "text.$1" || { say "text.$1 could not be sent to $analyst, and stays here"; return "$lost"; }
  rm -f "share.$1" "text.$1" "${owners[@]/%/.$1}"
  return "$status"
}
