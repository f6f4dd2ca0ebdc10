# What the parties agree on, and how one reaches another. Each has a copy of this folder, and may set this file for itself; SETTINGS names another file.
# shellcheck shell=bash disable=SC2034
host1=${HOST1:-miner1.example}
host2=${HOST2:-miner2.example}
host3=${HOST3:-miner3.example}
analyst=${ANALYST:-analyst.example}
# The first of the three ports at which the miners meet, and the most that the run may cost.
port=${PORT:-47310}
budget=${BUDGET:-1000000}
# For how many seconds a host waits until another one listens, and its miner for its peers and for what they send; the file to which a host's log goes, if any.
patience=${PATIENCE:-600}
log=${LOG:-}
# Of several owners their names, in the order in which all three hosts put their share files together, and the words that each miner draws, on which all agreed
# (`lengths.sh` tells them); nothing where one owner has all inputs.
read -ra owners <<<"${OWNERS:-}"
read -ra lengths <<<"${LENGTHS:-}"
# The command that is installed, and the tools beside it
secrec=${SECREC:-secrec}
random_tape=${RANDOM_TAPE:-random_tape}
random_input=${RANDOM_INPUT:-random_input}
secrec_sum=${SUM_TOOL:-secrec-sum}
# ssh asks nothing, gives up on a host that doesn't answer, and ends 45 seconds after the network did.
ssh_options=(-o BatchMode=yes -o ConnectTimeout=20 -o ServerAliveInterval=15 -o ServerAliveCountMax=3)

# on HOST WORD..: a command on another host
on() { ssh "${ssh_options[@]}" "$@" </dev/null; }
# send HOST FILE..: files to that host's copy of this folder
send() { scp -q "${ssh_options[@]}" -- "${@:2}" "$1:three_hosts/"; }
# tunnel HOST PORT: this host's port of 127.0.0.2 leads to the same port of that one's, encrypted, until it is ended (`exec`, so that ssh itself is) or its
# standard input ends. There stands `cat`, and no `-N`: only with a session sends the server's ssh small messages at once.
tunnel() { exec ssh -T "${ssh_options[@]}" -o ExitOnForwardFailure=yes -L "127.0.0.2:$2:127.0.0.2:$2" "$1" cat; }
