# Sourced by ./secrec and ./install, by four checks in .ci and by bench/begin.sh: proves and builds the program `secrec` where no build of
# these sources is at hand, and says which crates it is made of.
#
# A build stands in .build/SUM, SUM being a checksum of all that the program is made of. It is made under another name and
# renamed when it is whole, so nobody ever meets half of one; a lock lets one build at a time work in a checkout.

# What a build from nothing took on the fastest machine that was met: processor minutes in all, and minutes on four processors, which its longest chain of
# crates sets. On the slowest it took three and a half times as long (docs/performance.md).
build_work=73
build_chain=22

# Ends the script with a status that no run of the program has.
give_up() {
  printf 'secrec: %s\n' "$@" >&2
  exit 125
}

# The crates of the repository that the program is made of, one a line.
crates_of_program() {
  awk '{ sub(/#.*/, "") } /:/ { name = $1; sub(/:.*/, "", name); sub(/^[^:]*:/, ""); below[name] = $0 }
    function visit(crate, deps, n, i) {
      if (crate in seen || !(crate in below)) return
      seen[crate]; print crate
      n = split(below[crate], deps, " ")
      for (i = 1; i <= n; i++) visit(deps[i])
    }
    END { visit("secrec_cli") }' "$top/crates.txt" | LC_ALL=C sort
}

# Their lines of crates.txt.
lines_of_program() {
  local crate
  for crate in $crates; do
    grep -E "^$crate( .*)?:" crates.txt
  done
}

# The files that the proofs, the build and its first run read, each ended by a zero byte.
files_of_program() {
  local crate
  for crate in $crates; do
    find "crates/$crate" \( -name out -o -name must-fail \) -prune -o -type f ! -name README.md -print0
  done | LC_ALL=C sort -z
}

# One checksum of all that the program is made of.
sum_of_program() {
  local crates
  crates=$(crates_of_program)
  (cd "$top" || exit 1
    { cat HANDLES
      lines_of_program
      files_of_program | xargs -0 sha256sum
    } | sha256sum | cut -d' ' -f1)
}

# Says every minute, until it is ended, how much of the program is proved: crates weigh what their files do.
tell_progress() {
  local log=$1 started=$SECONDS all=0 done_ crate
  local -A size
  for crate in $crates; do
    size[$crate]=$(cd "$top/crates/$crate" && cat src/*.rt specs/*.antt $(find proofs -name '*.antt' 2>/dev/null) 2>/dev/null | wc -c)
    all=$((all + size[$crate]))
  done
  while sleep 60; do
    done_=0
    while read -r crate; do
      done_=$((done_ + ${size[$crate]:-0}))
    done < <(sed -nE 's/^rt: ([a-z0-9_]+) (proved$|is kept: .*)/\1/p' "$log")
    echo "secrec: $((100 * done_ / all)) % proved, $(((SECONDS - started) / 60)) min so far" >&2
  done
}

# place_build FILE SUM: this program becomes the build of the sources of this sum, and those of other sources are let go. The lock is held.
place_build() {
  local new=$build/new.$$ old=$build/old.$$
  rm -rf "$new" "$old"
  mkdir "$new" && cp "$1" "$new/secrec" && rt version >"$new/kit" && { [ ! -d "$build/$2" ] || mv "$build/$2" "$old"; } && mv "$new" "$build/$2" ||
    give_up "the program could not be written to $build"
  find "$build" -mindepth 1 -maxdepth 1 -type d ! -name "$2" -exec rm -rf {} +
}

# keep_proved SUM: the program that `rt ci` has just proved and built in this checkout becomes its build, as a first use would have made it, where the
# sources are those of this sum still. So the gate proves nothing twice.
keep_proved() {
  build=$top/.build
  [ "$(sum_of_program)" = "$1" ] || give_up "a source has changed since the proof began"
  mkdir -p "$build" && exec 9>>"$build/lock" && flock 9 || give_up "$build cannot be written"
  place_build "$top/crates/secrec_cli/out/secrec_cli" "$1"
  exec 9>&-
}

# Proves, tries and builds what stands in the folder one is in, as many crates side by side as tools/lanes.py says.
prove_all() {
  RT_JOBS=$(python3 "$top/tools/lanes.py") rt ci
}

# Proves and builds in a copy that has the program's crates alone, and moves what came out to .build/SUM.
make_build() {
  local sum=$1 minutes status
  minutes=$((build_work / $(nproc)))
  [ "$minutes" -ge "$build_chain" ] || minutes=$build_chain
  echo "secrec: proving and building the program (its first use here, or a source has changed);" \
    "$minutes to $((7 * minutes / 2)) minutes on $(nproc) processors" >&2
  echo "secrec: for a first look within three minutes, at a program of which nothing is proved, call ./try in its place" >&2
  scratch=$(mktemp -d 2>/dev/null) || give_up "no folder for temporary files can be made in ${TMPDIR:-/tmp}"
  teller=
  trap '[ -z "$teller" ] || kill "$teller" 2>/dev/null; rm -rf "$scratch" "$build/new.$$"' EXIT
  trap 'exit 130' INT TERM HUP
  # (so rt takes it for the top of a repository of its own)
  mkdir "$scratch/.git"
  (cd "$top" && files_of_program | xargs -0 cp --parents -t "$scratch" && cp HANDLES "$scratch" &&
    lines_of_program >"$scratch/crates.txt") || give_up "the sources could not be copied to $scratch"
  # (neither holds the lock, should it outlive this script)
  tell_progress "$build/log" 9>&- &
  teller=$!
  status=0
  (cd "$scratch" && prove_all) >"$build/log" 2>&1 </dev/null 9>&- || status=$?
  kill "$teller" 2>/dev/null || true
  wait "$teller" 2>/dev/null || true
  teller=
  if [ "$status" -ne 0 ] || [ ! -x "$scratch/crates/secrec_cli/out/secrec_cli" ]; then
    tail -n 20 "$build/log" >&2
    give_up "the program could not be proved and built; these are the last lines of $build/log"
  fi
  place_build "$scratch/crates/secrec_cli/out/secrec_cli" "$sum"
  rm -rf "$scratch"
  trap - EXIT INT TERM HUP
  echo "secrec: proved and built" >&2
}

# Whether the program of these sources is there, built by the kit that is on the path where one is.
is_built() {
  [ -x "$build/$1/secrec" ] || return 1
  ! command -v rt >/dev/null 2>&1 || [ "$(rt version 2>/dev/null)" = "$(cat "$build/$1/kit" 2>/dev/null)" ]
}

# Sets `sum` to the checksum of the sources, and `program` to where their program is, or will be.
look_for_program() {
  build=$top/.build
  crates=$(crates_of_program)
  sum=$(sum_of_program) && [ -n "$sum" ] || give_up "the sources in $top could not be read"
  program=$build/$sum/secrec
}

# Sets `program` to the path of the program, built where it has to be; with SECREC_NO_BUILD in the environment it must be there.
find_program() {
  look_for_program
  if ! is_built "$sum"; then
    [ -z "${SECREC_NO_BUILD-}" ] || give_up "not built yet"
    command -v rt >/dev/null 2>&1 || give_up "not built yet, and the command rt of the Rattle kit, which proves and builds it, is not on the path"
    { mkdir -p "$build" && : >>"$build/lock"; } 2>/dev/null || give_up "not built yet, and $build cannot be written"
    exec 9>>"$build/lock"
    if ! flock -n 9; then
      echo "secrec: another command is building it here; waiting for that" >&2
      flock 9
    fi
    is_built "$sum" || make_build "$sum"
    exec 9>&-
  fi
}
