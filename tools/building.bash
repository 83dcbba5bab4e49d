# Proves and builds the program; `cekpayo` reads this file where it must. It uses `top`, `program`, `me` and `is_fresh`
# of that script. CEKPAYO_PROGRESS is how often, in seconds, a build says how far it is where standard error is no
# terminal.

# What a build takes, as measured: docs/ARCHITECTURE.md.
readonly minutes=81 memory_of_one=4800 disk=13000 # processor minutes, and MB

say() {
  printf 'cekpayo: %s\n' "$@" >&2
}

# How many crates the program is made of: it, and those that it stands on.
count_crates() {
  awk -F '[: ]+' '/^[a-z]/ { names[++count] = $1; uses[$1] = $0 }
    END {
      needed["sim_cli"]
      for (k = count; k > 0; k--) if (names[k] in needed) {
        last = split(uses[names[k]], word)
        for (i = 2; i <= last; i++) needed[word[i]]
        all++
      }
      print all
    }' "$top/crates.txt"
}

# The crates that are ready since a file was touched.
count_ready() {
  (cd "$top/crates" && find ./*/out/rlib -type f -newer "$1" 2>/dev/null | cut -d/ -f2 | sort -u | wc -l)
}

# How far a build is that began when the file was touched: on a terminal in one line, in a log every few minutes in one
# of its own.
show_progress() {
  local all every=${CEKPAYO_PROGRESS:-180} format='%d minutes, %d of %d crates' began=$SECONDS next now
  all=$(count_crates)
  [ ! -t 2 ] || every=5
  next=$((began + every))
  while sleep 1 >/dev/null 2>&1 && kill -0 $$ 2>/dev/null; do
    [ "$SECONDS" -ge "$next" ] || continue
    next=$((SECONDS + every))
    # shellcheck disable=SC2059 # the format is a constant
    now=$(printf "$format" $(((SECONDS - began) / 60)) "$(count_ready "$1")" "$all")
    if [ -t 2 ]; then printf '\rcekpayo: %s ' "$now" >&2; else say "$now"; fi
  done
}

# The memory in MB that is free.
free_memory() {
  awk '$1 == "MemAvailable:" { print int($2 / 1000) }' /proc/meminfo 2>/dev/null
}

free_disk() {
  df -Pm "$top" 2>/dev/null | awk 'NR == 2 { print $4 }'
}

# What a build needs, beside what is here.
say_needs() {
  local memory disk_here
  memory=$(free_memory) disk_here=$(free_disk)
  say "the program isn't built, or is older than its sources; it is proved and built now, which goes on where it was cut off" \
    "from nothing this takes some $minutes processor minutes, half an hour on four processors; one process takes 4.8 GB of memory, and the work 13 GB of disk" \
    "here: $(nproc) processors, $((${memory:-0} / 1000)) GB of memory and $((${disk_here:-0} / 1000)) GB of disk are free" \
    "\`$me --try WORD FILE\` answers within some two minutes instead, from the sources as they stand, unproved"
  [ "${memory:-$memory_of_one}" -ge "$memory_of_one" ] || say "there may be too little memory here"
  [ "${disk_here:-$disk}" -ge "$disk" ] || say "there may be too little disk here"
}

# Proves the crates that the program stands on, several beside each other, and then builds it.
prove_and_build() {
  "$top/tools/prove" sim_cli
}

# Ends the build with all that it started, as the signal of this number ended this script.
end_build() {
  trap - TERM INT HUP
  kill -TERM -- "-$builder" 2>/dev/null
  [ -z "$shower" ] || kill "$shower" 2>/dev/null
  wait "$builder" 2>/dev/null
  [ ! -t 2 ] || echo >&2
  say "the build was ended; the next one goes on where it was"
  exit $((128 + $1))
}

# Holds the lock of the builds as long as this script runs; while another one builds, it waits. What it builds with
# inherits the lock, so that no build begins beside one whose script was killed.
take_lock() {
  command -v flock >/dev/null || return 0
  exec 8>"$1" || return 1
  flock -n 8 && return
  say "another call is building the program; this one waits for it"
  flock 8
}

# The program is built once it is proved; `rt run` does both, and then runs it.
build() {
  local out=$top/crates/sim_cli/out log status
  log=$out/build.log builder='' shower=''
  mkdir -p "$out" && take_lock "$out/build.lock" || return 1
  ! is_fresh || { exec 8>&-; return 0; }
  say_needs
  : >"$log.began" || return 1
  show_progress "$log.began" 8>&- & shower=$!
  set -m
  prove_and_build </dev/null >"$log" 2>&1 & builder=$!
  set +m
  trap 'end_build 15' TERM; trap 'end_build 2' INT; trap 'end_build 1' HUP
  wait "$builder"
  status=$?
  trap - TERM INT HUP
  kill "$shower" 2>/dev/null
  [ ! -t 2 ] || echo >&2
  [ "$status" -eq 0 ] && [ -x "$program" ] && touch "$program" && exec 8>&- && return 0
  say "it could not be built; $log ends so:"
  grep -v ': ok$' "$log" | tail -n 5 >&2
  return 1
}
