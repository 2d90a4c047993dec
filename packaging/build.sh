#!/usr/bin/env bash
# packaging/build.sh [om] [om_each] [om_classes]: proves and builds the programs, om and om_each where none is named, over
# what earlier calls built.
# Where more than two crates are wanting, `rt ci` gets the crates that the programs stand on, without their must-fail
# edits, in a folder for the time being. It proves as many side by side as there are processors and 4 GB of memory for
# each (RT_JOBS is another number), those first for which most others wait, and keeps beside the toolchain what is
# proved, for later calls and for the gate. Else rt builds in place, and so it does where nothing can be kept there; it
# keeps its work in crates/*/out then. How far it is, and which crates are at work, goes to standard error where that is
# a terminal. Where a proof fails, what rt says of that crate goes there, and the exit code is 1.
set -u
here=$(cd "$(dirname "$(readlink -f "${BASH_SOURCE[0]}")")/.." && pwd) || exit 1
[ $# -gt 0 ] || set -- om om_each
for program in "$@"; do
  case $program in
    om | om_each | om_classes) ;;
    *) echo "usage: packaging/build.sh [om] [om_each] [om_classes]" >&2; exit 2 ;;
  esac
done
command -v rt >/dev/null || { echo "om: the programs aren't built, and rt, which proves and builds them, isn't on the path" >&2; exit 1; }
processors=$(nproc 2>/dev/null || echo 1)
rooms=$(awk '/^MemAvailable:/ { print int($2 / 4000000) }' /proc/meminfo 2>/dev/null)
jobs=$((${rooms:-1} < processors ? ${rooms:-1} : processors))
jobs=${RT_JOBS:-$((jobs < 1 ? 1 : jobs))}
room=$(mktemp -d) || exit 1
log=$room/log tree=$room/tree running='' watching=''
# a source that is changed from now on is newer than what is built
start=$room/start
touch "$log" "$start"
trap 'rm -rf "$room"' EXIT
# rt runs in the background, where Ctrl-C doesn't reach it; when it ends, so do the checks that it has started. The
# folder has thousands of files, whose removal isn't waited for.
stop() {
  trap - EXIT
  trap '' INT TERM HUP
  [ -z "$running" ] || { kill -KILL "$running" "$watching"; wait "$running" "$watching"; } 2>/dev/null
  rm -rf "$room" </dev/null >/dev/null 2>&1 &
  exit 130
}
trap stop INT TERM HUP
began=$(date +%s)
width=80
[ ! -t 2 ] || width=$(stty size <&2 2>/dev/null | awk '$2 > 20 { print $2; exit } END { if (!NR) print 80 }')
width=${width:-80}

# The crates that a program stands on, and itself.
crates_of() {
  awk -v program="$1" '
    /^[^#]/ { name = $1; sub(/:$/, "", name); sub(/^[^:]*:/, ""); below[name] = $0 }
    function visit(name,  i, n, names) {
      if (seen[name]++ || !(name in below)) return
      print name
      n = split(below[name], names, " ")
      for (i = 1; i <= n; i++) visit(names[i])
    }
    END { visit(program) }' "$here/crates.txt"
}

# Whether rt can keep what is proved, which it does beside the folder of its first page, where the disk has room.
can_keep() {
  local page beside
  page=$(rt doc 2>/dev/null) && beside=$(dirname "$(dirname "$page")") && [ -w "$beside" ] &&
    df -Pk "$beside" | awk 'NR == 2 { exit !($4 > 6000000) }'
}

# Puts the crates into the folder for the time being.
lay_out() {
  # it is the top of a repository, whatever stands above it
  mkdir -p "$tree/crates" "$tree/.git" && cp "$here/HANDLES" "$tree/" || return 1
  local crate part
  while read -r crate; do
    mkdir "$tree/crates/$crate" || return 1
    for part in "$here/crates/$crate"/*; do
      case ${part##*/} in
        must-fail | out) ;;
        *) cp -Rp "$part" "$tree/crates/$crate/" || return 1 ;;
      esac
    done
    grep -E "^$crate( |:)" "$here/crates.txt" >>"$tree/crates.txt" || return 1
  done <<<"$crates"
}

# Removes what an rt that was killed left in the folders where the crates are built, which another one would stop at.
sweep() {
  local left owner
  for left in "$here"/crates/*/out/rt-work-*; do
    owner=${left##*/rt-work-}
    if [ -d "$left" ] && ! tr '\0' ' ' 2>/dev/null <"/proc/${owner%%-*}/cmdline" | grep -q '/rt '; then
      rm -rf "$left"
    fi
  done
}

# Says how far it is, in one line that is written over, and which crates are at work, as far as the line has room.
show() {
  [ -t 2 ] || return 0
  local spent=$(($(date +%s) - began)) room_left line
  line=$(printf 'om: %s, %d min %02d s' "$1" $((spent / 60)) $((spent % 60)))
  room_left=$((width - ${#line} - 3))
  [ -z "${2-}" ] || [ "$room_left" -lt 12 ] || line="$line: ${2:0:room_left}"
  printf '\r\033[K%s' "$line" >&2
}

# The crates at work: those in whose folders programs of rt run.
at_work() {
  ls -l /proc/[0-9]*/cwd 2>/dev/null | sed -n "s|^.* -> $1/crates/\([a-z_]*\)$|\1|p" | sort -u | paste -sd' ' -
}

# How many crates are done, and the last one: of rt ci each line of a proof, of rt all each head.
proved() {
  awk -v all="$count" -v ways="$1" '
    ways == "ci" && /^rt: [a-z_]+ (proved|is kept:)/ || ways == "all" && /^== om/ { if (!seen[$2]++) n++; last = " (" $2 ")" }
    END { print (n + 0) " of " all " crates proved" last }' "$log"
}

# report WHAT FOLDER: says how far rt is.
report() {
  [ -t 2 ] || return 0
  case $1 in
    ci | all) show "$(proved "$1")" "$(at_work "${2%/crates/*}")" ;;
    *) show "$1" ;;
  esac
}

# watch WHAT FOLDER: says so again and again, as long as rt runs.
watch() {
  while kill -0 "$running" 2>/dev/null; do
    report "$1" "$2"
    sleep 0.3
  done
}

# attend WHAT FOLDER WORDS..: runs rt in a folder, and says how far it is. This shell only waits, since bash 5.2 forgets
# some of the signals that come while something in $( ) runs; what is said comes from another one.
attend() {
  local what=$1 folder=$2 status
  shift 2
  (cd "$folder" && exec rt "$@") >"$log" 2>&1 </dev/null &
  running=$!
  [ ! -t 2 ] || watch "$what" "$folder" &
  watching=$!
  wait "$running"
  status=$?
  { kill -KILL "$watching"; wait "$watching"; } 2>/dev/null
  running=''
  report "$what" "$folder"
  return $status
}

# What rt said of the crates that failed, or, where none did, all but what it said of the others.
failures() {
  sed "s|$tree/|$here/|g" "$log" | awk '
    /^== summary/ { summary = 1 }
    /^== / && !summary { name = $2; text[name] = "" }
    name != "" && !summary { text[name] = text[name] $0 "\n" }
    /^rt: [a-z_]+ NOT PROVED/ || summary && /: failed/ { failed[$1 == "rt:" ? $2 : substr($1, 1, length($1) - 1)] = 1 }
    /^rt: [a-z_]+ (NOT )?PROVED$/ || /^rt: [a-z_]+ proved$/ { name = ""; next }
    name == "" && !summary { rest = rest $0 "\n" }
    END {
      for (it in failed) if (it in text) { printf "%s", text[it]; n++ }
      if (!n) { printf "%s", rest; for (it in text) printf "%s", text[it] }
    }'
}

fail() {
  [ ! -t 2 ] || printf '\r\033[K' >&2
  "$@" >&2
  echo "om: the build failed" >&2
  exit 1
}

# Proves and builds in the folder for the time being, and puts the programs into their places.
build_apart() {
  lay_out || fail echo "om: the crates can't be copied to $tree"
  RT_JOBS=$jobs attend ci "$tree" ci || fail failures
  local program to
  for program in "$@"; do
    to=$here/crates/$program/out/$program
    mkdir -p "${to%/*}" && cp "$tree/crates/$program/out/$program" "$to.new" && touch -r "$start" "$to.new" && mv -f "$to.new" "$to" ||
      fail echo "om: the program can't be put into crates/$program/out"
  done
}

# Proves the libraries in place, side by side. om_each stands on all that om stands on.
prove_in_place() {
  local program
  for program in "$@"; do
    [ "$program $*" != "om om om_each" ] || continue
    sweep
    attend all "$here/crates/$program" all check --jobs "$jobs" || fail failures
  done
}

# Builds the programs in place, over libraries that are proved there, or whose changes rt proves now.
build_in_place() {
  local program
  for program in "$@"; do
    sweep
    attend "building $program" "$here/crates/$program" run
    # rt runs the program that it has built, or that it finds built from the same sources; without words this answers usage 1
    [ "$(tail -n 1 "$log")" = "usage 1" ] || fail cat "$log"
    touch -r "$start" "$here/crates/$program/out/$program"
  done
}

crates=$(for program in "$@"; do crates_of "$program"; done | sort -u)
count=$(wc -l <<<"$crates")
unbuilt=$(while read -r crate; do [ -e "$here/crates/$crate/out/rlib/stamp" ] || echo "$crate"; done <<<"$crates" | grep -cvx -e om -e om_each -e om_classes)
if [ "$unbuilt" -le 2 ]; then
  echo "om: proving and building what has changed" >&2
  build_in_place "$@"
else
  echo "om: proving and building $count crates, $jobs at a time; from nothing that takes many minutes" >&2
  if can_keep; then
    build_apart "$@"
  else
    prove_in_place "$@"
    build_in_place "$@"
  fi
fi
show "proved and built"
[ ! -t 2 ] || echo >&2
