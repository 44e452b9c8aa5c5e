#!/usr/bin/env bash
# Proves and builds the program buildcache: each crate that it stands on by `rt lib`, as soon as those below it are
# built, and then the program. Crates that don't stand on each other are built side by side. What was built before is
# kept, so a run that was broken off goes on where it was, and a second one beside it waits for the first. It tells on
# standard error which crate it is at.
set -euo pipefail
case ${1:-} in
-h | --help) sed -n '2,/^[^#]/s/^# //p' "$0"; exit ;;
?*) echo "error: ${0##*/} takes no arguments but --help" >&2; exit 2 ;;
esac
command -v rt >/dev/null || { echo "error: rt, the Rattle kit's command, isn't found; README.md says which kit" >&2; exit 3; }
top=$(cd "$(dirname "${BASH_SOURCE[0]}")/.." && pwd)
rooms=$top/.git/build-rooms
log=$(mktemp -d)
trap 'rm -rf "$log"' EXIT

# One build at a time in these folders: what another one builds is there when it is done.
exec {lock}<"$top"
if ! flock -n "$lock"; then
  echo 'buildcache: waiting for another build here' >&2
  flock "$lock"
fi
trap 'rm -rf "$log" "$rooms"' EXIT

. "$top/tools/shared/crates.sh"

# The repository's crates below a crate, each after those below it.
below() {
  local it
  for it in ${uses[$1]}; do
    [ -n "${uses[$it]+set}" ] && { below "$it"; echo "$it"; }
  done
  return 0
}

# Whether a crate's library is newer than its text and its libraries. `rt` compares the text itself when it is used.
is_built() {
  local stamp=$top/crates/$1/out/rlib/stamp it
  [ -e "$stamp" ] || return 1
  for it in $(below "$1"); do
    [ ! "$top/crates/$it/out/rlib/stamp" -nt "$stamp" ] || return 1
  done
  [ -z "$(find "$top/crates/$1" -path '*/out' -prune -o -type f -newer "$stamp" -print -quit)" ]
}

# Only one `rt` at a time works over a crate, so a second one gets a room with the same files, by links.
build_in_room() {
  local crate=$1 jobs=$2 room=$rooms/$1 it
  mkdir -p "$room/crates/$crate"
  for it in $(below "$crate" | sort -u) "$crate"; do
    echo "$it:${uses[$it]}" >>"$room/crates.txt"
    mkdir -p "$room/crates/$it/out"
    for part in src specs proofs out/rlib; do
      [ ! -e "$top/crates/$it/$part" ] || cp -al "$top/crates/$it/$part" "$room/crates/$it/$part"
    done
  done
  (cd "$room/crates/$crate" && rt lib --jobs "$jobs") || return 1
  rm -rf "$top/crates/$crate/out"
  mv "$room/crates/$crate/out" "$top/crates/$crate/out"
  rm -rf "$room"
}

build_library() {
  if [ "$3" = in-room ]; then
    build_in_room "$1" "$2"
  else
    (cd "$top/crates/$1" && rt lib --jobs "$2")
  fi
}

mapfile -t order < <(below buildcache | awk '!seen[$0]++')

# How many crates stand above a crate, one on the other: the greatest first, since the rest waits for these.
declare -A height=()
for ((at = ${#order[@]} - 1; at >= 0; at--)); do
  it=${order[at]}
  for low in $(below "$it"); do
    above=$((${height[$it]:-0} + 1))
    [ "${height[$low]:-0}" -ge "$above" ] || height[$low]=$above
  done
done
mapfile -t order < <(for it in "${order[@]}"; do echo "${height[$it]:-0} $it"; done | sort -s -k1,1nr | cut -d' ' -f2)
total=$((${#order[@]} + 1))
lanes=$(nproc)
in_memory=$(awk '/^MemAvailable:/ { print int($2 / 2500000) }' /proc/meminfo)
[ "$lanes" -le "$in_memory" ] || lanes=$((in_memory > 1 ? in_memory : 1))
at_once=$lanes
[ -d "$top/.git" ] || at_once=1
rm -rf "$rooms"

declare -A built=() running=()
place=''
count=0
for it in "${order[@]}"; do
  if is_built "$it"; then
    built[$it]=1
    count=$((count + 1))
  fi
done

# About how long a crate's proof takes beside the others': the bytes of its text.
declare -A size=()
left=0
for it in "${order[@]}"; do
  size[$it]=$(find "$top/crates/$it" -path '*/out' -prune -o -type f -exec cat {} + | wc -c)
  [ -n "${built[$it]+set}" ] || left=$((left + size[$it]))
done
# (the program's own crate is compiled with all that it stands on, which takes a tenth of the whole)
left=$((left + left / 10))
proved=0
began=$SECONDS

# `, about N minutes left`, once a minute shows how fast it goes.
time_left() {
  local passed=$((SECONDS - began))
  [ "$passed" -lt 60 ] || [ "$proved" -eq 0 ] || echo ", about $((passed * left / proved / 60 + 1)) minutes left"
}

# Whether all that a crate stands on is built.
is_ready() {
  local it
  for it in $(below "$1"); do
    [ -n "${built[$it]+set}" ] || return 1
  done
}

while [ "${#built[@]}" -lt "${#order[@]}" ]; do
  ready=()
  for it in "${order[@]}"; do
    [ -n "${built[$it]+set}" ] || [ -n "${running[$it]+set}" ] || ! is_ready "$it" || ready+=("$it")
  done
  first=${ready[0]:-}
  for it in "${ready[@]}"; do
    [ "${#running[@]}" -lt "$at_once" ] || break
    # (more jobs than its share: what waits for this crate alone would leave processors idle)
    jobs=$(((lanes + 1) / 2))
    [ "$it" != "$first" ] || jobs=$lanes
    count=$((count + 1))
    echo "buildcache: proving crate $count of $total: $it$(time_left)" >&2
    where=in-room
    if [ -z "$place" ]; then
      where=in-place
      place=$it
    fi
    build_library "$it" "$jobs" "$where" >"$log/$it" 2>&1 &
    running[$it]=$!
    ready=("${ready[@]:1}")
  done
  wait -n -p ended "${running[@]}" || {
    for it in "${!running[@]}"; do
      [ "${running[$it]}" != "$ended" ] || cat "$log/$it" >&2
    done
    wait
    exit 1
  }
  for it in "${!running[@]}"; do
    if [ "${running[$it]}" = "$ended" ]; then
      built[$it]=1
      proved=$((proved + size[$it]))
      left=$((left - size[$it]))
      unset "running[$it]"
      [ "$place" != "$it" ] || place=''
    fi
  done
done

echo "buildcache: proving crate $total of $total: buildcache, and compiling it$(time_left)" >&2
(cd "$top/crates/buildcache" && rt run --jobs "$lanes" -- --version) >"$log/program" 2>&1 || {
  cat "$log/program" >&2
  exit 1
}
