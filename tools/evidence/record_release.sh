#!/usr/bin/env bash
# Records a release where no cache is used, and asks `buildcache verify` whether the folder that you ship is what it comes to:
#
#     record_release.sh [OPTION..] REPOSITORY COMMIT SHIPPED FOLDER TARGET..
#
# Run it where no build ever used the cache: on another machine, or in a container. SHIPPED is what the cached build made, brought
# there as data. COMMIT is checked out afresh from REPOSITORY (a path or a URL for git), and Bazel builds the targets from nothing
# in it: with an output root of its own, no cache, no executor elsewhere, and no network. The sources that it read are compared
# with a second checkout. The last line is the verdict, and the status that of `verify`: 0 yes, 1 no, 2 the command line, the log
# or the release is at fault, 3 something failed. Ship FOLDER/shipped if the status is 0.
#
# FOLDER is new, or that of an earlier run, and then has:
#     shipped      the copy of SHIPPED on which the verdict is
#     evidence     what bazel_plan.py wrote; tools/evidence/verify_stages.py verifies it again. After status 2 or 3 it isn't there.
#                  With --archive it is one file, evidence.tar
#     build.json   Bazel's log of the build; and `log`, what Bazel and the other commands said
#
# COMMIT is a whole hash, as `git rev-parse HEAD` prints it where the sources are believed: a branch may have been moved.
#
# Options; those with (..) may be given again:
#     --workspace PATH        the folder of Bazel's workspace in the repository; by default its top
#     --outputs PATTERN       what the release must have (..); at least one, as for bazel_plan.py
#     --below PATH            the folder of the execution root that is the top of the release
#     --taken PATTERN         files that no logged command made, and that you believe (..)
#     --stages STEPS          stages of at most so many steps
#     --archive               writes evidence.tar in place of the folder evidence
#     --drop-timeouts         takes tests as steps without a timeout
#     --latin1-names          takes characters beyond ASCII for bytes, as Bazel 4 logs them
#     --pass-over FIELD       a field of the log of which bazel_plan.py knows nothing (..)
#     --against LOG           the log of the cached build: notes say which actions came to another result there
#     --bazel-option WORD     a further word for `bazel build` (..), as --config=release
#     --env NAME=VALUE        a variable for Bazel (..). It has PATH and a HOME of its own, and no other
#     --fetch                 lets Bazel fetch external repositories first, over the network; no action runs then
#     --jobs J                stages verified at once
#     --no-namespace          builds with the network of this machine: for a container that has none
#     --no-cache-was-used     says that no build of this user here ever read a cache. Without it the script refuses to run
#                             where this user has an output base of Bazel; of the same workspace it always does
#     --help                  prints this
#
# BUILDCACHE names the program in place of ./buildcache, and BAZEL is how Bazel is called. A program of which nothing is proved, as
# tools/preview.sh compiles it, is refused.
set -uo pipefail

fail() {
  echo "error: $2" >&2
  exit "$1"
}

# Removes what is there, also folders in which nothing may be written.
remove() {
  [ -e "$1" ] || [ -L "$1" ] || return 0
  if [ -d "$1" ] && [ ! -L "$1" ]; then chmod -R u+rwX -- "$1" || return; fi
  rm -rf -- "$1"
}

# What is left where the script ends: nothing to verify, unless there is a verdict.
finish() {
  local status=$?
  [ -z "$work" ] || remove "$work"
  if [ "$status" -gt 1 ]; then
    { [ -n "$is_ours" ] && remove "$folder/evidence" && remove "$folder/evidence.tar"; } \
      || rm -f -- "$folder/evidence/claim" "$folder/evidence.tar" 2>/dev/null
  fi
  exit "$status"
}

# The command line.

outputs=() bazel_options=() variables=() words=() plan_options=()
workspace='' below='' stages='' jobs='' work='' folder='' evidence=evidence
may_fetch='' has_namespace=yes was_cached=yes is_ours=''

# Sets a variable to the value of an option that may be given once.
once() {
  [ -z "${!1}" ] || fail 2 "$2 is given twice; see --help"
  [ -n "$3" ] || fail 2 "$2 has no value; see --help"
  printf -v "$1" %s "$3"
}

read_words() {
  while [ $# -gt 0 ]; do
    case $1 in
    --workspace | --outputs | --below | --taken | --stages | --pass-over | --against | --bazel-option | --env | --jobs)
      [ $# -gt 1 ] && [ -n "$2" ] || fail 2 "$1 has no value; see --help"
      read_option "$1" "$2"
      shift 2
      continue
      ;;
    --drop-timeouts | --latin1-names) plan_options+=("$1") ;;
    --archive) evidence=evidence.tar ;;
    --fetch) may_fetch=yes ;;
    --no-namespace) has_namespace='' ;;
    --no-cache-was-used) was_cached='' ;;
    --) words+=("${@:2}"); return ;;
    -*) fail 2 "there is no option $1; see --help" ;;
    *) words+=("$1") ;;
    esac
    shift
  done
}

read_option() {
  case $1 in
  --workspace) once workspace "$@" ;;
  --below) once below "$@" ;;
  --stages) once stages "$@" ;;
  --jobs) once jobs "$@" ;;
  --outputs) outputs+=("$2") ;;
  --taken | --pass-over | --against) plan_options+=("$@") ;;
  --bazel-option) bazel_options+=("$2") ;;
  --env) [[ $2 == [A-Za-z_]*=* ]] || fail 2 "--env $2 is no NAME=VALUE"; variables+=("$2") ;;
  esac
}

check_words() {
  [ "${#words[@]}" -ge 5 ] || fail 2 "REPOSITORY, COMMIT, SHIPPED, FOLDER and a target are needed; see --help"
  local it
  for it in "${words[@]}"; do [ -n "$it" ] || fail 2 "one of the words is empty; see --help"; done
  [ "${#outputs[@]}" -gt 0 ] || fail 2 "--outputs says what the release must have, and is needed; see --help"
  [[ ${words[1]} =~ ^([0-9a-f]{40}|[0-9a-f]{64})$ ]] \
    || fail 2 "${words[1]} is no whole hash of a commit: a name may have been moved"
  [[ /$workspace/ != */../* && $workspace != /* ]] || fail 2 "--workspace $workspace is no folder of the repository"
}

# The place: where no cache was used.

# Refuses a path of which a build with Bazel was here, whose cache may have written anywhere that this user may.
built_here() {
  fail 2 "$1: a cache may have written into all that this user owns; record on another machine or in a container"
}

check_place() {
  local it word at='' base
  if [ -d "${repository#file://}" ]; then
    at=$(realpath -- "${repository#file://}") || fail 3 "\"$repository\" can't be read"
    repository=$at
    for it in "$at"/bazel-* "$at/$workspace"/bazel-*; do
      [ ! -L "$it" ] || built_here "\"$it\" is a link of a Bazel that built here"
    done
    check_servers "$at"
  fi
  for it in "${HOME:-/}/.cache" "${XDG_CACHE_HOME:-/nowhere}" "${TEST_TMPDIR:-/nowhere}"; do
    for base in "$it"/bazel/_bazel_*/*/DO_NOT_BUILD_HERE "$it"/_bazel_*/*/DO_NOT_BUILD_HERE; do
      [ -e "$base" ] || continue
      word=''
      read -r -d '' word <"$base" || [ -n "$word" ] || fail 3 "\"$base\" can't be read"
      [ -n "$at" ] && [[ ${word%$'\n'}/ == "$at"/* ]] && built_here "\"${base%/*}\" is Bazel's output base of this workspace"
      [ -z "$was_cached" ] || built_here "\"${base%/*}\" is Bazel's output base of \"${word%$'\n'}\""
    done
  done
}

# Refuses a repository in which a server of Bazel works.
check_servers() {
  local it word found=''
  for it in /proc/[0-9]*/cmdline; do
    while IFS= read -r -d '' word; do
      [[ $word/ != --workspace_directory="$1"/* ]] || found=${word#*=}
    done 2>/dev/null <"$it" # (a process may have ended)
    [ -z "$found" ] || built_here "a server of Bazel works in \"$found\""
  done
}

check_programs() {
  local it
  for it in git python3 tar "${bazel[0]}" "$program"; do
    command -v "$it" >/dev/null || fail 3 "$it isn't there"
  done
  "$top/tools/evidence/unproved.py" "$program"
  case $? in
  0) ;;
  3) exit 3 ;;
  *) fail 3 "whether anything is proved of $program can't be told" ;;
  esac
  [ -z "$has_namespace" ] || unshare --user --map-root-user --net --mount true 2>>"$folder/log" \
    || fail 3 "no namespace can be made here; in a container that has no network give --no-namespace"
}

# What an earlier run left is removed, and the release is copied.
prepare() {
  local from to it
  [ -d "$shipped" ] || fail 3 "\"$shipped\" is no folder"
  from=$(realpath -- "$shipped") && to=$(realpath -m -- "$folder") || fail 3 "\"$shipped\" or \"$folder\" can't be read"
  [[ $from/ != "$to"/* && $to/ != "$from"/* ]] || fail 2 "\"$shipped\" and \"$folder\" lie in each other"
  shipped=$from folder=$to
  for it in "$folder"/* "$folder"/.[!.]*; do
    case ${it#"$folder/"} in
    evidence | evidence.tar | shipped | build.json | log) ;;
    *) ! [ -e "$it" ] || fail 2 "\"$it\" isn't of this script: FOLDER has to be new, or that of an earlier run" ;;
    esac
  done
  mkdir -p -- "$folder" || fail 3 "\"$folder\" can't be made"
  is_ours=yes
  for it in evidence evidence.tar shipped build.json log; do
    remove "$folder/$it" || fail 3 "\"$folder/$it\" of an earlier run can't be removed"
  done
}

copy_release() {
  cp -RPp -- "$shipped" "$folder/shipped" 2>>"$folder/log" || fail 3 "\"$shipped\" can't be copied; see $folder/log"
}

# The build.

# Git, without the hooks, filters and settings of this user, or of the place from which it is called.
own_git() {
  local none=(GIT_CONFIG_NOSYSTEM=1 GIT_ATTR_NOSYSTEM=1)
  env -i PATH="$PATH" HOME="$work/home" "${none[@]}" git "$@" 2>>"$folder/log"
}

# Fetches the commit with the settings of this user, by which a server lets them in, and no repository's.
fetch() {
  local names
  names=$(git rev-parse --local-env-vars) || return
  (unset $names && exec git -C "$1" fetch --quiet --no-tags --depth 1 -- "$repository" "$commit") 2>>"$folder/log"
}

# Checks out the commit into a new folder. Its objects are fetched, which hashes each; nothing else comes from the repository.
check_out() {
  local to=$1 found
  own_git init --quiet --template= -- "$to" && fetch "$to" && own_git -C "$to" checkout --quiet --detach "$commit" -- \
    || fail 3 "commit $commit of $repository can't be checked out; see $folder/log"
  found=$(own_git -C "$to" rev-parse HEAD) && [ "$found" = "$commit" ] || fail 3 "$commit is no commit"
  found=$(own_git -C "$to" ls-files --stage) || fail 3 "the files of $commit can't be listed"
  [[ $'\n'$found != *$'\n'160000\ * ]] \
    || fail 2 "commit $commit has submodules, which aren't checked out: give a repository that has their files"
  [ -e "$to/$workspace/WORKSPACE" ] || [ -e "$to/$workspace/WORKSPACE.bazel" ] || [ -e "$to/$workspace/MODULE.bazel" ] \
    || fail 2 "\"${workspace:-.}\" of commit $commit is no workspace of Bazel; --workspace names it"
}

# Runs a command without a network, to which this repository is read-only.
without_network() {
  if [ -z "$has_namespace" ]; then
    "$@"
  else
    unshare --user --map-root-user --net --mount -- "$BASH" -c \
      'mount --bind "$1" "$1" && mount -o remount,bind,ro,nosuid,nodev "$1" && shift && exec "$@"' sh "$top" "$@"
  fi
}

# Bazel in the checkout, with nothing of this user. What reaches a cache or another machine is off, whatever a .bazelrc says.
run_bazel() {
  local startup=(--nohome_rc --batch --output_user_root="$work/root" --output_base="$work/base")
  local off=(--remote_cache= --disk_cache= --remote_executor= --experimental_remote_downloader= --bes_backend=
    --noremote_accept_cached --noremote_upload_local_results --package_path=%workspace%)
  local quiet=(--experimental_convenience_symlinks=ignore --color=no --curses=no)
  cd -- "$work/checkout/$workspace" \
    && "$1" env -i PATH="$PATH" HOME="$work/home" "${variables[@]}" "${bazel[@]}" "${startup[@]}" \
      build "${bazel_options[@]}" "${off[@]}" "${quiet[@]}" "${@:2}" -- "${targets[@]}"
}

record() {
  [ -z "$may_fetch" ] || (run_bazel env --nobuild) >>"$folder/log" 2>&1 </dev/null \
    || fail 3 "Bazel can't fetch what it needs; see $folder/log"
  (run_bazel without_network --execution_log_json_file="$work/build.json") >>"$folder/log" 2>&1 </dev/null \
    || fail 3 "Bazel's build ended with status $?; see $folder/log"
  mv -- "$work/build.json" "$folder/build.json" || fail 3 "Bazel wrote no log"
}

# Bazel's execution root, of which there is one.
execution_root() {
  local found=("$work"/base/execroot/*/bazel-out)
  [ "${#found[@]}" -eq 1 ] && [ -d "${found[0]}" ] || fail 3 "Bazel's execution root isn't there"
  printf '%s\n' "${found[0]%/bazel-out}"
}

make_plan() {
  local root options=("${plan_options[@]}") to=("$folder/$evidence")
  root=$(execution_root) || exit
  options+=(--refuse-cached --outputs-on-disk "$root" --outputs "${outputs[@]}")
  [ -z "$below" ] || options+=(--below "$below")
  [ -z "$stages" ] || options+=(--stages "$stages")
  options+=(--artifact "$folder/shipped")
  [ "$evidence" = evidence ] || options+=(--archive "${to[0]}") to=()
  "$top/tools/evidence/bazel_plan.py" "${options[@]}" -- "$folder/build.json" "${to[@]}" >>"$folder/log"
  case $? in
  0) ;;
  2) exit 2 ;;
  3) exit 3 ;;
  *) fail 3 "bazel_plan.py wrote no plan" ;;
  esac
}

# Compares the sources that the log names with those of a second checkout in the place of the first, which no command of the build
# has seen, and with the other repositories on the disk.
compare_sources() {
  local options=(--external "$work/base/external") lists=$folder/evidence
  if [ "$evidence" != evidence ]; then
    lists=$work/lists
    mkdir "$lists" && tar -C "$lists" -xf "$folder/$evidence" sources sources.sums taken 2>>"$folder/log" \
      || fail 3 "\"$folder/$evidence\" can't be read; see $folder/log"
  fi
  options+=(--expect "$lists/sources")
  remove "$work/checkout" || fail 3 "\"$work/checkout\" can't be removed"
  check_out "$work/checkout"
  [ ! -s "$lists/taken" ] || options+=(--as-listed 'bazel-out/*')
  "$top/tools/evidence/sources_digest.py" "${options[@]}" -- "$work/checkout/$workspace" \
    <"$lists/sources.sums" >>"$folder/log" 2>&1
  case $? in
  0) ;;
  1) fail 2 "the sources that Bazel read aren't those of commit $commit; see $folder/log" ;;
  *) fail 3 "the sources can't be compared with those of commit $commit; see $folder/log" ;;
  esac
}

main() {
  read_words "$@"
  check_words
  repository=${words[0]} commit=${words[1]} shipped=${words[2]} folder=${words[3]} targets=("${words[@]:4}")
  [[ $repository != -* ]] || fail 2 "$repository is no repository"
  trap finish EXIT
  trap 'exit 3' HUP INT TERM
  prepare
  check_programs
  check_place
  copy_release
  work=$(mktemp -d) && mkdir "$work/home" || fail 3 "no folder can be made to work in"
  check_out "$work/checkout"
  record
  make_plan
  compare_sources
  remove "$work" || fail 3 "\"$work\" can't be removed"
  work=''
  judge
}

# Prints the verdict, and ends with its status.
judge() {
  local line status
  line=$("$top/tools/evidence/verify_stages.py" "$folder/$evidence" --artifact "$folder/shipped" ${jobs:+--jobs "$jobs"})
  status=$?
  case "$status $line" in
  '0 yes '* | '1 no '*) printf '%s\n' "$line" || fail 3 "the verdict can't be printed"; exit "$status" ;;
  0* | 1*) fail 3 "there is no verdict" ;;
  *) exit "$status" ;;
  esac
}

for it in "$@"; do
  case $it in
  --) break ;;
  -h | --help) sed -n '2,/^[^#]/s/^# \{0,1\}//p' "$0"; exit ;;
  esac
done
case ${BASH_SOURCE[0]} in
*/*) top=${BASH_SOURCE[0]%/*}/../.. ;;
*) top=../.. ;;
esac
unset CDPATH
top=$(cd -- "$top" && pwd) || fail 3 "the folder of this script can't be read"
program=${BUILDCACHE:-$top/buildcache}
read -ra bazel <<<"${BAZEL:-bazel}"
main "$@"
