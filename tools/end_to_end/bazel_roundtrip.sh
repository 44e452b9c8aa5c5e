#!/usr/bin/env bash
# Builds the workspace examples/bazel with a real Bazel, in a folder of its own, and asks `verify` about it: what was
# built (yes), a release that was changed or lacks a file (no), and a store that has another output than was made (no).
# Then a cache that lied, the package tools/end_to_end/odd with what is odd in a log and each way to tamper with its release,
# the tests of both, and a generated workspace of 1,100 steps. With the variable BUILDCACHE it asks that program instead
# of ./buildcache; BAZEL is how Bazel is called.
set -euo pipefail
case ${1:-} in
-h | --help) sed -n '2,/^[^#]/s/^# //p' "$0"; exit ;;
?*) echo "error: ${0##*/} takes no arguments but --help" >&2; exit 2 ;;
esac
top=$(cd "$(dirname "${BASH_SOURCE[0]}")/../.." && pwd)
program=${BUILDCACHE:-$top/buildcache}
bazel_words=(${BAZEL:-bazel})
for it in "$program" "${bazel_words[0]}"; do
  command -v "$it" >/dev/null || { echo "error: $it isn't there" >&2; exit 3; }
done
work=$(mktemp -d)
bazel() { (cd "$work/$1" && command "${bazel_words[@]}" --output_user_root="$work/bazel" "${@:2}"); }
finish() {
  bazel ws shutdown || true
  bazel many shutdown || true
  chmod -R u+w "$work" && rm -rf "$work"
}
trap finish EXIT
mkdir "$work/many"
cp -r "$top/examples/bazel" "$work/ws"
rm -f "$work/ws"/bazel-* # (the links of a Bazel that ran there)
cp -r "$top/tools/end_to_end/odd" "$work/ws/odd"
echo é >"$work/ws/odd/é.txt"

jobs=1
built() {
  bazel "$1" "$2" --jobs=$jobs --remote_cache= --disk_cache= --execution_log_json_file="$work/log.json" "${@:3}" >"$work/out" 2>&1 \
    || { cat "$work/out"; exit 1; }
}
turn() { rm -rf "$work/asked" && "$top/tools/evidence/bazel_plan.py" "$work/log.json" "$work/asked" --refuse-cached "$@"; }
# Expects the tool to refuse what it is told, for this reason, and to leave nothing to verify.
refuse() {
  if turn "${@:2}" 2>"$work/out" || [[ $? != 2 || $(cat "$work/out") != *"$1"* || -e $work/asked/claim ]]; then
    echo "bazel_roundtrip: expected a refusal: $1" >&2
    exit 1
  fi
  cut -c1-200 "$work/out"
}
# Expects a note beside what is written.
note() {
  turn "${@:2}" 2>"$work/out" >"$work/lines"
  grep -F -- "$1" "$work/out" | cut -c1-300 || { echo "bazel_roundtrip: expected a note: $1" >&2; exit 1; }
}
judge() {
  "$program" verify --store "$work/asked/store" --sources "$(cat "$work/asked/sources")" --plan "$work/asked/plan" \
    --record "$work/asked/record" --claim "$(cat "$work/asked/claim")" || true
}
judge_stages() { BUILDCACHE=$program "$top/tools/evidence/verify_stages.py" "$work/asked" --jobs 4 || true; }
expect() {
  local line
  line=$("${2:-judge}")
  echo "$line"
  [[ $line == $1 ]] || { echo "bazel_roundtrip: expected $1" >&2; exit 1; }
}
expect_stages() { expect "$1" judge_stages; }
# Lets the store have another output of the step that makes card.txt.
change_card() {
  local card
  card=$work/asked/store/ac/$(find "$work/asked" -name record -exec sed -n 's|^step genrule-pages-card-txt \(.*\)/.*|\1|p' {} +)
  sed -i "s/[0-9a-f]\{64\}/$(printf 'Hello, Mallory!' | sha256sum | cut -c1-64)/" "$card"
}

echo "== what was built"
built ws build //pages:release
cp -rL "$work/ws/bazel-bin/pages/release" "$work/shipped"
release=bazel-out/k8-fastbuild/bin/pages/release
shipped=(--outputs "$release/*" --below "$release" --artifact "$work/shipped")
turn "${shipped[@]}" --outputs-on-disk "$work/ws"
expect "yes * steps 11"
base=$(bazel ws info output_base 2>/dev/null)
sources() {
  "$top/tools/evidence/sources_digest.py" "$work/ws" --external "$base/external" --as-listed 'bazel-out/*' --expect "$work/asked/sources" \
    <"$work/asked/sources.sums"
}
sources
(cd "$top/examples/bazel" && sha256sum --strict --quiet -c "$work/asked/sources.sums")
(cd "$work/shipped" && sha256sum --strict --quiet -c "$work/asked/artifact.sums")

echo "== the same by eight at once, in the same files"
cp -r "$work/asked" "$work/first"
bazel ws clean 2>"$work/out"
jobs=8 built ws build //pages:release
turn "${shipped[@]}"
diff -r "$work/first" "$work/asked"

echo "== what was built before"
rm -f "$(readlink -f "$work/ws/bazel-bin")/pages/release/hello"
built ws build //pages:release
refuse "and no spawn of the log made it, nor 4 others" "${shipped[@]}"
bazel ws clean 2>"$work/out"
built ws build //pages:release

echo "== in stages of three steps"
turn "${shipped[@]}" --stages 3
expect_stages "yes * stages 4 steps 11"
change_card
expect_stages "no stage * step pages-pages-site cause input-differs *card.txt"
turn "${shipped[@]}" --stages 3
cp "$work/asked/1/claim" "$work/asked/2/claim"
cp "$work/asked/1/claim" "$work/asked/3/sources"
expect_stages "no stage 2 root cause root-differs *"

echo "== another output in the store"
turn "${shipped[@]}"
change_card
expect "no step pages-pages-site cause input-differs *card.txt"

echo "== a file that the artifact lacks"
chmod -R u+w "$work/shipped"
mv "$work/shipped/list.txt" "$work/list.txt"
note '"list.txt" of the artifact is missing; line' "${shipped[@]}"
expect "no root cause root-differs *"
mv "$work/list.txt" "$work/shipped/list.txt"

echo "== another file in the artifact"
echo more >>"$work/shipped/list.txt"
note '"list.txt" of the artifact has the digest ' "${shipped[@]}"
expect "no root cause root-differs *"

echo "== a build of which each step came from a cache"
for _ in fill take; do
  bazel ws clean 2>"$work/out"
  built ws build --disk_cache="$work/disk" //pages:release
done
refuse "it came from a cache"

echo "== a cache that lied"
cached() { grep -rl "$(printf 'Hello, %s!\nWith all good wishes.\n' "$1" | sha256sum | cut -c1-64)" "$work/disk/ac"; }
printf 'Hello, Mally!\nWith all good wishes.\n' >"$work/lie"
lie=$(sha256sum <"$work/lie" | cut -c1-64)
sed -i "s/$(printf 'Hello, Grace!\nWith all good wishes.\n' | sha256sum | cut -c1-64)/$lie/" "$(cached Grace)"
mkdir -p "$work/disk/cas/${lie:0:2}" && cp "$work/lie" "$work/disk/cas/${lie:0:2}/$lie"
bazel ws clean 2>"$work/out"
built ws build --disk_cache="$work/disk" //pages:release
mv "$work/log.json" "$work/cached.json"
chmod -R u+w "$work/shipped" && rm -r "$work/shipped" && cp -rL "$work/ws/bazel-bin/pages/release" "$work/shipped"
bazel ws clean 2>"$work/out"
built ws build //pages:release
note 'spawn "Executing genrule //pages:card" came to another result there' "${shipped[@]}" --against "$work/cached.json"
grep -F 'differ 1 follow 3' "$work/lines"
expect "no root cause root-differs *"

echo "== what is odd in a log"
bazel ws clean 2>"$work/out"
built ws build //odd:release
odd=bazel-out/k8-fastbuild/bin/odd
copy() { rm -rf "$work/release" && cp "$1" "$work/ws/bazel-bin/odd/release" "$work/release" && chmod -R u+w "$work/release"; }
of_odd=(--latin1-names --taken bazel-out/host/bin/odd/tool)
of_release=("${of_odd[@]}" --outputs "$odd/release/*" --below "$odd/release" --artifact "$work/release")
copy -rL
turn "${of_release[@]}" --outputs-on-disk "$work/ws"
expect "yes * steps 9"
sources
refuse "its argument " --outputs "$odd/release/*"
refuse "bazel-out/host/bin/odd/tool" --latin1-names --outputs "$odd/release/*"

echo "== each way to tamper with its release"
copy -r
note '"acme/bin/libacme.so" of the artifact is a link to "../lib/libacme.so", and the log has a file' "${of_release[@]}"
tampered() { # NOTE, and a command that tampers with the release
  copy -rL
  (cd "$work/release" && eval "$2")
  note "$1" "${of_release[@]}"
  expect "no root cause root-differs *"
}
tampered '"long.txt" of the artifact has the digest' 'printf x >>long.txt'
tampered '"acme/lib/ä b" of the artifact may not be executed' 'chmod 644 "acme/lib/ä b"'
tampered '"acme/new" of the artifact was added' 'touch acme/new'
tampered '"ü ö.txt" of the artifact is missing' 'rm "ü ö.txt"'
tampered '"stamp.txt" of the artifact is a link' 'ln -sf long.txt stamp.txt'
copy -rL
action() { sed -n "s|^step $1 ||p" "$work/asked/record"; }
result() { echo "$work/asked/store/ac/$(action "$1" | cut -d/ -f1)"; }
again() { turn "${of_release[@]}" >"$work/lines"; }
long=genrule-odd-release-long-txt stamp=genrule-odd-release-stamp-txt
again
sed -i "s|$(action $long)|$(action $stamp)|" "$work/asked/record"
expect "no step $long cause frame-differs"
again
cp "$(result $long)" "$(result $stamp)"
expect "no step $stamp cause output-unlisted *long.txt"
again
blob=$(grep -l libpart.so-2.params "$work/asked/store/cas"/* | head -n 1)
sed -i s/libpart/libpard/ "$blob"
expect "no step cpplink-odd-libpart-so cause blob-wrong *"
again
sed -i '0,/ src odd\/part.c/s// src odd\/program.c/' "$work/asked/plan"
expect "no step cppcompile-odd-_objs-part-part-pic-d cause input-differs odd/part.c"
again
mv "$work/first/claim" "$work/asked/claim"
expect "no root cause root-differs *"

echo "== the log of other sources"
again
echo 'int part(void) { return 8; }' >"$work/ws/odd/part.c"
if sources 2>"$work/out"; then echo "bazel_roundtrip: expected other sources" >&2; exit 1; fi
grep '"odd/part.c" has the hash ' "$work/out"
bazel ws clean 2>"$work/out"
built ws build //odd:release
note '"ü ö.txt" of the artifact has the digest ' "${of_release[@]}"
expect "no root cause root-differs *"

echo "== what the log lacks"
built ws build //odd:linked //odd:release/written
copy -rL
turn --latin1-names --outputs "$odd/linked" >"$work/lines"
refuse '/linked/current" is a link to a folder' --latin1-names --outputs "$odd/linked" --outputs-on-disk "$work/ws"
bazel ws clean 2>"$work/out"
built ws build //odd:release //odd:release/written
refuse "\"$odd/release/written.txt\" on the disk has a pattern" "${of_odd[@]}" --outputs "$odd/release/*" --outputs-on-disk "$work/ws"

echo "== with its tests"
bazel ws clean 2>"$work/out"
built ws test //...
turn --drop-timeouts "${of_odd[@]}" --taken "$odd/tool_test" bazel-out/k8-fastbuild/bin/pages/index_test '*/test.log'
expect "yes * steps *"

echo "== 1,100 steps"
"$top/tools/end_to_end/many_steps.py" "$work/many" 1100
built many build //...
begun=$(date +%s%N)
turn
echo "turned in $((($(date +%s%N) - begun) / 1000000)) ms"
expect "yes * steps 1100"
