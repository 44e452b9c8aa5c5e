#!/usr/bin/env bash
# Builds the workspace examples/bazel with a real Bazel against `serve`: once to fill the cache, and then from clean
# output, where every cacheable action has to be a hit: over one connection straight, and with Bazel's own settings
# behind nginx with deploy/nginx.conf. Then the same over two servers with deploy/nginx-shards.conf, and again where one
# of them has lost what it held. With the variable BUILDCACHE it runs that program instead of ./buildcache; BAZEL is how
# Bazel is called. It uses the ports 8080, 8081 and 8090.
set -euo pipefail
case ${1:-} in
-h | --help) sed -n '2,/^[^#]/s/^# //p' "$0"; exit ;;
?*) echo "error: ${0##*/} takes no arguments but --help" >&2; exit 2 ;;
esac
top=$(cd "$(dirname "${BASH_SOURCE[0]}")/../.." && pwd)
program=${BUILDCACHE:-$top/buildcache}
bazel_words=(${BAZEL:-bazel})
for it in "$program" nginx "${bazel_words[0]}"; do
  command -v "$it" >/dev/null || { echo "error: $it isn't there" >&2; exit 3; }
done
for port in 8080 8081 8090; do
  ! (: <>"/dev/tcp/127.0.0.1/$port") 2>/dev/null || { echo "error: port $port is taken" >&2; exit 3; }
done
work=$(mktemp -d)
chmod 755 "$work" # (nginx's workers have another user)
servers=() front=''
finish() {
  (cd "$work/ws" && command "${bazel_words[@]}" --output_user_root="$work/bazel" shutdown) || true
  [ -z "$front" ] || nginx -c "$front" -s stop 2>"$work/out" || true
  [ "${#servers[@]}" -eq 0 ] || kill "${servers[@]}" || true
  chmod -R u+w "$work" && rm -rf "$work"
}
trap finish EXIT
cp -r "$top/examples/bazel" "$work/ws"
rm -f "$work/ws"/bazel-* # (the links of a Bazel that ran there)
bazel() { (cd "$work/ws" && command "${bazel_words[@]}" --output_user_root="$work/bazel" "$@"); }

# Builds from clean output, and prints Bazel's line on what its processes were.
build() {
  bazel clean >"$work/out" 2>&1
  bazel build "$@" //... >"$work/out" 2>&1 || { cat "$work/out"; exit 1; }
  grep -o '[0-9]* processes: .*' "$work/out"
}
expect_hits() {
  local line
  line=$(build "$@")
  echo "$line"
  [[ $line =~ ^([0-9]+)\ processes:\ ([0-9]+)\ remote\ cache\ hit,\ ([0-9]+)\ internal\.$ ]] \
    || { echo "bazel_cache: something was run again" >&2; exit 1; }
}

# A server at this port, with these words; its log is log-PORT.
serve() {
  "$program" serve --listen "127.0.0.1:$1" --limit 1073741824 --result-limit 67108864 \
    "${@:2}" >"$work/listening" 2>"$work/log-$1" &
  servers+=($!)
  until [ -s "$work/listening" ]; do
    kill -0 "${servers[-1]}" 2>/dev/null || { cat "$work/log-$1" >&2; exit 3; }
    sleep 0.2
  done
  rm "$work/listening"
}
stop_servers() {
  kill "${servers[@]}"
  wait "${servers[@]}" 2>/dev/null || true
  servers=()
}
stand_before() {
  [ -z "$front" ] || { nginx -c "$front" -s stop 2>"$work/out"; while (: <>/dev/tcp/127.0.0.1/8081) 2>/dev/null; do sleep 0.2; done; }
  nginx -c "$1"
  front=$1
}

serve 8080
echo "== over one connection"
straight=(--remote_cache=http://127.0.0.1:8080 --remote_max_connections=1)
build "${straight[@]}"
expect_hits "${straight[@]}"

echo "== behind nginx"
stand_before "$top/deploy/nginx.conf"
behind=(--remote_cache=http://127.0.0.1:8081)
expect_hits "${behind[@]}"
tail -n 1 "$work/log-8080"

echo "== over two servers"
stop_servers
serve 8080 --at-once 256
serve 8090 --at-once 256
mkdir "$work/results"
chmod 777 "$work/results"
sed "s|/var/lib/buildcache|$work/results|" "$top/deploy/nginx-shards.conf" >"$work/shards.conf"
stand_before "$work/shards.conf"
build "${behind[@]}"
expect_hits "${behind[@]}"
tail -q -n 1 "$work"/log-80?0

echo "== where one of them has lost what it held"
kill "${servers[1]}"
wait "${servers[1]}" 2>/dev/null || true # (else its port is still taken)
unset 'servers[1]'
serve 8090 --at-once 256
build "${behind[@]}"
expect_hits "${behind[@]}"
