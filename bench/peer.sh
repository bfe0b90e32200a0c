#!/usr/bin/env bash
# watchmand beside Watchman 4.9.0 in one run: the first answer after a watch, since, clients at once, memory and an
# idle server (bench/peer.py). With --feed-only: times, processor time and memory of a server and its feed while
# files change (bench/feed.py). As root it installs Watchman and inotify-tools from Debian's packages (apt-get), if
# they aren't there. It needs python3 and a C compiler.
# usage: bench/peer.sh WATCHMAND [--feed WMFEED] [--sizes 1000,20000,100000] [--seconds 1] [--runs 1] [--json FILE]
# bench/peer.sh WATCHMAND --feed-only WMFEED [--sizes 1000,100000] [--runs 1] [--syncs 1000] [--json FILE]
set -eu
program=$(realpath "$1")
shift
here=$(dirname "$(realpath "$0")")
{ command -v watchman && command -v inotifywait; } >/dev/null || {
    apt-get update -qq
    apt-get install -y -qq watchman inotify-tools
}
watchman --version
if [ "${1:-}" = --feed-only ]; then
  feed=$(realpath "$2")
  shift 2
  exec python3 "$here/feed.py" "$program" "$feed" "$@"
fi
ask=$(mktemp)
trap 'rm -f "$ask"' EXIT
cc -O2 -o "$ask" "$here/ask.c" -lpthread
python3 "$here/peer.py" "$program" "$ask" "$@"
