#!/usr/bin/env bash
# Watchman's own clients talk to watchmand: the command `watchman` with JSON both ways, and pywatchman with JSON.
# As root it installs them from Debian's packages (apt-get), if they aren't there. It prints each command and its
# answer. The status is 1 if an answer isn't as expected.
# usage: examples/clients.sh [WATCHMAND]
set -eu
program=$(realpath "${1:-crates/watchmand/out/watchmand}")
here=$(dirname "$(realpath "$0")")
command -v watchman >/dev/null && /usr/bin/python3 -c 'import pywatchman' 2>/dev/null || {
    apt-get update -qq
    apt-get install -y -qq watchman python3-pywatchman
}
folder=$(mktemp -d)
trap 'kill "$server" 2>/dev/null || :; rm -rf "$folder"' EXIT
mkdir "$folder/tree" "$folder/tree/d"
echo one >"$folder/tree/a.c"
echo two >"$folder/tree/d/b.h"
"$program" format "$folder/state" >/dev/null
"$program" serve "$folder/state" "$folder/socket" >"$folder/out" &
server=$!
until grep -q ready "$folder/out"; do sleep 0.05; done

# One command by the client `watchman`; its reply must have the text.
by_watchman() { # JSON TEXT
    reply=$(printf '%s\n' "$1" | watchman -j --no-spawn --no-local --no-pretty --sockname="$folder/socket" \
        --server-encoding=json --output-encoding=json)
    printf '%s\n%s\n' "$1" "$reply"
    case $reply in *"$2"*) ;; *) echo "that isn't $2" && exit 1 ;; esac
}

tree=$folder/tree
by_watchman '["version"]' '"version"'
by_watchman "[\"watch\",\"$tree\"]" '"watch"'
by_watchman "[\"recrawl\",\"$tree\"]" '"clock"'
by_watchman '["watch-list"]' "$tree"
by_watchman "[\"clock\",\"$tree\"]" '"clock":"c:'
by_watchman "[\"query\",\"$tree\",{\"expression\":[\"suffix\",\"c\"],\"fields\":[\"name\"]}]" '"files":["a.c"]'
by_watchman "[\"since\",\"$tree\",\"n:build\"]" 'd/b.h'
by_watchman "[\"trigger\",\"$tree\",{\"name\":\"t\",\"command\":[\"true\"],\"expression\":[\"suffix\",\"c\"]}]" '"t"'
by_watchman "[\"trigger-list\",\"$tree\"]" '"true"'
by_watchman "[\"trigger-del\",\"$tree\",\"t\"]" '"t"'
/usr/bin/python3 "$here/clients.py" "$folder/socket" "$tree"
