#!/usr/bin/env bash
# Answers a million `["watch-list"]` lines over a registry of 10 roots by watchmand; then Python's json module
# parses the same lines and prints the same replies. It prints the seconds and the most memory of each, and whether
# both printed the same bytes.
# usage: bench/lines.sh WATCHMAND [LINES]
set -eu
program=$(realpath "${1:-crates/watchmand/out/watchmand}")
lines=${2:-1000000}
folder=$(mktemp -d)
trap 'rm -rf "$folder"' EXIT
cd "$folder"

"$program" format state >/dev/null
for i in 0 1 2 3 4 5 6 7 8 9; do printf '["watch","/home/user/project-%d"]\n' "$i"; done | "$program" lines state >/dev/null
yes '["watch-list"]' | head -n "$lines" >requests || true

cat >reply.py <<'PY'
import json, sys
reply = {"roots": ["/home/user/project-%d" % i for i in range(10)], "version": "w1"}
for line in sys.stdin:
    json.loads(line)
    print(json.dumps(reply, separators=(",", ":")))
PY

measured() { /usr/bin/time -f "%e s, %M KB, $1" "${@:2}"; }
measured watchmand "$program" lines state <requests >ours
measured 'Python json' python3 reply.py <requests >theirs
cmp ours theirs && echo "the same $(wc -l <ours) replies"
