#!/bin/sh
# A trigger that compiles: the server itself runs a script when C files changed, and the script reads their names.
# The part below "The demonstration" shows it with a folder of its own.
# usage: examples/compile_trigger.sh SOCKET [WMCTL [RESTART]]; RESTART is a command that kills the server and starts it again
set -eu
socket=$1
wmctl=${2:-wmctl}
restart=${3:-}
top=$(mktemp -d)
root=$top/src
out=$top/out
trap '"$wmctl" "$socket" "[\"watch-del\",\"$root\"]" > "$top/deleted" || true; rm -rf "$top"' EXIT
mkdir -p "$root" "$out/objects"

ask() { "$wmctl" "$socket" "$1"; }

# The script of the trigger, which runs in the root's folder. It reads a name a line, not as JSON, also those of
# deleted files. After a restart of the server it reads the names of all C files: it does no harm to compile one
# again.
cat > "$top/compile.sh" <<'SCRIPT'
out=$1
while IFS= read -r name; do
  object=$out/objects/$(printf %s "$name" | tr / _).o
  if [ -e "$name" ]; then
    "${CC:-cc}" -c -o "$object.new" "$name" 2> "$out/faults" && mv "$object.new" "$object" || rm -f "$object"
    echo "compiled $name" >> "$out/log"
  else
    rm -f "$object"
    echo "forgot $name" >> "$out/log"
  fi
done
SCRIPT

# The demonstration.
trigger() {
  command="[\"sh\",\"$top/compile.sh\",\"$out\"]"
  definition="{\"name\":\"compile\",\"command\":$command,\"stdin\":\"NAME_PER_LINE\",\"expression\":[\"suffix\",\"c\"]}"
  ask "[\"trigger\",\"$root\",$definition]"
}

# Waits until the log has a line so many times.
has_logged() { # LINE TIMES
  rounds=0
  while [ "$(grep -cx "$1" "$out/log")" -lt "$2" ]; do
    rounds=$((rounds + 1))
    [ "$rounds" -lt 200 ] || { echo "the trigger didn't log $1:" && cat "$out/log" && exit 1; }
    sleep 0.05
  done
  echo "  $1"
}

crawl() { ask "[\"recrawl\",\"$root\"]" > "$top/crawled"; }

: > "$out/log"
ask "[\"watch\",\"$root\"]" > "$top/watched"
echo 'int one(void) { return 1; }' > "$root/one.c"
mkdir "$root/lib"
echo 'int two(void) { return 2; }' > "$root/lib/two.c"
crawl
echo "the trigger is made:"
trigger | grep -o '"disposition":"[a-z_]*"'
has_logged "compiled one.c" 1
has_logged "compiled lib/two.c" 1
echo "one.c changed:"
echo 'int one(void) { return 11; }' > "$root/one.c"
crawl
has_logged "compiled one.c" 2
echo "one.c went:"
rm "$root/one.c"
crawl
has_logged "forgot one.c" 1
ls "$out/objects"
if [ -n "$restart" ]; then
  echo "the server was killed and started again:"
  $restart
  has_logged "compiled lib/two.c" 2
  trigger | grep -o '"disposition":"[a-z_]*"'
fi
ask "[\"trigger-del\",\"$root\",\"compile\"]" > "$top/deleted"
