#!/bin/sh
# Starts a server and runs each example with it. Each must print exactly the lines below; in the middle of each the
# server is killed and started again. It needs a C compiler (CC, or cc) and python3.
# usage: examples/run.sh WATCHMAND WMCTL
set -eu
program=$(realpath "$1")
wmctl=$(realpath "$2")
here=$(dirname "$(realpath "$0")")
folder=$(mktemp -d)
trap 'kill -9 "$(cat "$folder/pid")" 2> "$folder/faults" || true; rm -rf "$folder"' EXIT
"$program" format "$folder/state" > "$folder/formatted"

# Kills the server, if there is one, and starts it over the same state file and socket. It tries again while the killed one ends.
cat > "$folder/restart" <<SCRIPT
#!/bin/sh
cd "$folder"
[ ! -e pid ] || kill -9 "\$(cat pid)"
for turn in 1 2 3 4 5 6 7 8 9 10; do
  : > ready
  "$program" serve state socket > ready 2> faults < /dev/null &
  echo \$! > pid
  until grep -q ready ready || ! kill -0 \$! 2> ended; do sleep 0.02; done
  ! grep -q ready ready || exit 0
  sleep 0.1
done
cat faults
exit 1
SCRIPT
chmod +x "$folder/restart"
"$folder/restart"

# Runs a command, which must print the lines of standard input.
prints() { # NAME COMMAND ..
  name=$1
  shift
  cat > "$folder/wanted"
  "$@" > "$folder/printed" 2>&1 || { cat "$folder/printed" && echo "$name failed" && exit 1; }
  diff -u "$folder/wanted" "$folder/printed" || { echo "$name printed something else" && exit 1; }
  echo "$name printed all that it must"
}

builds() { # WAY
  cat <<LINES
-- $1
the first build:
  compiles lib/two.c
  compiles one.c
nothing changed:
one.c changed:
  compiles one.c
lib/two.c is broken:
  compiles lib/two.c
  lib/two.c has faults
  the build failed
lib/two.c is mended:
  compiles lib/two.c
one.c went:
  forgets one.c
lib_two.c.o
the root isn't watched any longer:
  {"error":"5 NotWatched","version":"w1"}
  the build failed
it is watched again:
  compiles lib/two.c
the server was killed and started again:
  compiles lib/two.c
nothing changed:
LINES
}

{ builds build; builds build_by_cursor; } > "$folder/builds"
prints build.sh "$here/build.sh" "$folder/socket" "$wmctl" "$folder/restart" < "$folder/builds"

prints test_runner.sh "$here/test_runner.sh" "$folder/socket" "$wmctl" "$folder/restart" <<'LINES'
passed add_test.sh
passed half_test.sh
-- half.sh is broken
FAILED half_test.sh
-- half.sh is mended
passed half_test.sh
-- the server is killed and started again, and add.sh is broken meanwhile
FAILED add_test.sh
passed half_test.sh
-- add.sh is mended
passed add_test.sh
LINES

prints compile_trigger.sh "$here/compile_trigger.sh" "$folder/socket" "$wmctl" "$folder/restart" <<'LINES'
the trigger is made:
"disposition":"created"
  compiled one.c
  compiled lib/two.c
one.c changed:
  compiled one.c
one.c went:
  forgot one.c
lib_two.c.o
the server was killed and started again:
  compiled lib/two.c
"disposition":"already_defined"
LINES

prints follow.py "$here/follow.py" "$folder/socket" "$folder/restart" <<'LINES'
subscribed: fresh True, sent 3, there 3
one came, one went: fresh False, sent 2, there 3
one went while the server was down: fresh True, sent 2, there 2
LINES
