#!/bin/sh
# A test runner with a subscription: the server sends the names of changed files, and the runner runs their tests;
# NAME_test.sh is the test of NAME.sh. It goes on if the server is killed and started again. The part below "The
# demonstration" shows it with a folder of its own.
# usage: examples/test_runner.sh SOCKET [WMCTL [RESTART]]; RESTART is a command that kills the server and starts it again
# In a line a name with a quote, a backslash or a control character has backslashes. Then all tests run.
set -eu
socket=$1
wmctl=${2:-wmctl}
restart=${3:-}
top=$(mktemp -d)
root=$top/src
runner=
mkdir "$root"

ask() { "$wmctl" "$socket" "$1"; }

names_of() { sed -e 's/.*"files":\[//' -e 's/\],"is_fresh_instance".*//' -e 's/","/\
/g' -e 's/^"//' -e 's/"$//'; }

# The tests of the files in a line, each once.
tests_of() {
  case $1 in
    *\\*) (cd "$root" && find . -name '*_test.sh' | sed 's|^\./||') ;;
    *) printf '%s\n' "$1" | names_of | sed -n -e 's/_test\.sh$//' -e 's/\.sh$//' -e 's/$/_test.sh/p' ;;
  esac | sort -u
}

run_tests() {
  while read -r test; do
    [ -e "$root/$test" ] || continue
    if (cd "$root" && sh "$test") > "$top/output" 2>&1 < /dev/null; then echo "passed $test"; else echo "FAILED $test"; fi
  done
}

# Subscribes since the clock of the last line that it handled, and runs the tests of each line, until so many lines
# have come. The first line, and the first after a restart of the server, is fresh: it names all files that exist,
# so all tests run. It fails if the connection ends before that, or if the server refuses, which it does until its
# first crawl of the root has ended. A runner that never ends follows 4294967295 lines.
follow() {
  clock=$(cat "$top/clock" 2> /dev/null || true)
  object="{${clock:+\"since\":\"$clock\",}\"expression\":[\"suffix\",\"sh\"],\"fields\":[\"name\"]}"
  request="[\"subscribe\",\"$root\",\"tests\",$object]"
  { "$wmctl" "$socket" "$request" --follow "$1" 2> "$top/faults" || touch "$top/ended"; } | while read -r line; do
    case $line in *'"unilateral":true'*) ;; *) continue ;; esac
    tests_of "$line" | run_tests
    printf '%s\n' "$line" | sed 's/.*"clock":"\([^"]*\)".*/\1/' > "$top/clock.new"
    mv "$top/clock.new" "$top/clock"
  done
  ! rm "$top/ended" 2> /dev/null
}

# The demonstration.
trap '"$wmctl" "$socket" "[\"watch-del\",\"$root\"]" > "$top/deleted" || true; rm -rf "$top"' EXIT

# Waits until the runner has printed so many lines.
has_printed() {
  rounds=0
  while [ "$(wc -l < "$top/printed")" -lt "$1" ]; do
    rounds=$((rounds + 1))
    [ "$rounds" -lt 200 ] || { echo "the runner printed too little:" && cat "$top/printed" && exit 1; }
    sleep 0.05
  done
}

crawl() { ask "[\"recrawl\",\"$root\"]" > "$top/crawled"; }

: > "$top/printed"
echo 'add() { echo $(($1 + $2)); }' > "$root/add.sh"
echo '. ./add.sh; [ "$(add 2 3)" = 5 ]' > "$root/add_test.sh"
echo 'half() { echo $(($1 / 2)); }' > "$root/half.sh"
echo '. ./half.sh; [ "$(half 8)" = 4 ]' > "$root/half_test.sh"
ask "[\"watch\",\"$root\"]" > "$top/watched"
crawl
(until follow 3; do sleep 0.1; done) >> "$top/printed" &
has_printed 2
echo "-- half.sh is broken" >> "$top/printed"
echo 'half() { echo $(($1 / 3)); }' > "$root/half.sh"
crawl
has_printed 4
echo "-- half.sh is mended" >> "$top/printed"
echo 'half() { echo $(($1 >> 1)); }' > "$root/half.sh"
crawl
has_printed 6
wait
if [ -n "$restart" ]; then
  echo "-- the server is killed and started again, and add.sh is broken meanwhile" >> "$top/printed"
  (until follow 2; do sleep 0.1; done) >> "$top/printed" &
  sleep 0.3
  echo 'add() { echo $(($1 - $2)); }' > "$root/add.sh"
  $restart
  has_printed 9
  echo "-- add.sh is mended" >> "$top/printed"
  echo 'add() { echo $(($2 + $1)); }' > "$root/add.sh"
  crawl
  has_printed 11
  wait
fi
cat "$top/printed"
