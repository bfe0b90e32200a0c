#!/bin/sh
# A build that compiles the files that changed since its last success: by a clock that it keeps itself (build), and
# by a cursor that the server keeps (build_by_cursor). The part below "The demonstration" shows both with a folder
# of its own.
# usage: examples/build.sh SOCKET [WMCTL [RESTART]]; RESTART is a command that kills the server and starts it again
# In a reply a name with a quote, a backslash or a control character has backslashes. Such a build fails here.
set -eu
socket=$1
wmctl=${2:-wmctl}
restart=${3:-}
top=$(mktemp -d)
root=$top/src
out=$top/out
trap '"$wmctl" "$socket" "[\"watch-del\",\"$root\"]" > "$top/deleted" || true; rm -rf "$top"' EXIT
mkdir "$root" "$out"

ask() { "$wmctl" "$socket" "$1"; }

# The reply with the sources that changed since a clock or a cursor ($1; all sources if it is empty), up to now,
# deleted ones too. wmctl waits until the feed has sent all earlier changes. Its status 3 means that no feed runs,
# and that it sent no question: then the server crawls the folder first.
changed() {
  query="[\"query\",\"$root\",{${1:+\"since\":\"$1\",}\"expression\":[\"suffix\",\"c\"],\"fields\":[\"name\"]}]"
  synced=0
  "$wmctl" "$socket" "$query" --sync "$root" 2> "$top/unsynced" || synced=$?
  [ "$synced" = 3 ] || return "$synced"
  ask "[\"recrawl\",\"$root\"]" > "$top/crawled" || { cat "$top/crawled" && return 1; }
  ask "$query"
}

names_of() { sed -e 's/.*"files":\[//' -e 's/\],"is_fresh_instance".*//' -e 's/","/\
/g' -e 's/^"//' -e 's/"$//'; }
clock_of() { sed 's/.*"clock":"\([^"]*\)".*/\1/'; }
# The beginning of each build. It fails if the question failed, or if a name has a backslash. A fresh answer lists
# all files that exist, and no deleted ones: so the old objects go.
begin() { # STATUS REPLY
  [ "$1" = 0 ] || { echo "  $2" && return 1; }
  case $2 in *\\*) echo "  a name has a quote, a backslash or a control character" && return 1 ;; esac
  if is_fresh "$2"; then rm -f "$out"/*.o; fi
}

is_fresh() { case $1 in *'"is_fresh_instance":true'*) true ;; *) false ;; esac }

# Compiles the sources that standard input names, a line each, and removes the object of a deleted one.
compile() {
  while read -r name; do
    object=$out/$(printf %s "$name" | tr / _).o
    if [ -e "$root/$name" ]; then
      echo "  compiles $name"
      "${CC:-cc}" -c -o "$object" "$root/$name" 2> "$top/faults" || { echo "  $name has faults" && return 1; }
    else
      echo "  forgets $name"
      rm -f "$object"
    fi
  done
}

# By a clock. It keeps the clock of the answer once all is compiled: a file that changes meanwhile changes after that clock.
build() {
  status=0
  reply=$(changed "$(cat "$top/clock" 2> /dev/null || true)") || status=$?
  begin "$status" "$reply" || return 1
  printf '%s\n' "$reply" | names_of | sed '/^$/d' > "$top/todo"
  compile < "$top/todo" || return 1
  printf '%s\n' "$reply" | clock_of > "$top/clock.new"
  mv "$top/clock.new" "$top/clock"
}

# By a cursor. It moves with each answer, even if the build then fails: so a file lists the sources until they are
# compiled. If this script is killed before it has read an answer, that answer is lost. A build that must miss
# nothing keeps the clock.
build_by_cursor() {
  status=0
  reply=$(changed n:build) || status=$?
  begin "$status" "$reply" || return 1
  printf '%s\n' "$reply" | names_of | sed '/^$/d' >> "$top/pending"
  sort -u "$top/pending" > "$top/todo"
  compile < "$top/todo" || return 1
  rm "$top/pending"
}

# The demonstration.
try() { # WHAT BUILD
  echo "$1:"
  "$2" || echo "  the build failed"
}

ask "[\"watch\",\"$root\"]" > "$top/watched"
for way in build build_by_cursor; do
  echo "-- $way"
  rm -rf "$root"/* "$out"/*
  echo 'int one(void) { return 1; }' > "$root/one.c"
  mkdir "$root/lib"
  echo 'int two(void) { return 2; }' > "$root/lib/two.c"
  try "the first build" "$way"
  try "nothing changed" "$way"
  echo 'int one(void) { return 11; }' > "$root/one.c"
  try "one.c changed" "$way"
  echo 'int two(void) { return' > "$root/lib/two.c"
  try "lib/two.c is broken" "$way"
  echo 'int two(void) { return 22; }' > "$root/lib/two.c"
  try "lib/two.c is mended" "$way"
  rm "$root/one.c"
  try "one.c went" "$way"
  ls "$out"
  ask "[\"watch-del\",\"$root\"]" > "$top/deleted"
  try "the root isn't watched any longer" "$way"
  ask "[\"watch\",\"$root\"]" > "$top/watched"
  try "it is watched again" "$way"
  if [ -n "$restart" ]; then
    $restart
    try "the server was killed and started again" "$way"
    try "nothing changed" "$way"
  fi
done
