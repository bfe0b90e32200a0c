#!/bin/sh
# Tries what takes the gate too long, in a copy of the repository, which also has the uncommitted changes of
# tracked files.
# - CRATE: its must-fail edits of tools/edits. The prover must refuse each. Without a word: those of all
#   crates.
# - sweep: a migration is cut at each of its 150 device calls, by a stop, and by a crash with each of 66
#   choices of what it leaves. The gate's test (session_tests, world/migrations.rt) makes some of these cuts;
#   here one constant of it is changed. It takes some 30 processor minutes.
# - crawl_on_one_thread: a crawl with all its work on one thread keeps every contract. The test
#   two_crawlers_meet must fail.
# The status is 1 if an edit isn't refused, a cut is wrong, or that test passes.
# usage: tools/gate/edits.sh [CRATE..|sweep|crawl_on_one_thread]
set -eu
cd "$(dirname "$0")/../.."
rt=${RT:-rt}
folder=$(mktemp -d)
trap 'rm -rf "$folder"' EXIT
copy=$folder/repository

copy_repository() {
  git clone -q . "$copy"
  git diff HEAD --binary > "$folder/changes"
  git -C "$copy" apply --allow-empty "$folder/changes"
}

# Replaces a text, which must be there, in a file of the copy.
replace() { # FILE OLD NEW
  grep -q "$2" "$copy/$1" || { echo "edits: $1 doesn't have: $2" >&2 && exit 1; }
  sed -i "s/$2/$3/" "$copy/$1"
}

edits() { # CRATE ..
  for crate in "$@"; do
    [ -d "tools/edits/$crate" ] || { echo "edits: tools/edits has no $crate" >&2 && exit 1; }
    mkdir -p "$copy/crates/$crate/must-fail"
    rm -f "$copy/crates/$crate"/must-fail/*.edit
    cp "tools/edits/$crate"/*.edit "$copy/crates/$crate/must-fail/"
  done
  cd "$copy"
  "$rt" must-fail "$@"
}

sweep() {
  replace crates/session_tests/src/world/migrations.rt '^const IS_WHOLE: bool = false;' 'const IS_WHOLE: bool = true;'
  cd "$copy/crates/session_tests"
  RT_SECONDS=${RT_SECONDS:-14400} "$rt" test
  echo "sweep: 10,050 cuts: 150 calls with 67 ends each; after each cut a migration, and a start and a migration"
}

crawl_on_one_thread() {
  replace crates/wm_crawler/src/reading.rt 'workers < 2 || folders.len() < 2 {' 'workers < 2 || folders.len() < usize::MAX {'
  cd "$copy/crates/crawler_tests"
  if "$rt" try --test > "$folder/printed" 2>&1; then
    echo "crawl_on_one_thread: the tests still pass"
    exit 1
  fi
  grep -q two_crawlers_meet "$folder/printed" || { cat "$folder/printed" && exit 1; }
  echo "crawl_on_one_thread: two_crawlers_meet fails, as it must"
}

copy_repository
case ${1:-} in
  sweep | crawl_on_one_thread) "$1" ;;
  '') edits $(ls tools/edits) ;;
  *) edits "$@" ;;
esac
