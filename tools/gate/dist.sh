#!/bin/sh
# Makes ARCHIVE.tar.gz with all that `make install` puts into a prefix, the programs without their symbols,
# and ARCHIVE.tar.gz.sha256. The same files make the same bytes. Then it tries the archive without the
# toolchain: its sum, the libraries of its programs, a first session, its man pages, completion and units. As
# root it runs the programs in a folder that has only the libraries that they name (chroot), else with an
# empty environment.
# usage: tools/gate/dist.sh WATCHMAND WMCTL WMFEED WM VERSION ARCHIVE
set -eu
program=$1 client=$2 feed=$3 commands=$4 version=$5 archive=$6
[ "$("$program" --version)" = "watchmand $version" ] || { echo "$program isn't of version $version" >&2 && exit 1; }
cd "$(dirname "$0")/../.."

name=$(basename "$archive")
folder=$(mktemp -d)
trap 'rm -rf "$folder"' EXIT

make_archive() {
  mkdir "$folder/built" "$folder/$name"
  strip -o "$folder/built/watchmand" "$program"
  strip -o "$folder/built/wmctl" "$client"
  strip -o "$folder/built/wmfeed" "$feed"
  strip -o "$folder/built/wm" "$commands"
  MAKEFLAGS='' make -s install PROGRAMS="$folder/built" DESTDIR="$folder/$name" PREFIX= UNIT_PREFIX=%h/.local
  cp LICENSE "$folder/$name"
  sed 's#](\(docs/\|bench/\|CONTRIBUTING\)#](share/doc/watchmand/\1#g' README.md > "$folder/$name/README.md"
  mkdir -p "$(dirname "$archive")"
  moment=$(git log -1 --format=%ct 2> "$folder/faults" || stat -c %Y CHANGELOG.md)
  tar --sort=name --owner=0 --group=0 --numeric-owner --mode=u+rw,go=rX --mtime="@$moment" -C "$folder" -cf - "$name" \
    | gzip -9n > "$archive.tar.gz"
  (cd "$(dirname "$archive")" && sha256sum "$name.tar.gz" > "$name.tar.gz.sha256")
  ls -l "$archive.tar.gz" "$archive.tar.gz.sha256"
}

# Unpacks the archive, with the libraries that its programs name.
unpack() {
  mkdir -p "$user/tmp"
  (cd "$(dirname "$archive")" && sha256sum -c "$name.tar.gz.sha256")
  tar -xzf "$archive.tar.gz" -C "$user" --strip-components=1
  for each in watchmand wm wmctl wmfeed; do
    echo "$each links against:"
    ldd "$user/bin/$each" | sed 's/ (0x.*//'
    # the path after an arrow, or the loader's own
    ldd "$user/bin/$each" | sed -n -e 's/.*=> \(\/[^ ]*\).*/\1/p' -e 's/^[[:space:]]*\(\/[^ ]*\).*/\1/p' >> "$folder/libraries"
  done
  sort -u "$folder/libraries" | while read -r library; do
    mkdir -p "$user$(dirname "$library")"
    [ -e "$user$library" ] || cp -L "$library" "$user$library"
  done
}

# Runs a program that sees only these libraries.
alone() {
  called=$1
  shift
  if [ "$(id -u)" = 0 ]; then
    env -i "$(command -v chroot)" "$user" "/bin/$called" "$@"
  else
    (cd "$user" && env -i "bin/$called" "$@")
  fi
}

try_programs() {
  for each in watchmand wm wmctl wmfeed; do alone "$each" --version; done
  at=$([ "$(id -u)" = 0 ] && echo /tmp || echo tmp)
  alone watchmand format "$at/state"
  awk '/^## / { part++ } part == 1 && /^\[/' examples/sessions.md > "$folder/requests"
  awk '/^## / { part++ } part == 1 && /^\{/' examples/sessions.md > "$folder/replies"
  [ -s "$folder/requests" ]
  alone watchmand lines "$at/state" < "$folder/requests" > "$folder/printed"
  cmp "$folder/printed" "$folder/replies"
  echo "the first session is answered byte for byte"
}

has() { command -v "$1" > "$folder/found"; }

# The units are then in ~/.local, where systemd looks for those of a user.
try_units() {
  mkdir -p "$user/home/.local"
  ln -s "$user/bin" "$user/home/.local/bin"
  ln -s "$user/share" "$user/home/.local/share"
  units=$user/share/systemd/user
  if has systemd-analyze; then
    HOME=$user/home XDG_RUNTIME_DIR=$user MANPATH=$user/share/man \
      systemd-analyze verify --user "$units/watchmand.service" "$units/wmfeed.service"
    echo "the units have no fault"
  fi
  if has systemctl; then
    env -u XDG_DATA_HOME -u XDG_CONFIG_HOME HOME="$user/home" XDG_RUNTIME_DIR="$user" systemctl --user enable watchmand wmfeed
    for unit in watchmand wmfeed; do [ -e "$user/home/.config/systemd/user/default.target.wants/$unit.service" ]; done
    echo "the units are enabled by name"
  fi
}

try_pages_and_completion() {
  if has mandoc; then
    mandoc -Tlint -Wwarning "$user"/share/man/man1/*.1
    echo "the man pages have no fault"
  fi
  for each in watchmand wm wmctl wmfeed; do bash -n "$user/share/bash-completion/completions/$each"; done
  if has zsh; then zsh -n "$user/share/zsh/site-functions/_wm"; fi
  completion/check.sh
}

user=$folder/user
make_archive
unpack
try_programs
try_pages_and_completion
try_units
