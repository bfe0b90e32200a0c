#!/usr/bin/env bash
# Compares the words that completion/watchmand.bash offers with those that it must offer.
# usage: completion/check.sh
set -eu
export LC_ALL=C
. "$(dirname "$0")/watchmand.bash"
folder=$(mktemp -d)
trap 'rm -rf "$folder"' EXIT
cd "$folder"
touch state socket
failed=0

# The last of these words is completed: it must offer these, in order.
offers() { # OFFERED WORD ..
    local wanted=$1
    shift
    COMP_WORDS=("$@")
    COMP_CWORD=$(($# - 1))
    "_$1"
    local offered
    offered=$(printf '%s\n' "${COMPREPLY[@]}" | sort | paste -sd ' ')
    if [ "$offered" != "$wanted" ]; then
        echo "$*: offers $offered, not $wanted"
        failed=1
    fi
}

offers '--help --version format lines migrate serve' watchmand ''
offers 'serve' watchmand s
offers 'socket state' watchmand serve s
offers 'state' watchmand format st
offers 'migrate' watchmand m
offers 'socket state' watchmand migrate state ''
offers '--help' watchmand migrate state --
offers '--gc-age --gc-interval --help --quiet --sessions --workers' watchmand serve state socket --
offers '--gc-age --gc-interval' watchmand serve state socket --gc
offers '1 16' watchmand serve state socket --workers 1
offers '' watchmand serve state socket --sessions ''
offers '--help' watchmand lines --
offers 'changes' wm c
offers 'unwatch up' wm u
offers 'socket state' wm watch s
offers '' wm up s
offers '--since --socket' wm changes --s
offers '--settle --socket' wm run --s
offers 'socket' wm files --socket so
offers 'socket' wm run . -- cat so
offers 'sha256sum' wm run -- sha256
offers '' wm changes --since ''
offers 'socket' wmctl so
offers "'[\"watch-list\"]'" wmctl socket "'[\"watch-l"
offers "'[\"recrawl\",\"$folder\"" wmctl socket "'[\"rec"
offers '--follow' wmctl socket x --f
offers '1 4294967295' wmctl socket x --follow ''
offers '--sync --sync-timeout' wmctl socket x --s
offers 'socket state' wmctl socket x --sync ''
offers '1000' wmctl socket x --sync . --sync-timeout ''
offers 'socket' wmfeed so
offers 'state' wmfeed socket st
offers '' wmfeed socket state s
offers '--every-event --help --version' wmfeed --
offers '--every-event' wmfeed socket --e
[ "$failed" = 0 ] && echo "the completion offers all that it must"
