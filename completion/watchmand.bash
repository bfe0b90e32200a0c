# Completion for watchmand, wm, wmctl and wmfeed in bash. Tests: completion/check.sh

# The commands of a server that wmctl completes, without those that a feeder sends.
_wmctl_requests='version watch watch-del watch-list clock since query recrawl subscribe unsubscribe trigger trigger-del trigger-list age-out'

_watchmand_words() {
    mapfile -t COMPREPLY < <(compgen -W "$1" -- "${COMP_WORDS[COMP_CWORD]}")
}

_watchmand_files() {
    compopt -o filenames 2>/dev/null || :
    mapfile -t COMPREPLY < <(compgen -f -- "${COMP_WORDS[COMP_CWORD]}")
}

_watchmand() {
    COMPREPLY=()
    local word=${COMP_WORDS[COMP_CWORD]} before=${COMP_WORDS[COMP_CWORD - 1]}
    if ((COMP_CWORD == 1)); then
        _watchmand_words 'format lines migrate serve --help --version'
    elif [[ $before == --workers ]]; then
        _watchmand_words '1 2 4 8 16'
    elif [[ $before == --gc-age || $before == --gc-interval || $before == --sessions ]]; then
        return
    elif [[ $word == -* ]]; then
        case ${COMP_WORDS[1]} in
            serve) _watchmand_words '--workers --gc-age --gc-interval --sessions --quiet --help' ;;
            *) _watchmand_words '--help' ;;
        esac
    else
        _watchmand_files
    fi
}

_wmctl() {
    COMPREPLY=()
    local word=${COMP_WORDS[COMP_CWORD]} before=${COMP_WORDS[COMP_CWORD - 1]}
    if [[ $before == --follow ]]; then
        _watchmand_words '1 4294967295'
    elif [[ $before == --sync ]]; then
        _watchmand_files
    elif [[ $before == --sync-timeout ]]; then
        _watchmand_words '1000'
    elif [[ $word == -* ]]; then
        _watchmand_words '--follow --sync --sync-timeout --help --version'
    elif ((COMP_CWORD == 1)); then
        _watchmand_files
    elif ((COMP_CWORD == 2)); then
        _wmctl_json "$word"
    fi
}

# A request of one or two elements: its name, and the present folder as the root.
_wmctl_json() {
    local request all=()
    for request in $_wmctl_requests; do
        case $request in
            version | watch-list) all+=("'[\"$request\"]'") ;;
            *) all+=("'[\"$request\",\"$PWD\"") ;;
        esac
    done
    for request in "${all[@]}"; do
        if [[ $request == "$1"* ]]; then COMPREPLY+=("$request"); fi
    done
}

_wmfeed() {
    COMPREPLY=()
    if [[ ${COMP_WORDS[COMP_CWORD]} == -* ]]; then
        _watchmand_words '--every-event --help --version'
    elif ((COMP_CWORD < 3)); then
        _watchmand_files
    fi
}

_wm() {
    COMPREPLY=()
    local word=${COMP_WORDS[COMP_CWORD]} before=${COMP_WORDS[COMP_CWORD - 1]}
    if ((COMP_CWORD == 1)); then
        _watchmand_words 'up down watch unwatch list files changes wait run sync status --help --version'
    elif [[ ${COMP_WORDS[1]} == run && " ${COMP_WORDS[*]:2:COMP_CWORD-2} " == *' -- '* ]]; then
        _wm_command
    elif [[ $before == --socket ]]; then
        _watchmand_files
    elif [[ $before == --since || $before == --expr || $before == --settle ]]; then
        return
    elif [[ $word == -* ]]; then
        case ${COMP_WORDS[1]} in
            files | wait) _watchmand_words '--nul --json --clock --expr --no-sync --socket --help' ;;
            changes) _watchmand_words '--since --nul --json --clock --expr --no-sync --socket --help' ;;
            run) _watchmand_words '--settle --expr --no-sync --socket --help' ;;
            *) _watchmand_words '--socket --help' ;;
        esac
    elif [[ ${COMP_WORDS[1]} != up && ${COMP_WORDS[1]} != down && ${COMP_WORDS[1]} != list && ${COMP_WORDS[1]} != status ]]; then
        _watchmand_files
    fi
}

# Behind -- stands a command with words of its own: its name is completed, and then files.
_wm_command() {
    if [[ ${COMP_WORDS[COMP_CWORD - 1]} == -- ]]; then
        mapfile -t COMPREPLY < <(compgen -c -- "${COMP_WORDS[COMP_CWORD]}" | sort -u)
    else
        _watchmand_files
    fi
}

complete -F _watchmand watchmand
complete -F _wm wm
complete -F _wmctl wmctl
complete -F _wmfeed wmfeed
