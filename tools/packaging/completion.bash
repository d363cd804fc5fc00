# bash completion for cutroom. @SOURCE@

_cutroom() {
    local cur=${COMP_WORDS[COMP_CWORD]} at=$((COMP_CWORD - 2)) kinds kind
    COMPREPLY=()
    compopt +o default 2>/dev/null
    if [ "$COMP_CWORD" -eq 1 ]; then
        mapfile -t COMPREPLY < <(compgen -W '@COMMANDS@ --help --version' -- "$cur")
        return
    fi
    case ${COMP_WORDS[1]} in
@CASES@
        *) return ;;
    esac
    # a command with several forms has a word for each at one place, as TRACKS|DOC
    read -ra kinds <<<"$kinds"
    # the words of an audit go on with two files of the next station, or `cut` after those of one
    [ "${COMP_WORDS[1]}" != audit ] || [ "$at" -lt "${#kinds[@]}" ] || kinds[$at]='LINES|CUT'
    IFS='|' read -ra kinds <<<"${kinds[$at]:-}"
    for kind in "${kinds[@]}"; do
        case $kind in
            RATE) mapfile -t -O "${#COMPREPLY[@]}" COMPREPLY < <(compgen -W '23.976 24 25 29.97 30' -- "$cur") ;;
            DROP) mapfile -t -O "${#COMPREPLY[@]}" COMPREPLY < <(compgen -W 'ndf drop' -- "$cur") ;;
            DOC) _cutroom_files otio ;;
            LIST) _cutroom_files edl ;;
            JOURNAL | LINES | REPLIES) _cutroom_files '*' ;;
            CUT) mapfile -t -O "${#COMPREPLY[@]}" COMPREPLY < <(compgen -W 'cut' -- "$cur") ;;
        esac
    done
}

_cutroom_files() {
    compopt -o filenames 2>/dev/null
    mapfile -t -O "${#COMPREPLY[@]}" COMPREPLY < <(
        compgen -d -- "$cur"
        if [ "$1" = '*' ]; then compgen -f -- "$cur"; else compgen -f -X "!*.$1" -- "$cur"; fi | while read -r file; do
            [ -d "$file" ] || printf '%s\n' "$file"
        done
    )
}

complete -F _cutroom cutroom
