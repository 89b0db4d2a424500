# Completion of fencectl for bash.

_fencectl() {
    local word="${COMP_WORDS[COMP_CWORD]}" command="" words="" takes_files=yes files="*.fence" at=1
    # --color and its value may come before the command.
    while [ "${COMP_WORDS[at]-}" = --color ] && [ "$at" -lt "$COMP_CWORD" ]; do at=$((at + 2)); done
    [ "$at" -ge "$COMP_CWORD" ] || command="${COMP_WORDS[at]}"
    case "$command" in
    "") words="run check explain trace draw clients explore help --help --version" ;;
    run) words="--json --help" ;;
    explain) words="--help" ;;
    check) words="--quiet --tap --allow-empty --update --help" ;;
    trace) words="--json --script --draw --perfetto --hangs --from --to --output --help" files="*" ;;
    draw) words="--graph --line --lines --output --help" ;;
    clients) words="--locks --help" takes_files="" ;;
    explore) words="--json --states --witness --draw --answers --all-orders --first --predict --help" files="*.plan" ;;
    help) words="run check explain trace draw clients explore" takes_files="" ;;
    *) takes_files="" ;;
    esac
    [ -z "$words" ] || [ "$command" = help ] || words+=" --color"
    case "${COMP_WORDS[COMP_CWORD - 1]}" in
    --color) words="auto always never" takes_files="" ;;
    -o | --output | --witness) words="" files="*" ;;
    --from | --to | --line | --lines | --states) words="" takes_files="" ;;
    esac
    mapfile -t COMPREPLY < <(compgen -W "$words" -- "$word")
    [ -z "$takes_files" ] || mapfile -t -O "${#COMPREPLY[@]}" COMPREPLY < <(
        compgen -d -- "$word"
        compgen -f -X "!$files" -- "$word"
    )
}

complete -o filenames -F _fencectl fencectl
