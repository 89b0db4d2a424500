# Completion of bimphlai-run for bash.

_bimphlai_run() {
    local word="${COMP_WORDS[COMP_CWORD]}" at=1
    # After the options comes a program, followed by its own words.
    while [ "$at" -lt "$COMP_CWORD" ]; do
        case "${COMP_WORDS[at]}" in
        --trace | --shuffle | --patience | --plan | --calls | --orders | --runs) at=$((at + 2)) ;;
        --follow)
            at=$((at + 2))
            # A number behind the file is a schedule's.
            [[ ${COMP_WORDS[at]-} != +([0-9]) ]] || at=$((at + 1))
            ;;
        --) at=$((at + 1)) && break ;;
        -*) at=$((at + 1)) ;;
        *) break ;;
        esac
    done
    if [[ ${COMP_WORDS[COMP_CWORD - 1]} == --@(trace|follow|plan) ]]; then
        mapfile -t COMPREPLY < <(compgen -f -- "$word")
    elif [[ ${COMP_WORDS[COMP_CWORD - 1]} == --@(shuffle|patience|calls|runs) ]]; then
        COMPREPLY=()
    elif [ "${COMP_WORDS[COMP_CWORD - 1]}" = --orders ]; then
        mapfile -t COMPREPLY < <(compgen -W "all locks" -- "$word")
    elif [ "$at" -lt "$COMP_CWORD" ] && declare -F _command_offset >/dev/null; then
        # bash-completion knows the program's own words.
        _command_offset "$at"
    elif [ "$at" -lt "$COMP_CWORD" ]; then
        mapfile -t COMPREPLY < <(compgen -f -- "$word")
    elif [[ $word == -* ]]; then
        mapfile -t COMPREPLY < <(compgen -W "--local --direct --trace --report --check --require --require-fences --shuffle --follow --patience --plan --calls --orders --predict --runs --verbose -h --help --version" -- "$word")
    else
        mapfile -t COMPREPLY < <(compgen -c -- "$word")
        mapfile -t -O "${#COMPREPLY[@]}" COMPREPLY < <(compgen -f -- "$word")
    fi
}

complete -o filenames -F _bimphlai_run bimphlai-run
