# Completion of euclidc's words for bash: source this file, or put it among the completions as `euclidc`.

_euclidc() {
    local word=${COMP_WORDS[COMP_CWORD]} command=${COMP_WORDS[1]}
    COMPREPLY=()
    if [ "$COMP_CWORD" -eq 1 ]; then
        mapfile -t COMPREPLY < <(compgen -W 'decide report prove check convert sample' -- "$word")
        return
    fi
    case $command-$COMP_CWORD in
        convert-3) mapfile -t COMPREPLY < <(compgen -W 'json text' -- "$word") ;;
        prove-5 | check-5) mapfile -t COMPREPLY < <(compgen -W 'default 0 1 2 3 4 5 6 7 8 9' -- "$word") ;;
        report-5 | prove-6) mapfile -t COMPREPLY < <(compgen -W '65536' -- "$word") ;;
        decide-2 | report-2 | prove-2 | check-2) mapfile -t COMPREPLY < <(compgen -W '-' -- "$word"; compgen -f -- "$word") ;;
        decide-[34] | report-[34] | prove-[34] | check-[346] | convert-2) mapfile -t COMPREPLY < <(compgen -f -- "$word") ;;
    esac
}

complete -o filenames -F _euclidc euclidc ./euclidc
