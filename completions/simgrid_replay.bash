# Completion of simgrid_replay for bash: source it, or put it into /usr/share/bash-completion/completions as simgrid_replay.
_simgrid_replay() {
    local cur=${COMP_WORDS[COMP_CWORD]} prev=${COMP_WORDS[COMP_CWORD - 1]} command= names=0 word i
    for ((i = 1; i < COMP_CWORD; i++)); do
        word=${COMP_WORDS[i]}
        case $word in
            --nthreads | --budget) ((i++)) ;;
            -*) ;;
            *) if [ -z "$command" ]; then command=$word; else ((names++)); fi ;;
        esac
    done
    case $prev in
        --nthreads) mapfile -t COMPREPLY < <(compgen -W '1 2 4 8 16 32 64' -- "$cur") && return ;;
        --budget) mapfile -t COMPREPLY < <(compgen -W '1000000 10000000 100000000 1000000000' -- "$cur") && return ;;
    esac
    case $command in
        '') mapfile -t COMPREPLY < <(compgen -W 'replay run churn help --help --version' -- "$cur") ;;
        help) mapfile -t COMPREPLY < <(compgen -W 'replay run churn' -- "$cur") ;;
        replay | run)
            if [[ $cur == -* ]]; then
                mapfile -t COMPREPLY < <(compgen -W '--nthreads --budget --quiet --help' -- "$cur")
            elif ((names < 2)); then
                compopt -o filenames 2>/dev/null
                mapfile -t COMPREPLY < <(compgen -d -- "$cur"; compgen -f -X '!*.toml' -- "$cur")
            elif [ "$command" = replay ] && ((names == 2)); then
                compopt -o filenames 2>/dev/null
                mapfile -t COMPREPLY < <(compgen -f -- "$cur")
            fi
            ;;
        churn)
            if [[ $cur == -* ]]; then
                mapfile -t COMPREPLY < <(compgen -W '--nthreads --budget --help' -- "$cur")
            fi
            ;;
    esac
}
complete -F _simgrid_replay simgrid_replay
