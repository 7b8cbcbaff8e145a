# Bash completion for the programs of the service. To use it: source completions/prefork-service.bash

_prefork_service() {
    local cur=${COMP_WORDS[COMP_CWORD]} prev=${COMP_WORDS[COMP_CWORD - 1]} options
    local at=1 words='' signals='HUP QUIT INT TERM USR1 USR2 WINCH TTIN TTOU'

    COMPREPLY=()
    case $prev in
        --folder | --reload-on-change | --prefork | --python | --chdir | --records | --metrics | --access-log)
            compopt -o default
            return
            ;;
        --ready)
            mapfile -t COMPREPLY < <(compgen -W 'accept notify probe' -- "$cur")
            return
            ;;
        --stop | --usr1)
            mapfile -t COMPREPLY < <(compgen -W 'HUP INT QUIT TERM USR1 USR2 WINCH' -- "$cur")
            return
            ;;
        --access-form)
            mapfile -t COMPREPLY < <(compgen -W 'combined json' -- "$cur")
            return
            ;;
        --socket-group)
            mapfile -t COMPREPLY < <(compgen -g -- "$cur")
            return
            ;;
        --events)
            mapfile -t COMPREPLY < <(compgen -W '1 2' -- "$cur")
            return
            ;;
        --forbid)
            mapfile -t COMPREPLY < <(compgen -W 'degraded' -- "$cur")
            return
            ;;
        --wait)
            mapfile -t COMPREPLY < <(compgen -W 'serves changes short stopped' -- "$cur")
            return
            ;;
        --on-done | --on-rolled-back | --on-degraded | --on-short | --on-healed | --ask)
            mapfile -t COMPREPLY < <(compgen -c -- "$cur")
            return
            ;;
        --require)
            mapfile -t COMPREPLY < <(compgen -W 'done' -- "$cur")
            return
            ;;
        --after | --ask-within | --listen | --workers | --wsgi | --trusted-proxy | --warm | --after-load | --after-fork | --records-size | --page | --socket-mode | --threads | --timeout | --request-timeout | --hard-memory | --keep | --answer-within | --ready-within | --probe | --probe-within | --probe-limit | --least | --env | --finish | --clients | --rate | --seconds | --patience | --path | --slow) return ;;
    esac
    case ${COMP_WORDS[0]##*/} in
        prefork-serve)
            # What follows -- is a program and its arguments.
            if [[ $prev == -- ]]; then
                mapfile -t COMPREPLY < <(compgen -c -- "$cur")
                return
            elif [[ " ${COMP_WORDS[*]:0:COMP_CWORD} " == *' -- '* ]]; then
                compopt -o default
                return
            fi
            options='--folder --prefork --records --records-size --metrics --page --host --answer-within --defer-accept --socket-mode --socket-group --public --on-done --on-rolled-back --on-degraded --on-short --on-healed --check --json --init --keep-trying --plain-log --reload-on-change --listen --workers --wsgi --preload --python --threads --timeout --request-timeout --hard-memory --keep --trusted-proxy --access-log --access-form --chdir --warm --after-load --after-fork --ready --ready-within --probe --probe-within --probe-limit --stop --finish --usr1 --env --no-listen-fds --blocking --version --help'
            ;;
        prefork-ctl) options='--folder --json --ask --no-ask --after --ask-within --wait --seconds --events --forbid --require --least --records --prefork --version --help' ;;
        prefork-checkworker) options='--path --slow --one --preload --patience --version --help' ;;
        prefork-load) options='--clients --rate --seconds --patience --path --again --json --version --help' ;;
        *) return ;;
    esac
    if [[ $cur == -* ]]; then
        mapfile -t COMPREPLY < <(compgen -W "$options" -- "$cur")
    elif [[ ${COMP_WORDS[0]##*/} == prefork-ctl ]]; then
        while ((at < COMP_CWORD)); do
            case ${COMP_WORDS[at]} in
                --json | --no-ask | --version | --help) ;;
                -*) ((at++)) ;;
                *) break ;;
            esac
            ((at++))
        done
        case ${COMP_WORDS[at]},$prev,$((COMP_CWORD - at)) in
            *,*,0) words="status top tick try plan explore certify go back reload upgrade log-rotate stop $signals" ;;
            plan,plan,1 | explore,explore,1) words=$signals ;;
            try,try,1) words=HUP ;;
            *,USR2,* | *,upgrade,*) words=attended ;;
        esac
        mapfile -t COMPREPLY < <(compgen -W "$words" -- "$cur")
    elif [[ ${COMP_WORDS[0]##*/} == prefork-serve ]]; then
        compopt -o default
    fi
}

complete -F _prefork_service prefork-serve prefork-ctl prefork-load prefork-checkworker
