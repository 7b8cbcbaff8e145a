# Bash completion for prefork: subcommands, options, files and control words.
# To use it: source completions/prefork.bash

_prefork() {
    local signals='HUP QUIT INT TERM USR1 USR2 WINCH TTIN TTOU' attended='USR2\ attended'
    local cur=${COMP_WORDS[COMP_CWORD]} prev=${COMP_WORDS[COMP_CWORD - 1]}
    local options word

    COMPREPLY=()
    if ((COMP_CWORD == 1)); then
        mapfile -t COMPREPLY < <(compgen -W 'enact plan explore certify check supervise adopt child explain --help --version' -- "$cur")
        return
    fi

    # Bash parts words at = and :, so that --from=FILE comes as three words.
    [[ $cur == = ]] && cur=''
    [[ $prev == = ]] && prev=${COMP_WORDS[COMP_CWORD - 2]}
    case $prev in
        --from | --to | --program)
            compopt -o default
            return
            ;;
        --forbid)
            mapfile -t COMPREPLY < <(compgen -W 'degraded' -- "$cur")
            return
            ;;
        --require)
            mapfile -t COMPREPLY < <(compgen -W 'done' -- "$cur")
            return
            ;;
        --events)
            mapfile -t COMPREPLY < <(compgen -W '1 2' -- "$cur")
            return
            ;;
        --workers | --held | --turns | --limit | --least | --answer-within | --ready-within | :) return ;;
    esac
    [[ $cur == : ]] && return

    case ${COMP_WORDS[1]} in
        enact) options='--from --to --workers --bare --json --why --held --state --help' ;;
        plan) options='--from --to --workers --bare --json --why --dot --help' ;;
        explore) options='--from --to --workers --bare --json --why --held --events --turns --limit --forbid --require --least --list --progress --deaths --help' ;;
        certify) options='--from --to --workers --bare --json --why --life --held --help' ;;
        supervise) options='--program --from --to --answer-within --ready-within --verbose --why --help' ;;
        adopt) options='--program --answer-within --ready-within --help' ;;
        check) options='--json --help' ;;
        child) options='--help' ;;
        explain) options='--help' ;;
        *) return ;;
    esac
    local before=("${COMP_WORDS[@]:2:COMP_CWORD-2}")

    # Each option may be given once, and none after --; certify takes --to several times.
    if [[ $cur == -* ]]; then
        [[ " ${before[*]} " == *' -- '* ]] && return
        for word in $options; do
            [[ " ${before[*]} " == *" $word "* && "${COMP_WORDS[1]} $word" != 'certify --to' ]] && continue
            [[ $word == "$cur"* ]] && COMPREPLY+=("$word")
        done
        return
    fi

    # Transcripts and words come on standard input, and the program itself knows the codes.
    case ${COMP_WORDS[1]} in
        certify | supervise | adopt | child) return ;;
        check)
            compopt -o default
            return
            ;;
        explain)
            [[ ${#before[@]} -gt 0 ]] && return
            mapfile -t COMPREPLY < <(compgen -W "$("${COMP_WORDS[0]}" explain 2>/dev/null | cut -d ' ' -f 1)" -- "$cur")
            return
            ;;
    esac

    # One word is all that plan and explore take.
    if [[ ${COMP_WORDS[1]} == plan || ${COMP_WORDS[1]} == explore ]]; then
        for word in "${before[@]}"; do
            [[ " $signals " == *" $word "* || $word == [\'\"]* || $word == "$attended" ]] && return
        done
    fi

    # The words with numbers are one argument, and so begin with a quote that is still to be closed.
    mapfile -t COMPREPLY < <(compgen -W "$signals" -- "$cur")
    [[ $attended == "$cur"* ]] && COMPREPLY+=("$attended")
    for word in beat tick; do
        [[ $word == "$cur"* ]] || continue
        COMPREPLY+=("'$word ")
        [[ -n $cur ]] && compopt -o nospace
    done
}

complete -F _prefork prefork
