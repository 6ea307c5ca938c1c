# Completion of jackd for bash. Under another name the file has that name, as complete/sagbufe-jackd.

_sagbufe_jackd()
{
    local word=${COMP_WORDS[COMP_CWORD]}
    COMPREPLY=()
    if ((COMP_CWORD == 1)); then
        mapfile -t COMPREPLY < <(compgen -W 'play rehearse graph check --help --version' -- "$word")
        return
    fi
    if [[ ${COMP_WORDS[1]} == graph ]]; then
        # Words 2 to 4 are SCRIPT, REPORT and CYCLE; then comes --dot.
        if ((COMP_CWORD == 5)); then
            mapfile -t COMPREPLY < <(compgen -W --dot -- "$word")
        elif ((COMP_CWORD <= 3)); then
            compopt -o filenames 2>/dev/null
            mapfile -t COMPREPLY < <(compgen -f -- "$word")
        fi
        return
    fi
    # Words 2 to 4 are SCRIPT, CAPTURE and PLAYBACK, and of a check REPORT stands before PLAYBACK; then come at most four pairs
    # of --record and PATH, and of a play behind them at most four of --disk and PATH. The options --strict and --no-sync of a
    # play stand anywhere, but not for a PATH, and are not counted.
    local first place=$COMP_CWORD strict= sync= it records=4 disks=0
    case ${COMP_WORDS[1]} in
        play) first=5 strict=offered sync=offered disks=4 ;;
        check) first=6 ;;
        *) return ;;
    esac
    for it in "${COMP_WORDS[@]:2:COMP_CWORD-2}"; do
        case $it in
            --strict) place=$((place - 1)) strict= ;;
            --no-sync) place=$((place - 1)) sync= ;;
            --record) records=$((records - 1)) ;;
            --disk) disks=$((disks - 1)) records=0 ;;
        esac
    done
    if ((place >= first && (place - first) % 2 == 0)); then
        ((records > 0)) && mapfile -t COMPREPLY < <(compgen -W --record -- "$word")
        ((disks > 0)) && mapfile -t -O ${#COMPREPLY[@]} COMPREPLY < <(compgen -W --disk -- "$word")
    elif [[ $word != -* ]] && ((records >= 0 && disks >= 0)); then
        compopt -o filenames 2>/dev/null
        mapfile -t COMPREPLY < <(compgen -f -- "$word")
        strict= sync=
    elif ((place > first)); then
        strict= sync=
    fi
    [[ $strict ]] && mapfile -t -O ${#COMPREPLY[@]} COMPREPLY < <(compgen -W --strict -- "$word")
    [[ $sync ]] && mapfile -t -O ${#COMPREPLY[@]} COMPREPLY < <(compgen -W --no-sync -- "$word")
}

_sagbufe_name=${BASH_SOURCE[0]##*/}
complete -F _sagbufe_jackd "${_sagbufe_name%.bash}"
unset _sagbufe_name
