# Completes the words of rpki(1) in bash.
_rpki() {
    local word=$2 before=$3 options at
    COMPREPLY=()
    case ${COMP_WORDS[1]} in
        show) options='--output --json --quiet --all --at --lenient --max-size --help' ;;
        validate) options='--output --json --quiet --tal --crl --in --depth --steps --trust-first --no-crl --no-names --at --lenient --max-size --help' ;;
        tree) options='--output --json --quiet --tal --only --strict-exit --depth --steps --no-names --at --lenient --max-size --help' ;;
        prepare)
            options='--issuer --crl --at --lenient --out --force --help'
            if [[ ${COMP_WORDS[2]} == list ]]; then
                options+=' --previous --number --next-update --revoke --serial'
            else
                options+=' --key --serial --from --until --ipv4 --ipv6 --as --repository --manifest --notify --object --issuer-uri --crl-uri --trim'
            fi
            ;;
        complete) options='--issuer --crl --pem --at --lenient --out --force --help' ;;
    esac
    if ((COMP_CWORD == 1)); then
        mapfile -t COMPREPLY < <(compgen -W 'show validate tree prepare complete help --version --help' -- "$word")
        return
    fi
    if ((COMP_CWORD == 2)) && [[ ${COMP_WORDS[1]} == prepare ]]; then
        mapfile -t COMPREPLY < <(compgen -W 'ca ee detached router anchor list' -- "$word")
        return
    fi
    if ((COMP_CWORD == 2)) && [[ ${COMP_WORDS[1]} == help ]]; then
        mapfile -t COMPREPLY < <(compgen -W 'show validate tree prepare complete' -- "$word")
        return
    fi
    [[ -n $options ]] || return
    # `--crl=FILE` is three words here
    [[ $before != = ]] || before=${COMP_WORDS[COMP_CWORD - 2]}
    [[ $word != = ]] || word=''
    case $before in
        --at | --max-size | --depth | --steps | --serial | --from | --until | --ipv4 | --ipv6 | --as) return ;;
        --number | --next-update) return ;;
        --repository | --manifest | --notify | --object | --issuer-uri | --crl-uri) return ;;
        -o | --output)
            mapfile -t COMPREPLY < <(compgen -W 'text json jsonl' -- "$word")
            return
            ;;
        --only)
            mapfile -t COMPREPLY < <(compgen -W 'rejected' -- "$word")
            return
            ;;
        --tal | --crl | --in | --issuer | --key | --previous | --revoke | --out) options='' ;;
    esac
    # behind -- each word is a file
    for ((at = 2; at < COMP_CWORD; at++)); do
        [[ ${COMP_WORDS[at]} != -- ]] || options=''
    done
    if [[ $word == -* && -n $options ]]; then
        mapfile -t COMPREPLY < <(compgen -W "$options" -- "$word")
    else
        compopt -o filenames 2> /dev/null
        mapfile -t COMPREPLY < <(compgen -f -- "$word")
    fi
}
complete -F _rpki rpki
