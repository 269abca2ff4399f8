# Completion for bash of the words of nomos, nomos-carry, nomos-explain, nomos-test, nomos-trace, nomos-orders and
# nomos-gas.

# _nomos_explain: offers the options of nomos-explain and of a run, and else says which files are wanted
_nomos_explain() {
    local at=$COMP_CWORD offered=
    case ${COMP_WORDS[1]} in
    --all | --json) at=$((at - 1)) ;;
    esac
    case $at:$before in
    1:nomos-explain | 1:*/nomos-explain | 1:explain | 1:*/explain)
        [[ $word != -* ]] || offered='--all --json --version'
        ;;
    1:*) ;;
    2:*) wanted='*.script' ;;
    *:--policy) offered='first round' ;;
    *:--workers | *:--steps) return 0 ;;
    *) offered='--workers --policy --steps' ;;
    esac
    [ -n "$offered" ] && mapfile -t COMPREPLY < <(compgen -W "$offered" -- "$word")
}

# _nomos_test: offers the options of nomos-test, and else says which files are wanted
_nomos_test() {
    wanted='*.@(nomos|script)'
    [ "$before" != --orders ] || return 0
    if [ "$before" = --on ]; then
        wanted='*.nomos'
        return 1
    fi
    [[ $word == -* ]] || return 1
    local offered='--write --watch --orders --on --json --help --version'
    mapfile -t COMPREPLY < <(compgen -W "$offered" -- "$word")
}

# _nomos_run OPTION..: offers these options and those of each word behind them, and else says which files are wanted
_nomos_run() {
    local offered=$*
    case $before in
    --policy) offered='first round' ;;
    --workers | --steps | --seed | --seeds) return 0 ;;
    --journal) wanted='*' && return 1 ;;
    *.nomos) wanted='*.script' ;;
    esac
    [[ $word == -* || $before == --policy ]] || return 1
    mapfile -t COMPREPLY < <(compgen -W "$offered" -- "$word")
}

# _nomos_carry: offers the options of nomos-carry, and else says which files are wanted
_nomos_carry() {
    local at=$COMP_CWORD offered='--renumber --numbers'
    [[ ${COMP_WORDS[1]} != --* ]] || at=$((at - 1))
    case $COMP_CWORD:$at:$word in
    1:*:-*) mapfile -t COMPREPLY < <(compgen -W "$offered" -- "$word") && return 0 ;;
    *:1:*) ;;
    3:3:*) wanted='*.script' ;;
    *) wanted='*' ;;
    esac
    return 1
}

_nomos() {
    local word=${COMP_WORDS[COMP_CWORD]} wanted='*.nomos' before=${COMP_WORDS[COMP_CWORD - 1]}
    COMPREPLY=()
    if [ "${COMP_WORDS[0]##*/}" = nomos ] ||
        [[ $COMP_CWORD -gt 1 && ${COMP_WORDS[0]##*/} == *explain && ${COMP_WORDS[1]} =~ ^(pool|talk|save|resume)$ ]]; then
        if [ "$COMP_CWORD" -eq 1 ]; then
            mapfile -t COMPREPLY < <(compgen -W 'check run replay bench least pool talk save resume' -- "$word")
            return
        fi
        case "${COMP_WORDS[1]}:$COMP_CWORD" in
        check:2 | run:2 | replay:2 | least:2 | pool:2 | talk:2 | save:2 | resume:2) ;;
        run:3 | replay:3 | pool:3 | talk:3 | save:3 | resume:4) wanted='*.script' ;;
        replay:4 | talk:6 | save:4 | resume:3) wanted='*' ;;
        pool:4) mapfile -t COMPREPLY < <(compgen -W '1 2 3 4 5 6 7 8' -- "$word") && return ;;
        run:*)
            case $before in
            --journal) wanted='*' ;;
            --policy) mapfile -t COMPREPLY < <(compgen -W 'first round' -- "$word") && return ;;
            --workers | --steps) return ;;
            *) mapfile -t COMPREPLY < <(compgen -W '--workers --policy --steps --journal' -- "$word") && return ;;
            esac
            ;;
        *) return ;;
        esac
    else
        case ${COMP_WORDS[0]##*/} in
        nomos-carry) _nomos_carry && return ;;
        nomos-test) _nomos_test && return ;;
        nomos-trace)
            _nomos_run --lanes --mermaid --report --json --types --policy --workers --seed --journal --steps --help \
                --version && return
            ;;
        nomos-orders) _nomos_run --seeds --steps --json --help --version && return ;;
        nomos-gas) _nomos_run --json --policy --workers --seed --steps --help --version && return ;;
        *) _nomos_explain && return ;;
        esac
    fi
    compopt -o filenames 2>/dev/null
    mapfile -t COMPREPLY < <(
        shopt -s extglob
        compgen -d -- "$word"
        compgen -f -X "!$wanted" -- "$word"
    )
}

complete -F _nomos nomos nomos-carry nomos-explain nomos-test nomos-trace nomos-orders nomos-gas
