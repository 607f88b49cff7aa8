# Completions of autbis and its scripts for bash. manual/try compares them with what --help lists.

# Completes the name of a system, which begins with - only if $2 is not empty: files that end in .aut come first, then folders. If there are none, bash
# completes the name of any file.
_autbis_system() {
    local name
    compopt -o filenames -o nosort 2>/dev/null || return
    while IFS= read -r name; do
        [[ -d $name || ! $2 && $name == -* ]] || COMPREPLY+=("$name")
    done < <(compgen -f -X '!*.aut' -- "$1" | LC_ALL=C sort)
    while IFS= read -r name; do
        [[ ! $2 && $name == -* ]] || COMPREPLY+=("$name")
    done < <(compgen -d -- "$1" | LC_ALL=C sort)
}

_autbis() {
    local word=${COMP_WORDS[COMP_CWORD]} before=${COMP_WORDS[COMP_CWORD - 1]} command='' ended='' systems=0 place words=''
    # A script is completed as a command of its name.
    [[ ${COMP_WORDS[0]##*/} != autbis-* ]] || command=${COMP_WORDS[0]##*autbis-}
    # bash takes --relation=strong for three words.
    if [[ $word == = ]]; then
        word=''
    elif [[ $before == = ]]; then
        before=${COMP_WORDS[COMP_CWORD - 2]}
    fi
    for ((place = 1; place < COMP_CWORD; place++)); do
        case $ended:$command:${COMP_WORDS[place]} in
            ::-*) ;;
            ::*) command=${COMP_WORDS[place]} ;;
            :*:--) ended=yes ;;
            :hide-list:--in) ended=yes command=in ;;
            :*:--relation | :*:--hide | :draw:-o | :ready:--first | :ready:--map | :hide-list:--cadp | :hide-list:--mcrl2)
                [[ ${COMP_WORDS[place + 1]} != = ]] || ((place++))
                ((place++))
                ;;
            :*:-*) ;;
            *) ((systems++)) ;;
        esac
    done
    case $command:$before in
        :*) words="min cmp help -h --help -V --version" ;;
        help:*) words="min cmp help" ;;
        *:--relation) words="strong branching" ;;
        *:--hide) ;;
        draw:-o | ready:--first | ready:--map | hide-list:--cadp | hide-list:--mcrl2) ;;
        draw:*) words="--hide -o -h --help" ;;
        info:*) words="--hide --json -h --help" ;;
        hide-list:*) words="--if-any --all-but --cadp --mcrl2 --in -h --help" ;;
        ready:*) words="--several --names --from-one --counts --first --tau-to-i --i-to-tau --map -h --help" ;;
        regression:*) words="-h --help" ;;
        min:*) words="--relation --hide --stats -h --help" ;;
        cmp:* | same:*) words="--relation --hide -h --help" ;;
    esac
    COMPREPLY=()
    if [[ $ended || $word != -* && $command == @(min|cmp|draw|info|ready|same) && $before != @(--relation|--hide|-o|--first|--map) ]]; then
        case $command:$systems in
            min:0 | draw:0 | info:0 | ready:0 | cmp:[01] | same:[01] | in:*) _autbis_system "$word" "$ended" ;;
            *) compopt +o default 2>/dev/null ;;
        esac
    elif [[ $word == -* || $command != @(hide-list|regression) ]]; then
        [[ $word != -* ]] || compopt +o default 2>/dev/null
        mapfile -t COMPREPLY < <(compgen -W "$words" -- "$word")
    fi
}
complete -o default -F _autbis autbis autbis-{draw,hide-list,info,ready,regression,same}
