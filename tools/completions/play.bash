# Completions of play and ps_play for bash. Sourced by the shell, or found as share/bash-completion/completions/play.

# The games and folders that begin with a word, in COMPREPLY, and files of keys where they are replayed.
_play_games() {
    local name
    COMPREPLY=()
    while IFS= read -r name; do
        if [ -d "$name" ] || [[ $name == *.game || $name == *.txt ]] || [[ $name == *.keys && " ${COMP_WORDS[*]} " == *" --replay "* ]]; then
            COMPREPLY+=("$name")
        fi
    done < <(compgen -f -- "$1")
    compopt -o filenames 2>/dev/null
}

_play() {
    local word=${COMP_WORDS[COMP_CWORD]} before=${COMP_WORDS[COMP_CWORD - 1]} forms options
    # Of --format=json the shell makes three words.
    if [ "$before" = = ] && [ "$COMP_CWORD" -gt 2 ]; then
        before=${COMP_WORDS[COMP_CWORD - 2]}
    elif [ "$word" = = ]; then
        word=
    fi
    case $before in
    --level | --limit | --states | --view | --explain)
        COMPREPLY=()
        return
        ;;
    --after | --keys | --record | --sizes | --show | --stop-file)
        mapfile -t COMPREPLY < <(compgen -f -- "$word")
        compopt -o filenames 2>/dev/null
        return
        ;;
    --format)
        forms='text gnu json'
        [[ " ${COMP_WORDS[*]} " != *" --"@(solve|replay)" "* ]] || forms='text json'
        mapfile -t COMPREPLY < <(compgen -W "$forms" -- "$word")
        return
        ;;
    --title)
        COMPREPLY=()
        return
        ;;
    --install | --library | --engine)
        mapfile -t COMPREPLY < <(compgen -d -- "$word")
        compopt -o filenames 2>/dev/null
        return
        ;;
    esac
    options='--level --fresh --plain --trace --check --why --all --limit --format --warn --strict --solve --states --after --stop-file --replay --help --version'
    case ${COMP_WORDS[0]##*/} in
    ps_play) options+=' --keys --view --sizes --show --describe --explain' ;;
    *) options+=' --record --page --title --engine --prove --keep --install --library' ;;
    esac
    case $word in
    -*) mapfile -t COMPREPLY < <(compgen -W "$options" -- "$word") ;;
    *) _play_games "$word" ;;
    esac
}

complete -F _play play ps_play
