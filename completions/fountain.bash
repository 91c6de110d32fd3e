# Completions of fountain and the scripts over it for bash. Where it finds no words, bash completes names of files.
_fountain_plain() {
    xargs printf %s <<<"$1" 2>/dev/null || printf %s "${1#[\'\"]}"
}

# The names or scenes of the script that is the first word.
_fountain_told() {
    local script begin line
    script=$(_fountain_plain "${COMP_WORDS[1]}")
    script=${script/#\~\//$HOME/}
    begin=$(_fountain_plain "$word")
    compopt -o filenames
    while IFS=$'\t' read -r line _; do
        case $line in
            "$begin"*) COMPREPLY+=("$line") ;;
        esac
    done < <(
        case $1 in
            --name) fountain cast "$script" | grep -v $'^\t' ;;
            --scene) fountain outline "$script" | sed '/^$/q' | grep -v '^[#=]' ;;
        esac 2>/dev/null
    )
}

_fountain() {
    local word=${COMP_WORDS[COMP_CWORD]} command=${COMP_WORDS[0]##*/} words=''
    COMPREPLY=()
    case $command in
        fountain)
            if [ "$COMP_CWORD" -eq 1 ]; then
                words="print outline desk sample packet collate html cast room"
            elif [ "${COMP_WORDS[1]}" = sample ] || [ "$COMP_CWORD" -gt 3 ] ||
                { [ "$COMP_CWORD" -eq 3 ] && [ "${COMP_WORDS[1]}" != collate ]; }; then
                compopt +o default
            fi
            ;;
        fountain-check-script | fountain-memo | fountain-share-room | fountain-watch-sheets) words="--help" ;;
        fountain-hand-out) words="--a4 --without-speakers --help" ;;
        fountain-pdf) words="--a4 --colours --sheets --help" ;;
        fountain-pick-sheets)
            case ${COMP_WORDS[COMP_CWORD - 1]} in
                --name | --scene) _fountain_told "${COMP_WORDS[COMP_CWORD - 1]}" && return ;;
            esac
            words="--sheets --scene --name --help"
            ;;
        fountain-sheet-at) words="--json --help" ;;
        fountain-take-in) words="--dry-run --base= --recover --help" ;;
    esac
    case $command/$word in
        fountain/* | */-*) ;;
        *) return ;;
    esac
    mapfile -t COMPREPLY < <(compgen -W "$words" -- "$word")
    case ${COMPREPLY[0]} in
        *=) compopt -o nospace ;;
    esac
}
complete -o default -F _fountain fountain fountain-check-script fountain-hand-out fountain-memo fountain-pdf fountain-pick-sheets \
    fountain-share-room fountain-sheet-at fountain-take-in fountain-watch-sheets
