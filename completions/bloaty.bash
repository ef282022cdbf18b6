# Completion of bloaty for bash. Made by tools/dev/completions.
#
#     source completions/bloaty.bash

# Prints the data sources: those of bloaty, and those of the configuration that -c names.
_bloaty_sources() {
    local index
    printf '%s\n' segments sections symbols rawsymbols compileunits inlines inputfiles
    for ((index = 1; index < COMP_CWORD - 1; index++)); do
        [ "${COMP_WORDS[index]}" = -c ] || continue
        sed -n "s/.*\(^\|[{ \t;,]\)name[ \t]*:[ \t]*[\"']\([^\"']*\)[\"'].*/\2/p" "${COMP_WORDS[index + 1]}" 2>/dev/null
    done
}

# Takes the candidates among the lines of a text that begin as the word does.
_bloaty_take() {
    local line
    COMPREPLY=()
    while IFS= read -r line; do
        case $line in "$2"*) COMPREPLY+=("$line") ;; esac
    done <<EOF
$1
EOF
}

_bloaty_files() {
    local line
    COMPREPLY=()
    compopt -o filenames 2>/dev/null
    while IFS= read -r line; do COMPREPLY+=("$line"); done < <(compgen -f -- "$1")
}

_bloaty() {
    local word=${COMP_WORDS[COMP_CWORD]} option=${COMP_WORDS[COMP_CWORD - 1]} index before
    COMPREPLY=()
    # After -- all arguments are files.
    for ((index = 1; index < COMP_CWORD; index++)); do
        [ "${COMP_WORDS[index]}" = -- ] && _bloaty_files "$word" && return
    done
    # --option=value is three words for bash.
    if [ "$word" = = ]; then
        word=
    elif [ "$option" = = ] && [ "$COMP_CWORD" -gt 2 ]; then
        option=${COMP_WORDS[COMP_CWORD - 2]}
    fi
    case $option in
    -d)
        before=${word%"${word##*,}"}
        compopt -o nospace 2>/dev/null
        _bloaty_take "$(_bloaty_sources | sort -u | while IFS= read -r name; do printf '%s\n' "$before$name"; done)" "$word"
        return
        ;;
    -n) return ;;
    -s) _bloaty_take "$(printf '%s\n' vm file both)" "$word" && return ;;
    --domain) _bloaty_take "$(printf '%s\n' vm file both)" "$word" && return ;;
    -c) _bloaty_files "$word" && return ;;
    --source-filter) return ;;
    --synth) return ;;
    --debug-file) _bloaty_files "$word" && return ;;
    --debug-fileoff) return ;;
    --debug-vmaddr) return ;;
    esac
    case $word in
    -*) _bloaty_take "$(printf '%s\n' -d -n -s --domain -w --csv --tsv -c --source-filter --synth --debug-file --debug-fileoff --debug-vmaddr --)" "$word" ;;
    *) _bloaty_files "$word" ;;
    esac
}
complete -F _bloaty bloaty
