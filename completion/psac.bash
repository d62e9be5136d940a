# Completion of psac and psac-table in bash.
_psac_options="--workers --nodes --mods --links --rows"

_psac_files() {
    # $1: a pattern of names, or nothing; folders are always there
    local IFS=$'\n'
    compopt -o filenames 2>/dev/null
    COMPREPLY=($(compgen -d -- "$word"))
    if [ -n "$1" ]; then
        COMPREPLY+=($(compgen -f -X "!$1" -- "$word"))
    else
        COMPREPLY=($(compgen -f -- "$word"))
    fi
}

# Whether this is an option that takes the word behind it.
_psac_takes_number() { case " $_psac_options " in *" $1 "*) ;; *) return 1 ;; esac }

_psac() {
    local word=${COMP_WORDS[COMP_CWORD]} at plain=0
    COMPREPLY=()
    ! _psac_takes_number "${COMP_WORDS[COMP_CWORD - 1]}" || return
    # How many words that are no options stand before this one.
    for ((at = 1; at < COMP_CWORD; at++)); do
        if _psac_takes_number "${COMP_WORDS[at]}"; then
            ((at++))
        elif [[ ${COMP_WORDS[at]} != -* ]]; then
            ((plain++))
        fi
    done
    if [ "${COMP_WORDS[1]}" = help ] && [ "$COMP_CWORD" -gt 1 ]; then
        [ "$COMP_CWORD" = 2 ] && COMPREPLY=($(compgen -W "once session bench dump certify watch explain LANGUAGE SCRIPT HINTS" -- "$word"))
        return
    fi
    if [[ $word == -* ]]; then
        [ "$COMP_CWORD" = 1 ] && COMPREPLY=($(compgen -W "--help --version" -- "$word"))
        COMPREPLY+=($(compgen -W "$_psac_options" -- "$word"))
        return
    fi
    case $plain in
        0) COMPREPLY=($(compgen -W "once session bench dump certify watch explain help" -- "$word")) ;;
        1) _psac_files '*.psac' ;;
        2) [ "${COMP_WORDS[1]}" = bench ] || _psac_files '' ;;
        3) [ "${COMP_WORDS[1]}" != explain ] || _psac_files '' ;;
    esac
}

_psac_table() {
    local word=${COMP_WORDS[COMP_CWORD]}
    COMPREPLY=()
    case ${COMP_WORDS[COMP_CWORD - 1]} in
        --separator) COMPREPLY=($(compgen -W "comma semicolon tab" -- "$word")); return ;;
        --encoding) COMPREPLY=($(compgen -W "utf-8 utf-16 latin-1 cp1252" -- "$word")); return ;;
    esac
    case $word in
        -*) COMPREPLY=($(compgen -W "--help --legend --skeleton --names --separator --encoding --trim --scale" -- "$word")) ;;
        *) _psac_files '' ;;
    esac
}

complete -F _psac psac ./psac
complete -F _psac_table psac-table
