# What the launcher sources, with $front (the folder of this file) set. It calls front_enter with its words, and front_run once
# $program is there. No Python is needed here, so that pipes cost nothing.
home=${front%/front} # where README.md or a file `version` stands

# front_enter WORD..: shows the page that the words ask for, or runs the program that PSAC_PROGRAM names; else it returns.
front_enter() {
    front_page "$@"
    [ -n "${PSAC_PROGRAM-}" ] || return 0
    program=$PSAC_PROGRAM
    front_run "$@"
}

# front_page WORD..: shows the page that the words ask for and ends, or returns where they ask for none.
front_page() {
    case ${1-} in
        -h | --help) topic=help ;;
        --version) front_version; exit ;;
        help) topic=$(printf '%s' "${2-help}" | tr 'A-Z' 'a-z') ;;
        *) return 0 ;;
    esac
    case $topic in
        help | once | session | bench | dump | certify | watch | explain | language | script | hints) cat "$front/pages/$topic.txt"; exit ;;
    esac
    echo "psac: there is no page '$2'; there are: once session bench dump certify watch explain LANGUAGE SCRIPT HINTS" >&2
    exit 2
}

# front_version: the commit and the kit line, as the installation wrote them down or as the repository has them.
front_version() {
    if [ -f "$home/version" ]; then
        cat "$home/version"
        return
    fi
    commit=$(git -C "$home" rev-parse --short HEAD 2>/dev/null) || commit=unknown
    kit=$(sed -n 's/^Proved with: `\(.*\)`.*/\1/p' "$home/README.md" 2>/dev/null)
    printf 'psac, commit %s\nproved with: %s\n' "$commit" "${kit:-unknown}"
}

# front_has_hints: whether hints are wanted.
front_has_hints() {
    case ${PSAC_HINTS-} in
        1) return 0 ;;
        0) return 1 ;;
    esac
    [ -t 2 ]
}

# front_is_typed WORD..: whether this may be a session that someone types.
front_is_typed() {
    case " $* " in
        *' session '*) [ -t 0 ] && [ -t 1 ] ;;
        *) return 1 ;;
    esac
}

# front_explain WORD..: has Python explain the last commit of a script.
front_explain() {
    python=${PSAC_PYTHON:-python3}
    command -v "$python" >/dev/null || { echo "psac: explain needs Python 3.8 or later" >&2; exit 1; }
    exec "$python" -I -S -B "$front" explain "$program" "$@"
}

# front_run WORD..: becomes the program, with the front before it where that is wanted and Python is there.
front_run() {
    if [ "${1-}" = explain ]; then shift; front_explain "$@"; fi
    how=plain
    if front_has_hints; then how=hints; fi
    python=${PSAC_PYTHON:-python3}
    if { [ "$how" = hints ] || front_is_typed "$@"; } && command -v "$python" >/dev/null; then
        exec "$python" -I -S "$front" "$how" "$program" "$@"
    fi
    exec "$program" "$@"
}
