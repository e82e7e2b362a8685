# Completions of sectc for bash.
# The names of the threads in the file that the words name.
_sectc_threads() {
    local place file
    for ((place = 2; place < COMP_CWORD; place++)); do
        file=${COMP_WORDS[place]}
        if [ "${COMP_WORDS[place - 1]}" = --file ] && [ -f "$file" ]; then
            sed 's://.*::' "$file" | grep -oE '(^|[^A-Za-z0-9_])thread[[:space:]]+[A-Za-z_][A-Za-z0-9_]*' | sed 's/.*[[:space:]]//'
        fi
    done
}
_sectc() {
    local words= files= command=${COMP_WORDS[1]} current=${COMP_WORDS[COMP_CWORD]}
    case "$command" in
        locks) words='--k --format --verbose --help' files=1 ;;
        compile) words='--k --format --workers --cert --help' files=1 ;;
        c) words='--k --help' files=1 ;;
        explain) words='--k --format --color --help' files=1 ;;
        conflicts) words='--k --format --verbose --color --help' files=1 ;;
        inspect) words='--k --help' files=1 ;;
        graph) words='--k --section --help' files=1 ;;
        serial) words="--fuel --format --places --file --help $(_sectc_threads)" ;;
        outcomes) words='--fuel --most --format --places --help' files=1 ;;
        schedule) words="--k --format --fuel --chart --places --color --file --help $(_sectc_threads)" ;;
        run) words='--k --format --fuel --time --places --help' files=1 ;;
        lint) words='--k --format --deny --allow --color --help' files=1 ;;
        lsp) words='--help' ;;
        check) words='--k --help' files=1 ;;
    esac
    case "$command ${COMP_WORDS[COMP_CWORD-1]}" in
        'c --k') words='0 1 2 3' files= ;;
        'check --k') words='0 1 2 3' files= ;;
        'compile --format') words='text json' files= ;;
        'compile --k') words='0 1 2 3' files= ;;
        'compile --workers') words= files= ;;
        'conflicts --color') words='auto always never' files= ;;
        'conflicts --format') words='text json' files= ;;
        'conflicts --k') words='0 1 2 3' files= ;;
        'explain --color') words='auto always never' files= ;;
        'explain --format') words='text json' files= ;;
        'explain --k') words='0 1 2 3' files= ;;
        'graph --k') words='0 1 2 3' files= ;;
        'graph --section') words= files= ;;
        'inspect --k') words='0 1 2 3' files= ;;
        'lint --allow') words='all no-lock all-for-one class-lock never-filled no-common-field lost-update unused hint-without-use' files= ;;
        'lint --color') words='auto always never' files= ;;
        'lint --deny') words='warnings no-lock all-for-one class-lock never-filled no-common-field lost-update unused hint-without-use' files= ;;
        'lint --format') words='text json sarif' files= ;;
        'lint --k') words='0 1 2 3' files= ;;
        'locks --format') words='text json' files= ;;
        'locks --k') words='0 1 2 3' files= ;;
        'outcomes --format') words='text json' files= ;;
        'outcomes --fuel') words= files= ;;
        'outcomes --most') words= files= ;;
        'run --format') words='text json' files= ;;
        'run --fuel') words= files= ;;
        'run --k') words='0 1 2 3' files= ;;
        'schedule --color') words='auto always never' files= ;;
        'schedule --file') words= files=1 ;;
        'schedule --format') words='text json' files= ;;
        'schedule --fuel') words= files= ;;
        'schedule --k') words='0 1 2 3' files= ;;
        'serial --file') words= files=1 ;;
        'serial --format') words='text json' files= ;;
        'serial --fuel') words= files= ;;
        *' <') words= files=1 ;;
    esac
    [ "$COMP_CWORD" -eq 1 ] && words="locks compile c explain conflicts inspect graph serial outcomes schedule run lint lsp check help --help --version" files=
    mapfile -t COMPREPLY < <(compgen -W "$words" -- "$current")
    if [ -n "$files" ]; then
        compopt -o filenames
        mapfile -t -O ${#COMPREPLY[@]} COMPREPLY < <(compgen -f -X '!*.sect' -- "$current"; compgen -d -- "$current")
    fi
}
complete -F _sectc sectc
