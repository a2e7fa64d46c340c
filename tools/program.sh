# What the scripts around the programs share: arguments, the file that is read, the program, its exit status. The script sets
# `name`, `here` (the folder that it stands in), `lines` (what is read, in words, for who types it) and a function `usage`,
# and calls `main`; or `prepare`, and runs `program` itself. The programs end with status 0 themselves, or with 141 where
# nobody reads their output any more: with `main` it is 1 where the last line that the program says on standard error begins
# with `refused`, and 2 where it says anything else there.

# Ends with status 2 and says why.
fail() {
    printf '%s: %s\n' "$name" "$1" >&2
    exit 2
}

misuse() {
    fail "$1
Usage: $name [FILE]     ($name --help says more)"
}

# Sets `file` to the file that the arguments name, - for standard input.
take_arguments() {
    local plain=no argument files=()
    for argument in "$@"; do
        case $plain$argument in
        no--) plain=yes ;;
        no-h | no--help) usage && exit 0 ;;
        no- | yes*) files+=("$argument") ;;
        no-*) misuse "unknown option $argument" ;;
        *) files+=("$argument") ;;
        esac
    done
    [ ${#files[@]} -le 1 ] || misuse "one file at a time: ${files[*]}"
    file=${files[0]--}
}

# Makes the file standard input.
open_file() {
    local reason
    if [ "$file" = - ]; then
        if [ -t 0 ]; then
            printf '%s: reading the terminal: %s; Ctrl-D ends it\n' "$name" "$lines" >&2
        fi
        return
    fi
    [ ! -d "$file" ] || fail "$file: Is a directory"
    if ! { exec <"$file"; } 2>/dev/null; then
        reason=$({ : <"$file"; } 2>&1) || true
        fail "$file: ${reason##*: }"
    fi
}

# Sets `program` to what is run: in the repository it is built first, installed it stands beside this file.
find_program() {
    if [ -f "$here/crates/$name/src/main.rt" ]; then
        "$here/tools/build" "$name" || exit 2
        program=$here/target/bin/$name
    else
        program=$here/../libexec/foamlattice/$name
    fi
}

# Runs the program, its standard output on ours, and sets `said` to what it says on standard error and `status` to its own.
run_program() {
    status=0
    if { exec 3>&1; } 2>/dev/null; then
        said=$("$program" 2>&1 >&3 3>&-) || status=$?
    else
        said=$("$program" 2>&1 >&-) || status=$?
    fi
}

prepare() {
    take_arguments "$@"
    open_file
    find_program
}

main() {
    prepare "$@"
    run_program
    if [ "$status" -gt 128 ]; then
        # It was ended by a signal, or ends so because nobody reads its output any more: so does this script.
        kill -s $((status - 128)) $$
        # Who called it lets that signal pass: then it is a write that failed.
        [ "$status" -ne 141 ] || fail 'standard output: Broken pipe'
    fi
    case ${said##*$'\n'} in
    '') exit "$status" ;;
    refused*)
        printf '%s\n' "$said" >&2
        exit 1
        ;;
    *) fail "$said" ;;
    esac
}
