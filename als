#!/usr/bin/env bash
# Runs the program als with the given arguments and standard input, from any folder; first builds it where a source
# is newer than the last build, or than the last ./gate that passed. A build proves what has changed.
# The pages of docs/help and the version are printed without a build; ./check compares both with what the program prints.
# A command or an option that no page has ends with 2 without a build.
# Status and streams are the program's own; a build that fails ends with 1.
set -euo pipefail

top=$(dirname "$(readlink -f "${BASH_SOURCE[0]}")")
crate="$top/crates/als_cli"
program="$crate/out/als_cli"
stamp="$crate/out/als.built"          # as old as the start of the last build, or gate, that succeeded
kit="$crate/out/als.kit"              # the toolchain that proved it

is_stale() {
    [[ -x $program && -e $stamp ]] || return 0
    # Folders count too: a removed file leaves its trace there.
    [[ -n $(find "$top/crates.txt" "$top"/crates/*/{src,specs,proofs} -newer "$stamp" -print -quit 2> /dev/null) ]]
}

# ---- help, version and a wrong command line, with no build

# The line that the program prints, whose text stands once, in als_command, and whether it was proved here.
print_version() {
    local version
    version=$(sed -n 's/^pub const VERSION: &str = "\(.*\)";$/als \1/p' "$top/crates/als_command/src/texts.rt")
    if is_stale || [[ ! -s $kit ]]; then
        echo "$version, not proved here"
    else
        echo "$version, proved with $(< "$kit")"
    fi
    exit 0
}

print_page() {
    cat "$top/docs/help/$1.txt" || true # also where nobody reads the page to its end
    exit 0
}

# Ends with 2, as the program does.
refuse() {
    echo "als: there is no $1; see ./als ${2:+$2 }--help" >&2
    exit 2
}

has_page() {
    [[ $1 != *[!a-z-]* && $1 != als && -r $top/docs/help/$1.txt ]]
}

# What the words after `help` ask for.
answer_help() {
    if [[ $# == 0 ]]; then
        print_page als
    elif [[ $1 == help && $# == 1 ]]; then
        printf '%s\n' 'Print this message or the help of the given subcommand(s)' '' 'Usage: als help [COMMAND]...' '' \
            'Arguments:' '  [COMMAND]...  Print help for the subcommand(s)'
        exit 0
    elif [[ $# == 1 ]] && has_page "$1"; then
        print_page "$1"
    fi
    refuse "command '$*'"
}

# Ends where the words after a command ask for its page, or where it does not have one of them.
look_at_words() {
    local command=$1 page="$top/docs/help/$1.txt" line word option
    local -A takes=()
    while IFS= read -r line; do
        if [[ $line =~ ^\ {2,6}((-[A-Za-z]),\ )?(--[a-z-]+)(\ \<)? ]]; then
            takes[${BASH_REMATCH[3]}]=${BASH_REMATCH[4]:-nothing}
            [[ -z ${BASH_REMATCH[2]} ]] || takes[${BASH_REMATCH[2]}]=${BASH_REMATCH[4]:-nothing}
        fi
    done < "$page"
    shift
    while (($#)); do
        word=$1 option=${1%%=*}
        shift
        if [[ $word == -- ]]; then
            return
        elif [[ $word == -h || $word == --help ]]; then
            print_page "$command"
        elif [[ $word == --* || $word == -[A-Za-z] ]]; then
            [[ -n ${takes[$option]-} ]] || refuse "option '$option' of als $command" "$command"
            if [[ $word != *=* && ${takes[$option]} != nothing ]]; then
                [[ $# != 0 && $1 != --* && $1 != -[A-Za-z] ]] || refuse "value of '$option' of als $command" "$command"
                shift
            fi
        elif ! grep -q '^Arguments:' "$page"; then
            refuse "argument '$word' of als $command" "$command"
        fi
    done
}

# Answers what needs no program, and returns where a program is needed.
answer() {
    case ${1-} in
        '') cat "$top/docs/help/als.txt" >&2 && exit 2 ;;
        --help | -h) print_page als ;;
        help) answer_help "${@:2}" ;;
        -*) refuse "option '$1'" ;;
    esac
    has_page "$1" || refuse "command '$1'"
    look_at_words "$@"
}

# ---- the build

build() {
    local log="$crate/out/als.log" began
    if ! command -v rt > /dev/null; then
        echo "als: rt, the command of the Rattle toolchain, is not on the PATH; it builds this program" >&2
        exit 1
    fi
    if [[ -x $program ]]; then
        echo "als: sources have changed: their crates, and those above, are proved again before the program runs" >&2
    else
        echo "als: the program is proved and then built, once; the README says how long that takes" >&2
        echo "als: meanwhile ./demo shows the first demonstration in a minute, without proofs; ./als --help needs no build" >&2
    fi
    mkdir -p "$crate/out"
    began=$(mktemp "$crate/out/als.began.XXXXXX")
    : > "$log"
    if ! "$top/lanes" als_cli --brief --as als --log "$log" < /dev/null; then
        rm -f "$began"
        echo "als: the build failed; what the prover said is above, and in $log" >&2
        exit 1
    fi
    rt version | cut -d ' ' -f 1 > "$kit"
    mv "$began" "$stamp"
}

case ${1-} in
    --version | -V) print_version ;;
esac
if is_stale; then
    answer "$@"
    build
fi
exec "$program" "$@"
