# shellcheck shell=bash disable=SC2154
# What the programs of examples/ share. A script that sources this has set what tools/programs.sh asks for, and calls
# `run_example` with its arguments.
source "$top/tools/programs.sh"

# What each usage ends with.
usage_of_build() {
    cat <<END

The first run proves and builds the program, several crates at a time, which can take an hour or two. Where a source is
newer than the program, it is built again. With --unproved nothing is proved: the program is compiled for this run
alone, in one to two minutes of a processor. It is built with checks then, so it is slow. It prints when it has ended,
and is stopped after 60 seconds or at 1 MiB of output. For more, leave --unproved out.
END
}

# Says where a text is no UTF-8, which the program cannot read.
hint() {
    local first
    grep -qx "$name: input failed" "$2" || return 0
    first="$(given_again | python3 -c '
import sys
try:
    sys.stdin.buffer.read().decode()
except UnicodeDecodeError as error:
    print(error.start + 1)')" || true
    [[ -z "$first" ]] || say "the text is no UTF-8, from its byte $first on: iconv makes UTF-8 of other texts"
}

run_example() {
    local how="${1-}"
    [[ "$how" != --unproved ]] || shift
    case "${1-}" in
        --help | -h)
            usage
            usage_of_build
            exit 0
            ;;
    esac
    if [[ $# != 0 ]]; then
        say "bad arguments"
        say "for what it takes: examples/$name --help"
        exit 2
    fi
    [[ "$how" != --unproved ]] || run_unproved
    list_crates "$crate"
    if ! is_fresh; then
        "$top/tools/need-rt" "$name"
        if is_near; then
            say "proving and building the program over libraries that are built here; without the proof: examples/$name --unproved"
        else
            say "proving and building ${#crates[@]} crates; without the proof: examples/$name --unproved"
        fi
        "$top/tools/program" "$crate" "$name" </dev/null
        touch "$program"
    fi
    run_built
}
