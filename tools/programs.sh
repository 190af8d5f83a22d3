# shellcheck shell=bash disable=SC2154
# What papaya-run and the programs of examples/ share. A script that sources this has set `top`, the repository; `crate`,
# the program's crate; `name`, what it calls itself; and the functions `usage` and `hint`.
program="$top/crates/$crate/out/$crate"

# A word of the script's own.
say() {
    printf '%s: %s\n' "$name" "$1" >&2
}

# The repository's crates that this one stands on, the lowest first, and then itself.
declare -A listed=()
crates=()
list_crates() {
    [[ -z "${listed[$1]-}" ]] || return 0
    listed[$1]=1
    local below
    for below in $(sed -n "s/^$1\( [^:]*\)\{0,1\}://p" "$top/crates.txt"); do
        [[ ! -d "$top/crates/$below" ]] || list_crates "$below"
    done
    crates+=("$1")
}

# Is there a program that is newer than every source?
is_fresh() {
    [[ -x "$program" ]] || return 1
    local one part folders=("$top/crates.txt")
    for one in "${crates[@]}"; do
        for part in src specs proofs; do
            [[ ! -d "$top/crates/$one/$part" ]] || folders+=("$top/crates/$one/$part")
        done
    done
    [[ -z "$(find "${folders[@]}" -type f -newer "$program" -print -quit)" ]]
}

# Is all that the program stands on built here?
is_near() {
    local lacking
    lacking="$("$top/tools/proofs" lacks "$crate" 2>/dev/null)" && [[ -z "$lacking" ]]
}

# The files that libraries of these crates came from.
files_brought() {
    local one
    for one in "${crates[@]}"; do
        cat "$top/crates/$one/out/rlib/brought" 2>/dev/null || true
    done | sort -u
}

# Where standard input is a file, the byte of it at which the program begins to read. The script can look there
# again. What comes by a pipe or a terminal goes to the program alone.
from=""
[[ ! -f /dev/stdin ]] || from="$(sed -n 's/^pos:[[:space:]]*//p' /proc/self/fdinfo/0)"
given_again() {
    tail -c "+$((from + 1))" /dev/stdin 2>/dev/null
}

# Passes on what a run has said, and ends with its status. `hint STATUS SAID` may say more of a file.
end_run() {
    cat "$2" >&2
    [[ "$1" == 0 || -z "$from" ]] || hint "$1" "$2"
    rm -rf "$room"
    exit "$1"
}

# Runs the program that was built: in the place of the script, where there is nothing to say of its input.
run_built() {
    [[ -n "$from" ]] || exec "$program" "$@"
    local status=0
    room="$(mktemp -d)"
    trap 'rm -rf "$room"' EXIT
    "$program" "$@" 2>"$room/said" || status=$?
    end_run "$status" "$room/said"
}

# Compiles the program for this run alone, and says of it what the program says.
run_unproved() {
    local status=0
    "$top/tools/need-rt" "$name"
    say "nothing is proved in this run: the program is compiled for it, in one to two minutes of a processor"
    say "it is built with checks, so it is slow; it is stopped after 60 seconds, or at 1 MiB of output"
    room="$(mktemp -d)"
    trap 'rm -rf "$room"' EXIT
    (cd "$top/crates/$crate" && exec rt try -- "$@") 2>"$room/told" || status=$?
    # What rt says of the run is of interest only where the program did not end.
    if grep -q '^run=ended ' "$room/told"; then
        sed -i -E '/^(checked|interpreter|races): |^run=ended /d' "$room/told"
    fi
    if [[ "$status" == 6 ]]; then
        cat "$room/told" >&2
        say "it was stopped: give it less input, or leave out --unproved, which proves and builds the fast program once"
        exit 6
    fi
    end_run "$status" "$room/told"
}
