#!/usr/bin/env bash
# Does what README.md tells a reader to type. In this checkout: the run of the program that is built here, and what rt says of
# itself.
# With --first alone: the run without the proof, in a copy in which nothing is built.
# With --all besides: in a fresh clone a run without the proof, one that proves and builds first, and the programs
# of examples/; and in two fresh repositories of a user: a program over papaya, taken by tools/take and by tools/kit, which
# the user's own gate proves and runs. That takes hours where nothing was proved before.
set -euo pipefail
top="$(cd "$(dirname "${BASH_SOURCE[0]}")/.." && pwd)"
room="$(mktemp -d)"
trap 'rm -rf "$room"' EXIT
source "$top/tests/same.sh"

# The lines that are typed in, without what stands behind them: a run without the proof, and one with it.
typed="$(sed -n 's/^    \([^#]*[^# ]\) *#.*/\1/p' "$top/README.md")"
first="$(grep -x './papaya-run --unproved .*' <<<"$typed" || true)"
second="$(grep '^\./papaya-run ' <<<"$typed" | grep -v -e --unproved || true)"
same 'README has one run without the proof' 1 "$(grep -c . <<<"$first")"
same 'and the same run with it' "${first/--unproved /}" "$second"
answers=$'1: none\n0: none\n1: some 10'
same 'README says what they print' 1 "$(grep -cF "prints \`${answers//$'\n'/\`, \`}\`." "$top/README.md")"

# The program of docs/GUIDE.md, as a user's.
shop() {
    git init -q "$1"
    mkdir -p "$1/crates/shop"
    cp -a "$top/crates/shop/src" "$top/crates/shop/stdout" "$1/crates/shop"
    cp "$top/HANDLES" "$1/HANDLES"
    echo 'shop: papaya' >>"$1/crates.txt"
}

case "${1-}" in
    --first)
        mkdir "$room/copy"
        tar -C "$top" --exclude='crates/*/out' -cf - crates crates.txt HANDLES tools examples papaya-run | tar -C "$room/copy" -xf -
        silent 'nothing is built in the copy' find "$room/copy" -name out
        same "$first" "$answers" "$(cd "$room/copy" && bash -c "$first")"
        silent 'nothing is built by it' find "$room/copy" -name out
        ;;
    *)
        # Another script of the lines is the gate's or the reader's to run: it is there.
        while read -r _ script _; do
            same "$script is there" yes "$([[ -f "$top/$script" ]] && echo yes)"
        done < <(grep '^bash ' <<<"$typed")
        same 'the program is built' yes "$([[ -x "$top/crates/papaya_run/out/papaya_run" ]] && echo yes)"
        same "$second" "$answers" "$(cd "$top" && bash -c "$second")"
        # (another kit with the same logic may pass too)
        kit="$(rt version)"
        same 'the logic of README' 1 "$(grep -cF " ${kit#* }\`" "$top/README.md")"
        ;;
esac

if [[ "${1-}" == --all ]]; then
    git clone -q "$top" "$room/clone"
    for line in "$first" "$second"; do
        same "in a fresh clone: $line" "$answers" "$(cd "$room/clone" && bash -c "$line")"
    done
    same 'the programs of examples/ pass' 0 "$(bash "$room/clone/tests/examples.sh" >&2 && echo 0)"
    shop "$room/taken"
    "$room/clone/tools/take" "$room/taken"
    same 'a program over what was taken passes' 0 "$(cd "$room/taken" && rt ci >&2 && echo 0)"
    "$room/clone/tools/kit" "$room/kit"
    shop "$room/over"
    same 'a program over the kit passes' 0 "$(cd "$room/over" && "$room/kit/bin/rt" ci >&2 && echo 0)"
fi

told readme_commands.sh
