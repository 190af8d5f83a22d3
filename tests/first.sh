#!/usr/bin/env bash
# The first program of README.md: it is compiled and run without a proof, and prints what README says.
set -euo pipefail
top="$(cd "$(dirname "${BASH_SOURCE[0]}")/.." && pwd)"
room="$(mktemp -d)"
trap 'rm -rf "$room"' EXIT
source "$top/tests/same.sh"
"$top/tools/need-rt" first

# A repository with papaya's sources and the program.
git init -q "$room"
(cd "$top" && tar -c --exclude=out crates) | tar -x -C "$room"
mkdir -p "$room/crates/first/src"
cp "$top/HANDLES" "$room"
(cat "$top/crates.txt" && echo 'first: papaya') >"$room/crates.txt"
cp "$top/examples/first.rs" "$room/crates/first/src/main.rt"

same 'README says what it prints' 1 "$(grep -c 'It prints `Ok(2)`' "$top/README.md")"
same 'the first program prints it' 'Ok(2)' "$(cd "$room/crates/first" && rt try 2>"$room/said")"
told first.sh
