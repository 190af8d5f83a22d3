#!/usr/bin/env bash
# Runs all tests, or those of the crates that are named, without any proof, on programs that are compiled for this run
# alone (quick.py).
set -euo pipefail
top="$(cd "$(dirname "${BASH_SOURCE[0]}")/.." && pwd)"
"$top/tools/need-rt" quick
source "$top/tests/end.sh"
room="$(mktemp -d)"
python3 -B "$top/tests/quick.py" "$room" "$@" &
trap 'end "$!"; rm -rf "$room"' EXIT
trap 'exit 130' INT TERM
wait "$!"
