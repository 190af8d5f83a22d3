#!/usr/bin/env bash
# Runs papaya-run on the lines of runs.txt, and on long lists of calls (runs.py). The program is the one
# that `rt ci` has proved and built; where it is missing or stale, the script papaya-run builds it.
set -euo pipefail
top="$(cd "$(dirname "${BASH_SOURCE[0]}")/.." && pwd)"

"$top/papaya-run" seq block id </dev/null
python3 "$top/tests/runs.py" "$top/crates/papaya_run/out/papaya_run"
