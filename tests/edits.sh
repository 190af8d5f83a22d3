#!/usr/bin/env bash
# Tries the edits of crates/*/must-fail-together, several in one copy of their crate (edits.py).
set -euo pipefail
exec python3 -B "$(dirname "${BASH_SOURCE[0]}")/edits.py"
