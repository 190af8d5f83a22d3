#!/usr/bin/env bash
# Tries the wrong machines of tests/twins, which the laws have to refuse (twins.py).
set -euo pipefail
exec python3 -B "$(dirname "${BASH_SOURCE[0]}")/twins.py"
