#!/usr/bin/env bash
# Runs the tests that are not proved (run_tests.py), and leaves their programs in a folder.
set -euo pipefail
exec python3 -B "$(dirname "${BASH_SOURCE[0]}")/run_tests.py" "${1:?give a folder for the programs}"
