"""Runs the tests of the crates of tests/crates, which are not proved (unproved.py).

    python3 tests/run_tests.py FOLDER

The program of the tests stays in the folder. Each crate passes if its files are laid out, and each of its tests is run
and passes. Where RT_CI is the number of the process in which `rt ci` runs, the crates are compiled beside it, and the
tests run when it has ended: some of them tell times. The last line is `N passed, M failed`.
"""

import os
import re
import subprocess
import sys
import tempfile
import time

from prover import KIT, TOP, Bad, is_proving
from unproved import TESTS, TOGETHER, compiled, count, stop_on_layout, stop_on_lists

# The seconds that one test may take on a loaded machine.
MOST_SECONDS = 600

TALLY = re.compile(r"(\d+) passed[,;] (\d+) failed")


def ran(*words, **how):
    """How many passed and failed by the last tally that a command prints, and what it printed."""
    how = {"stdin": subprocess.DEVNULL, "cwd": TOP, **how}
    found = subprocess.run(words, stdout=subprocess.PIPE, stderr=subprocess.STDOUT, text=True, errors="replace", **how)
    tallies = TALLY.findall(found.stdout)
    passed, failed = map(int, tallies[-1]) if tallies else (0, 0)
    # (one that ended badly, or that counted nothing, has failed)
    return passed, max(failed, int(found.returncode != 0 or not passed)), found.stdout


def run(crate, room):
    """Runs the tests of a crate, whose program stands in the folder, of its own or with the tests of others."""
    words, own = [f"{KIT}/bin/rattle-test", "--seconds", str(MOST_SECONDS)], f"{room}/{crate}"
    words += [own] if os.path.exists(own) else ["--filter", f"{crate}::", f"{room}/{TOGETHER}"]
    with tempfile.TemporaryDirectory(dir=room) as empty:
        passed, failed, said = ran(*words, cwd=empty)
    # (a file that no other one names has tests that are not run)
    missing = count(crate) - passed - failed
    return passed, failed + max(missing, 0), f"{said}\n{missing} of its tests were not run" if missing else said


def make(crate, room):
    """Compiles the tests of a crate into a program in the folder."""
    if crate in TESTS:
        stop_on_layout(crate)
    compiled(crate, room)


def make_together(room):
    """Compiles the tests of all crates of tests/crates into one program in the folder."""
    stop_on_lists()
    for crate in TESTS:
        stop_on_layout(crate)
    compiled(TOGETHER, room)


def run_together(room):
    """Runs the tests of all crates of tests/crates: how many passed and failed, and what those of a crate printed where one failed."""
    passed, failed, said = 0, 0, []
    for crate in TESTS:
        well, badly, told = run(crate, room)
        passed, failed = passed + well, failed + badly
        said.append(f"{told[-4000:]}\n" * bool(badly) + f"{crate}: {well} passed, {badly} failed")
    return passed, failed, "\n".join(said)


def main(room):
    os.makedirs(room, exist_ok=True)
    try:
        make_together(room)
    except Bad as why:
        print(f"{why}\nrun_tests.py: 0 passed, 1 failed")
        return 1
    while is_proving():
        time.sleep(3)
    passed, failed, said = run_together(room)
    print(f"{said}\nrun_tests.py: {passed} passed, {failed} failed")
    return 1 if failed or not passed else 0


if __name__ == "__main__":
    sys.exit(main(sys.argv[1]))
