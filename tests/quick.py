"""Runs the tests without any proof, on programs that are compiled for this run alone (unproved.py).

    bash tests/quick.sh [CRATE..]

The parts: the crates of tests, each program on its files stdin and stdout, the runs of papaya-run, the tests with
requests for memory refused to them, the programs of examples/, and what the scripts say themselves. With names: these
crates of tests and programs alone. Nothing is proved, and no wrong body is tried: that is the gate, .ci/run. The last
line is `N passed, M failed`.
"""

import os
import resource
import subprocess
import sys
import threading
import time
from concurrent.futures import ThreadPoolExecutor

from prover import NAMED, TOP, Bad, lanes
from run_tests import MOST_SECONDS, make, make_together, ran, run, run_together
from unproved import EVERY, compiled, count, files_of, is_program

# The memory that one crate takes to compile, in kB.
EACH = 1_500_000


def run_tests(room, crate):
    """Compiles and runs the tests of a crate."""
    make(crate, room)
    return run(crate, room)


def run_unproved(room):
    """Compiles and runs the tests of all crates of tests/crates."""
    make_together(room)
    return run_together(room)


def run_program(room, crate):
    """Compiles a program, and runs it as its files say."""
    program, files = compiled(crate, room), {}
    for name in ("args", "stdin", "stdout"):
        path = f"{TOP}/crates/{crate}/{name}"
        files[name] = open(path, "rb").read() if os.path.exists(path) else b""
    words = [program, *files["args"].decode().split("\n")[:-1]]
    found = subprocess.run(words, input=files["stdin"], capture_output=True, timeout=MOST_SECONDS)
    is_well = (found.returncode, found.stdout) == (0, files["stdout"])
    return int(is_well), int(not is_well), f"ended with {found.returncode}: {(found.stdout + found.stderr)[-2000:]!r}"


class Parts:
    """The parts, what goes on, and what has ended."""

    def __init__(self, total):
        self.total, self.passed, self.failed, self.ended = total, 0, 0, 0
        self.alone, self.going, self.begun = threading.Lock(), [], time.time()

    def say(self, text):
        """Says something with the time, and how many parts are done."""
        print(f"quick: {time.time() - self.begun:4.0f} s, {self.ended} of {self.total} parts done: {text}", flush=True)

    def do(self, name, call, *given):
        """Does one part, and says how it ended."""
        with self.alone:
            self.going.append(name)
        try:
            passed, failed, said = call(*given)
        except (Bad, OSError, subprocess.SubprocessError) as why:
            passed, failed, said = 0, 1, str(why)
        with self.alone:
            self.going.remove(name)
            self.passed, self.failed, self.ended = self.passed + passed, self.failed + failed, self.ended + 1
            self.say(f"{name}: {passed} passed, {failed} failed")
            if failed:
                print(said[-4000:], file=sys.stderr, flush=True)

    def watch(self):
        """Says every half minute what goes on."""
        while True:
            time.sleep(30)
            with self.alone:
                self.say(f"going on: {', '.join(self.going)}")


def size(crate):
    """How many bytes the sources of a crate have."""
    return sum(map(os.path.getsize, files_of(crate)))


def crates_alone(room, names):
    """The parts of these crates: first the longest crates of tests, which take longest."""
    parts = [(it, run_tests, room, it) for it in sorted(filter(count, names), key=lambda it: -size(it))]
    return parts + [(it, run_program, room, it) for it in filter(is_program, names)]


def side_by_side(room):
    """The parts that go on beside each other."""
    parts = [("tests/crates", run_unproved, room), *crates_alone(room, NAMED)]
    for name in ("papaya_run.sh", "readme_code.sh", "first.sh", "take.sh", "kit.sh", "proofs_pack.sh"):
        parts.append((name, ran, "bash", f"{TOP}/tests/{name}"))
    parts.append(("checks.py", ran, "python3", "-B", f"{TOP}/tests/checks.py"))
    return [*parts, ("tools/chart", ran, f"{TOP}/tools/chart", "--check")]


def one_by_one(room):
    """The parts over these programs: each uses all processors itself, or tells times."""
    runs = ["python3", "-B", f"{TOP}/tests/runs.py", f"{room}/papaya_run"]
    refused = ["python3", "-B", f"{TOP}/tests/refused.py", "--programs", room]
    examples = ["bash", f"{TOP}/tests/examples.sh", room]
    return [("runs.py", ran, *runs), ("refused.py", ran, *refused), ("examples.sh", ran, *examples)]


def do_all(told, parts, at_once):
    """Does these parts, so many at once."""
    with ThreadPoolExecutor(at_once) as pool:
        for it in [pool.submit(told.do, *it) for it in parts]:
            it.result()


def main(room, *names):
    if lost := [it for it in names if it not in EVERY]:
        print(f"quick: there is no crate {' '.join(lost)}", file=sys.stderr)
        return 2
    first = crates_alone(room, names) if names else side_by_side(room)
    last, at_once = [] if names else one_by_one(room), lanes(EACH)
    parts = Parts(len(first) + len(last))
    threading.Thread(target=parts.watch, daemon=True).start()
    parts.say(f"nothing is proved in this run, and {at_once} parts go on at once")
    do_all(parts, first, at_once)
    do_all(parts, last, 1)
    used = resource.getrusage(resource.RUSAGE_CHILDREN)
    parts.say(f"in all {used.ru_utime + used.ru_stime:.0f} s of one processor")
    print(f"{parts.passed} passed, {parts.failed} failed")
    return 1 if parts.failed or not parts.passed else 0


if __name__ == "__main__":
    sys.exit(main(*sys.argv[1:]))
