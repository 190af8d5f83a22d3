"""Runs `rt ci`, and shares the processors among its proofs so that the longest chain of crates never waits.

    python3 tests/proofs.py
    python3 tests/proofs.py --take LOG
    python3 tests/proofs.py --simulate PROCESSORS GB

What is proved, built, run and printed is that of `rt ci`, and so is the status. Only when a proof begins and how many
processors it gets is decided here. `rt ci` gives each proof that can begin one processor, also beside those that end in a
minute, and begins none for which its reckoning, two to three times what a proof uses, finds no memory. Here a crate of the
longest chain gets half of the processors even if others run there, each other crate one and what is idle, and the reckoning is
halved. Which chain is longest is told by tests/minutes.txt. A kit whose `rt ci` has other parts than those that are replaced here runs as
it is, and so does one for which RT_JOBS is set.

Before the last line stands a table: what each crate took, with all processes that its proof started. --take writes its minutes into
tests/minutes.txt, from a file with the output of a run in which nothing was kept. --simulate says how long the proofs are likely to take
with so many processors and so much memory, if nothing else runs.
"""

import builtins
import importlib.machinery
import importlib.util
import inspect
import os
import re
import subprocess
import sys
import threading
import time
from concurrent.futures import FIRST_COMPLETED, Future, ThreadPoolExecutor, wait

TOP = os.path.dirname(os.path.dirname(os.path.abspath(__file__)))

# How much of the memory that `rt ci` reckons with for one job a proof takes at most, and each further job of it.
USED, FURTHER = 0.5, 0.6

# The minutes of each crate, and how many a proof takes at least for which more than one job pays.
MINUTES, SHORT = f"{TOP}/tests/minutes.txt", 0.5


def module(name, path):
    """A script without the ending .py, as a module."""
    loader = importlib.machinery.SourceFileLoader(name, path)
    made = importlib.util.module_from_spec(importlib.util.spec_from_loader(name, loader))
    loader.exec_module(made)
    return made


def minutes():
    """The minutes of one processor that a crate took by the last run from nothing. Without the file none is known."""
    if not os.path.exists(MINUTES):
        return {}
    with open(MINUTES, encoding="utf-8") as it:
        return {name: float(number) for name, number in re.findall(r"^(\w+) ([\d.]+)$", it.read(), re.M)}


def works(tasks, known):
    """The minutes that each task is likely to take. A crate that is not known counts by its lines, as those that are."""
    lines = {key: it[1] for key, it in tasks.items()}
    both = [(known[name], lines[name, kind]) for name, kind in tasks if kind == "proof" and name in known]
    each = sum(it for it, _ in both) / max(sum(it for _, it in both), 1) or 1
    return {key: known.get(key[0], each * it) if key[1] == "proof" else each * it for key, it in lines.items()}


class Lanes:
    """The tasks of a run. Each is what it waits for, its lines, its memory, and its call, as `rt ci` has them."""

    def __init__(self, tasks, processors, memory, known):
        self.tasks, self.processors, self.memory = tasks, processors, memory
        self.work = works(tasks, known)
        self.running, self.given = {}, {}
        # (a task comes after those that it waits for)
        self.behind = {it: 0 for it in tasks}
        for key in reversed([*tasks]):
            self.behind[key] += self.work[key]
            for it in tasks[key][0]:
                self.behind[it] = max(self.behind[it], self.behind[key])
        self.left = sorted(tasks, key=lambda it: -self.behind[it])

    def needs(self, key, jobs):
        """The memory that a task takes with as many jobs."""
        return USED * self.tasks[key][2] * (1 + FURTHER * (jobs - 1))

    def is_on_longest(self, key):
        """Does as much wait for this task, nearly, as for any that has not ended?"""
        longest = max(self.behind[it] for it in [*self.left, *(it for it, _ in self.running.values())])
        return self.behind[key] >= 0.8 * longest

    def jobs(self, key, idle, others):
        """How many jobs a task gets, where so many processors are idle and so many others can begin. A crate of the longest chain
        gets its share whatever runs beside it, since what it gets it keeps: its jobs wait until others have ended."""
        if key[1] == "edits" or self.work[key] < SHORT:
            return 1
        share = self.processors // 2 if self.is_on_longest(key) else 1
        return max(1, min(4, max(share, idle - others)))

    def begin(self, pool):
        """Begins the tasks that can begin, those first for which most waits."""
        ready = [it for it in self.left if all(below in self.given for below in self.tasks[it][0])]
        for at, key in enumerate(ready):
            idle = self.processors - sum(jobs for _, jobs in self.running.values())
            room = self.memory - sum(self.needs(*it) for it in self.running.values())
            # (a crate without tests or edits has a task for them, which is none)
            jobs = self.jobs(key, idle, sum(self.work[it] > 0 for it in ready[at + 1 :]))
            while jobs > 1 and self.needs(key, jobs) > room:
                jobs -= 1
            if idle > 0 and (not self.running or self.needs(key, jobs) <= room):
                self.left.remove(key)
                self.running[pool.submit(self.tasks[key][3], self.given, jobs)] = key, jobs

    def run(self, pool, ended):
        """Does all tasks in a pool, and waits by `ended` until some have."""
        while self.left or self.running:
            self.begin(pool)
            for it in ended(self.running):
                self.given[self.running.pop(it)[0]] = it.result()
        return self.given


class Measured(subprocess.Popen):
    """A process that is waited for by wait4, which tells what it and all took that it has waited for itself: the copies that share a
    proof too."""

    used, alone = {}, threading.Lock()

    def __init__(self, *given, **named):
        self.begun = time.monotonic()
        super().__init__(*given, **named)

    def _try_wait(self, wait_flags):
        try:
            pid, status, used = os.wait4(self.pid, wait_flags)
        except ChildProcessError:
            return self.pid, 0
        if pid == self.pid:
            self.note(used)
        return pid, status

    def note(self, used):
        """Adds what the process took to its crate, if it is one of the prover's."""
        words = self.args if isinstance(self.args, list) else []
        if "--crate-name" in words:
            name = words[words.index("--crate-name") + 1]
            jobs = int(words[words.index("--jobs") + 1]) if "--jobs" in words else 1
            with self.alone:
                clock, most, work, memory = self.used.get(name, (0, 1, 0, 0))
                work += used.ru_utime + used.ru_stime
                self.used[name] = (clock + time.monotonic() - self.begun, max(most, jobs), work, max(memory, used.ru_maxrss))

    @classmethod
    def table(cls):
        """What each crate took, as docs/GATE.md has it."""
        rows = sorted(cls.used.items(), key=lambda it: -it[1][2])
        head = ["| Crate | By the clock | Jobs | Of one processor | GB |", "|---|---|---|---|---|"]
        rows = [f"| `{name}` | {clock / 60:.1f} | {jobs} | {work / 60:.1f} | {memory / 1e6:.2f} |" for name, (clock, jobs, work, memory) in rows]
        whole = sum(work for _, _, work, _ in cls.used.values()) / 60
        return "\n".join([*head, *rows, f"rt ci: {len(rows)} crates proved and compiled in {whole:.1f} minutes of one processor"])


TALLY = re.compile(r"\d+ passed, \d+ failed")


def measure(rt):
    """Has rt's processes measured, and the table printed before its last line."""

    def said(*words, **how):
        if len(words) == 1 and TALLY.fullmatch(str(words[0])):
            builtins.print(Measured.table(), flush=True)
        builtins.print(*words, **how)

    if hasattr(subprocess.Popen, "_try_wait"):
        subprocess.Popen, rt.print = Measured, said


def take(log):
    """Writes the minutes of the table in a log into tests/minutes.txt. A crate that is not in it keeps what it has."""
    with open(log, encoding="utf-8", errors="replace") as it:
        found = dict(re.findall(r"^\| `(\w+)` \| [\d.]+ \| \d+ \| ([\d.]+) \| [\d.]+ \|$", it.read(), re.M))
    if not found:
        sys.exit(f"proofs: {log} has no table of crates")
    with open(MINUTES, encoding="utf-8") as it:
        head = [line for line in it if line.startswith("#")]
    known = {**minutes(), **{name: float(number) for name, number in found.items()}}
    rows = [f"{name} {number:g}\n" for name, number in sorted(known.items(), key=lambda it: -it[1])]
    with open(MINUTES, "w", encoding="utf-8") as it:
        it.writelines([*head, *rows])


class Simulated:
    """The tasks of a run by a clock of its own: two jobs share a proof in 0.6 of its time, and four in 0.38."""

    SPEEDS = {1: 1, 2: 1 / 0.6, 3: 1 / 0.46, 4: 1 / 0.38}

    def __init__(self, processors, work):
        self.processors, self.work, self.now, self.going, self.jobs = processors, work, 0.0, {}, {}

    def submit(self, call, given, jobs):
        """Begins a task, as a pool of threads does. Its call is its key."""
        made = Future()
        self.going[made], self.jobs[made] = self.work[call], jobs
        return made

    def wait(self, _):
        """Goes on to when the next one ends. More jobs than there are processors go slower, all alike."""
        busy = sum(self.jobs[it] for it, left in self.going.items() if left > 0)
        slow = min(1, self.processors / max(busy, 1))
        speeds = {it: slow * self.SPEEDS[self.jobs[it]] for it in self.going}
        step = min(left / speeds[it] for it, left in self.going.items())
        self.now += step
        self.going = {it: left - step * speeds[it] for it, left in self.going.items()}
        done = [it for it, left in self.going.items() if left < 1e-9]
        for it in done:
            del self.going[it]
            it.set_result(True)
        return done


def simulate(processors, memory):
    """Prints what the proofs of this repository are likely to take."""
    prove = module("prove", f"{TOP}/tools/prove")
    rt, tasks = prove.rt_itself(), {}
    for it in sorted(prove.crates_in(rt, TOP).values(), key=lambda it: len(it.below())):
        key = it.name, "proof"
        tasks[key] = ([(below.name, "proof") for below in it.below()], it.count(rb"\n"), rt.need(it), key)
    lanes = Lanes(tasks, processors, 0.85 * memory, minutes())
    clock = Simulated(processors, lanes.work)
    lanes.run(clock, clock.wait)
    print(f"{clock.now:.0f} minutes by the clock for {sum(lanes.work.values()):.0f} of one processor")
    return 0


def main(words):
    if words[:1] == ["--take"]:
        return take(words[1])
    if words[:1] == ["--simulate"]:
        return simulate(int(words[1]), 1e9 * float(words[2]))
    rt = module("prove", f"{TOP}/tools/prove").rt_itself()
    measure(rt)
    parts = [getattr(rt, it, None) for it in ("in_lanes", "processors", "free")]
    if all(map(callable, parts)) and [*inspect.signature(rt.in_lanes).parameters] == ["tasks"] and not os.environ.get("RT_JOBS"):
        as_it_is = rt.in_lanes

        def in_lanes(tasks):
            if any(len(it) != 4 for it in tasks.values()):
                return as_it_is(tasks)
            with ThreadPoolExecutor(rt.processors()) as pool:
                ended = lambda running: wait(running, return_when=FIRST_COMPLETED).done
                return Lanes(tasks, rt.processors(), 0.85 * rt.free(), minutes()).run(pool, ended)

        rt.in_lanes = in_lanes
    return rt.main(["ci"])


if __name__ == "__main__":
    sys.exit(main(sys.argv[1:]))
