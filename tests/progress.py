"""Says what the gate will take and, each minute, what of it is done (.ci/run).

    python3 tests/progress.py ROOM

ROOM holds what the gate's parts print, in files of their names, and the name of the part that goes on in `now`.
"""

import glob
import os
import re
import sys
import time

TOP = os.path.dirname(os.path.dirname(os.path.abspath(__file__)))


def recorded():
    """What the last run on record took, by docs/GATE.md: minutes by the clock, processors, minutes of one."""
    with open(f"{TOP}/docs/GATE.md", encoding="utf-8") as it:
        found = re.search(r"^On record: (\d+) minutes by the clock on (\d+) processors, (\d+) of one", it.read(), re.M)
    return [int(it) for it in found.groups()] if found else None


def told_first():
    """What the gate will take: the same work on fewer processors, or as long a chain on more."""
    record, here = recorded(), len(os.sched_getaffinity(0))
    if not record:
        return "gate: docs/GATE.md has no run on record"
    clock, processors, work = record
    likely = clock if here >= processors else clock * processors // here
    return (
        f"gate: the run on record took {clock} minutes by the clock on {processors} processors, {work} of one, from nothing. "
        f"Here are {here}: some {likely} minutes on such a machine, less where something is kept of earlier runs"
    )


def text_of(path):
    """What a part has printed so far."""
    try:
        with open(path, encoding="utf-8", errors="replace") as it:
            return it.read()
    except OSError:
        return ""


def crates():
    """The crates of crates.txt."""
    with open(f"{TOP}/crates.txt", encoding="utf-8") as it:
        return re.findall(r"^(\w+) *:", it.read(), re.M)


def refused(room, what):
    """How many edits, or twins, are refused so far."""
    return len(re.findall(r"^\w+: \S+: refused", text_of(f"{room}/{what}"), re.M))


def tests(room):
    """Are the tests compiled?"""
    return any(os.path.isfile(it) for it in glob.glob(f"{room}/programs/*_tests"))


def done(room, every):
    """How much of each kind is done, and the crates that are begun."""
    proved = set(re.findall(r"^rt: (\w+)(?: proved$| is kept:)", text_of(f"{room}/proofs"), re.M))
    parts = [f"{len(proved)} of {len(every)} crates proved"]
    for what, files in [("edits", "crates/*/must-fail-together"), ("twins", "tests/twins")]:
        parts.append(f"{refused(room, what)} of {len(glob.glob(f'{TOP}/{files}/*.edit'))} {what} refused")
    parts.append(f"tests {'' if tests(room) else 'not yet '}compiled")
    # (rt ci takes away what is built before it begins)
    return parts, [it for it in every if it not in proved and os.path.isdir(f"{TOP}/crates/{it}/out")]


def main(room):
    print(told_first(), flush=True)
    began, every = time.time(), crates()
    while True:
        time.sleep(60)
        parts, begun = done(room, every)
        now = text_of(f"{room}/now").strip() or "proofs"
        names = f": {' '.join(begun)}" if now == "proofs" and begun else ""
        print(f"gate: {(time.time() - began) / 60:.0f} min: {'; '.join(parts)}; going on: {now}{names}", flush=True)


if __name__ == "__main__":
    sys.exit(main(sys.argv[1]))
