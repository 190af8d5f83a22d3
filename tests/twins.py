"""Tries the wrong machines of tests/twins: each changes a machine and the definition that its contract
equals alike. So the machine's function is still proved, and it is a law of papaya_call_law or of
papaya_call_alone that has to refuse it, or what a state of the machine may be.

    python3 tests/twins.py [TWIN..]

A twin has the lines of an edit in must-fail/, with files below crates/, and two before them: `law:`, the law
that refuses it, and `fn:`, the machine's function, or several. Twins share a copy of the crates where none changes
what the law of another says: one of a call on one table goes with one of a copier, or with one of a scan. The laws
of copiers and of scans say nothing of such calls, nor the laws of such calls of them. One of a copier and one of a
scan stay apart, since a scan ends copies. A copy whose twins an earlier run on this machine saw refused, over all
that it reads, is not tried again.
"""

import os
import re
import sys
from itertools import zip_longest

from kept import Try
from prover import LOST, TOP, Bad, Change, below, check, copy_of, digest, entries_of, try_all, verdicts_of


def is_refused(said, law):
    """Is the law refused, and for more than a name?"""
    told = r"(\./)?proofs/\S+: error: |note: (\./)?src/\S+: it is not proved that "
    errors = [it for it in entries_of(said) if re.match(told, it) and not LOST.search(it)]
    return verdicts_of(said).get(law) in ("not proved", "no proof") and bool(errors)


def crates_of(twins):
    """The highest crate of these twins' laws, and those below it that are changed or stand on a changed one."""
    top = max((it.words["law"].split("::")[0] for it in twins), key=lambda it: len(below(it)))
    changed = {file.split("/")[0] for it in twins for file, _, _ in it.pairs}
    return top, [it for it in below(top) if changed & {it, *below(it)}]


def needs(*twins):
    """The crates whose libraries a copy of these twins needs."""
    top, read = crates_of(twins)
    return [it for it in below(top) if it not in read]


def try_copy(room, *twins):
    """Makes these twins in one copy, and checks their machines and their laws."""
    laws = [it.words["law"] for it in twins]
    top, read = crates_of(twins)
    for crate in [top, *read]:
        copy_of(crate, f"{room}/{crate}")
    for twin in twins:
        twin.apply(room)
    kept = Try("twins", room, top, read, [(it.name, it.words, it.pairs) for it in twins])
    if kept.refused_earlier():
        return [f"{it}, by an earlier run" for it in kept.refused_earlier()]
    machines = [it.words["fn"].split() for it in twins]
    said = check(room, top, read, [it.removeprefix(f"{top}::") for it in [*laws, *sum(machines, [])]])
    for twin, law, of_twin in zip(twins, laws, machines):
        if any(verdicts_of(said).get(it) != "proved" for it in of_twin):
            raise Bad(f"{twin.name}: BAD TWIN: its machine is not proved\n{digest(said)}")
        if not is_refused(said, law):
            raise Bad(f"{twin.name}: NOT REFUSED by the law {law}\n{digest(said)}")
    told = [f"{it.name}: refused by the law {it.words['law']}" for it in twins]
    kept.keep(told)
    return told


def copies_of(twins):
    """The twins, by their copies."""
    calls = [it for it in twins if re.match(r"papaya_call_law::(relies|alone)::", it.words["law"])]
    # (copies have searches too)
    calls = [it for it in calls if not any(re.search("[Ss]earch", file) for file, _, _ in it.pairs)]
    others = [it for it in twins if re.match(r"papaya_call_law::(copies|scanners)::", it.words["law"])]
    others.sort(key=lambda it: it.words["law"])
    pairs = [[it for it in pair if it] for pair in zip_longest(calls, others)]
    return pairs + [[it] for it in twins if it not in calls and it not in others]


def main(names):
    folder = f"{TOP}/tests/twins"
    try:
        twins = [Change(f"{folder}/{it}") for it in sorted(os.listdir(folder)) if not names or it.removesuffix(".edit") in names]
        for it in twins:
            if not {"law", "fn"} <= it.words.keys():
                raise Bad(f"{it.name}: it has no `law:` and `fn:`")
    except Bad as why:
        print(f"twins: {why}", file=sys.stderr)
        return 1
    return 0 if try_all("twins", copies_of(twins), needs, try_copy) else 1


sys.exit(main(sys.argv[1:]))
