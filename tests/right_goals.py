"""The named goals of which edits.py --right has shown that their search is not too weak: tests/right_goals.txt.

A goal of a wrong body that is searched for has to be one that the same search proves of the right function; else any body
would be refused there. The file has a line for each such goal: the crate, the function, the goal's name, and a sum of what the
search looked at. That is the right function with its contract, its answers by hand, the goal, the searches, and the logic of the kit.
Comments are not in it, nor is the wrong body, nor what the function cites: `rt ci` proves the function over these. So a fresh clone has
what was shown, and a change elsewhere takes none of it away.
"""

import hashlib
import os
import threading

import goals
from prover import KIT, TOP
from standing import text_of

FILE = f"{TOP}/tests/right_goals.txt"
HEAD = """# The goals that edits name, and that the search for them proves of the right functions too: python3 tests/edits.py --right CRATE
# writes the lines of a crate (right_goals.py).
"""

# The lines that a run with --right has shown, by the crate.
SHOWN, ALONE = {}, threading.Lock()


def logic():
    """The logic of the kit, by its name."""
    words = text_of(f"{KIT}/KIT-ID").split()
    return words[words.index("logic") + 1]


def answers(folder):
    """The proofs by hand of a function, each file with its text."""
    found = [f"{at}/{name}" for at, _, names in os.walk(folder) for name in names]
    return [(os.path.relpath(it, folder), text_of(it)) for it in sorted(found)]


def line_of(crate, function, goal, right):
    """The line of a goal of this function, whose text is that of the sources."""
    folder = f"{TOP}/crates/{crate}/proofs/{function.replace('::', '/')}"
    # (its layout may change)
    code = " ".join(it for it in right.split("\n") if not it.strip().startswith("//")).split()
    read = repr((crate, function, goal, code, answers(folder), goals.SEARCHES, logic()))
    return f"{crate} {function} {goals.name_of(goal)} {hashlib.sha256(read.encode()).hexdigest()[:24]}"


def recorded():
    """The lines of the file."""
    lines = text_of(FILE).split("\n") if os.path.exists(FILE) else []
    return {it for it in lines if it and not it.startswith("#")}


def show(crate, line):
    """Notes that this run has shown what the line says."""
    with ALONE:
        SHOWN.setdefault(crate, set()).add(line)


def record(crates, wanted):
    """Writes the lines that this run has shown. Of these crates those that no edit wants any more are removed."""
    kept = {it for it in recorded() if it in wanted or it.split()[0] not in crates}
    lines = sorted(kept.union(*SHOWN.values()))
    with open(FILE, "w", encoding="utf-8") as it:
        it.write(HEAD + "".join(f"{line}\n" for line in lines))
