"""Tries the edits of crates/*/must-fail-together: wrong bodies that the check must refuse, many in one copy
of their crate.

    python3 tests/edits.py [--right] [CRATE..]

An edit has the lines of those in must-fail/, and before them `fn:`, the function that it spoils, as a check names
it below its crate. In the copy the spoiled function stands beside the right one, under a name of its own, with the
same contract and the same answers by hand. So nothing calls it, and a function may have many edits. A method of a
trait and a function whose whole proof is by hand can stand there but once: these are spoiled themselves, and no
other function that is tried may call them. A copy's check looks at the spoiled functions, and takes what they call at
its word (standing.py): `rt ci` proves that. Each of them has to be refused at a goal of its own, and methods of traits
that they call be proved.

`goal:` names the goal at which the wrong body is refused, as a check offers it: `returns-in-Some c`. The prover searches
for a proof of this goal alone (goals.py). Without `goal:` it searches for each, and then the line to add is printed.

An edit of which that cannot be said is tried once more, without `goal:`, and then beside the proofs of what its function
calls. A copy whose edits an earlier run on this machine saw refused, over all that it reads, is not tried again.

With --right the right functions stand in place of the wrong ones: the same search has to find a proof of the named goal.
So what refuses the wrong body is not that the search is too weak. Do it when you name a goal: tests/right_goals.txt keeps what
it showed (right_goals.py), and an edit fails that names a searched goal without a line there. One whose right function does not have the
goal can name none.
"""

import os
import re
import shutil
import sys
from enum import Enum

import goals
import right_goals
from kept import Try
from prover import LOST, NAMED, TOP, Bad, Change, below, check, copy_of, digest, entries_of, try_all, verdicts_of
from standing import is_of_trait, take_at_word, text_of

TOGETHER = "must-fail-together"

# What a check with holes says of a function that is proved, or would be without them.
STANDS = ("no holes", "depends on a hole")

# So many edits at most are made in one copy: a check of more would keep one processor long after all else.
AT_ONCE = 30


def extents(lines, name):
    """From which line to which each function of this name stands, with its attributes."""
    found = []
    for head, line in enumerate(lines):
        if re.match(rf" *(pub(\(.*?\))? )?(const )?fn {name}\b", line):
            indent = line[: len(line) - len(line.lstrip())]
            last = head if line.endswith("}") else lines.index(indent + "}", head)
            while re.match(r" *(#\[|///)", lines[head - 1]):
                head -= 1
            found.append((head, last))
    return found


class Edit(Change):
    """A wrong body of a function of a crate."""

    def __init__(self, crate, name):
        super().__init__(f"{TOP}/crates/{crate}/{TOGETHER}/{name}")
        if "fn" not in self.words or len({file for file, _, _ in self.pairs}) > 1:
            raise Bad(f"{crate}/{self.name}: it has no `fn:`, or changes two files")
        self.file = self.pairs[0][0]
        # (as a check names it below the copy)
        self.function = self.words["fn"]
        self.is_wrong, self.may_name = True, False

    def short(self):
        """The last part of the function's name in the copy."""
        return self.function.rpartition("::")[2]

    def goal(self):
        """The goal at which the edit has to be refused, as a check offers it, or nothing."""
        return self.words.get("goal", "")

    def is_searched(self, crate):
        """Does it name a goal that is searched for, and has no answer by hand?"""
        folder = f"{TOP}/crates/{crate}/proofs/{self.function.replace('::', '/')}"
        return bool(self.goal()) and not goals.has_answer(folder, self.goal())

    def right(self, source):
        """The right function in these sources, and the line at which it begins."""
        text = text_of(f"{source}/{self.file}")
        lines, old = text.split("\n"), self.pairs[0][1]
        line = text[: text.find(old)].count("\n")
        stands = [it for it in extents(lines, self.short()) if it[0] <= line <= it[1]]
        if text.count(old) != 1 or not stands:
            raise Bad(f"{self.name}: {self.file} has this text {text.count(old)} times, and not once in its function: {old}")
        first, last = stands[0]
        return "\n".join(lines[first : last + 1]), first

    def shown(self, crate):
        """The line that says that the search for its named goal proves that of the right function."""
        return right_goals.line_of(crate, self.function, self.goal(), self.right(f"{TOP}/crates/{crate}")[0])

    def make(self, source, copy, number):
        """Makes the change in a copy of these sources: in a function of its own with this number, where it can."""
        right, first = self.right(source)
        by_hand = os.path.exists(f"{source}/proofs/{self.function.replace('::', '/')}/Proof.antt")
        if by_hand or is_of_trait(text_of(f"{source}/{self.file}").split("\n"), first):
            return self.apply(copy)
        return self.make_beside(copy, right, number)

    def make_beside(self, copy, right, number):
        """Puts the spoiled function behind the right one."""
        name, wrong = f"{self.short()}_spoiled_{number}", right
        # (one that lists lemmas for its searches is searched as it says)
        self.may_name = "tactic(" not in right.partition(f"fn {self.short()}")[0]
        for _, old, new in self.pairs:
            if wrong.count(old) != 1:
                raise Bad(f"{self.name}: its function has this text {wrong.count(old)} times, and not once: {old}")
            wrong = wrong.replace(old, new) if self.is_wrong else wrong
        wrong = re.sub(rf"\bfn {self.short()}\b", f"fn {name}", wrong, count=1)
        text = open(f"{copy}/{self.file}", encoding="utf-8").read()
        with open(f"{copy}/{self.file}", "w", encoding="utf-8") as it:
            it.write(text.replace(right, f"{right}\n\n{wrong}", 1))
        self.copy_answers(f"{copy}/proofs", name)
        self.function = self.function.rpartition("::")[0] + f"::{name}"

    def copy_answers(self, proofs, name):
        """Gives the spoiled function the answers by hand of the right one, and its closures theirs."""
        parts = self.function.split("::")
        # (those of closures lie below a folder `fn` of the module)
        for own in [parts, *(parts[:at] + ["fn"] + parts[at:] for at in range(len(parts)))]:
            folder, other = "/".join(own), "/".join([*own[:-1], name])
            if os.path.isdir(f"{proofs}/{folder}"):
                shutil.copytree(f"{proofs}/{folder}", f"{proofs}/{other}")
                for at, _, names in os.walk(f"{proofs}/{other}"):
                    for it in names:
                        rename(f"{at}/{it}", folder.replace("/", "."), other.replace("/", "."))

    def answer(self, copy, crate):
        """Has the check of a copy search for a proof of the named goal alone."""
        if not self.may_name:
            raise Bad(f"{crate}/{self.name}: it can name no goal: its function is one of a trait, or lists lemmas for its searches")
        goals.answer(f"{copy}/proofs/{self.function.replace('::', '/')}", f"{crate}::{self.function}", self.goal())
        path = f"{copy}/{self.file}"
        lines = text_of(path).split("\n")
        lines.insert(extents(lines, self.short())[0][0], "#[tactic(none)]")
        with open(path, "w", encoding="utf-8") as it:
            it.write("\n".join(lines))

    def place(self, copy):
        """The file and the lines of the copy in which the spoiled function stands."""
        text = open(f"{copy}/{self.file}", encoding="utf-8").read()
        stand = extents(text.split("\n"), self.short())
        line = text[: text.find(self.pairs[0][2])].count("\n")
        first, last = next((it for it in stand if it[0] <= line <= it[1]), stand[0])
        return self.file, first + 1, last + 1

    def is_told(self, place, entry):
        """Does this entry tell of a goal of the spoiled function, or of a closure in it?"""
        at = re.match(r"(?:note: )?(?:\./)?(\S+?):(\d+):\d+: (?!note: )", entry)
        if not at or LOST.search(entry):
            return False
        file, first, last = place
        answers = f"proofs/{self.function.replace('::', '/')}/"
        return at[1].replace("/fn/", "/", 1).startswith(answers) or at[1] == file and first <= int(at[2]) <= last

    def told(self, crate, place, said):
        """What the check tells of a goal of the function: where it is, or else which one search did not prove."""
        searched = f"fn {crate}::{self.function}: no proof: "
        entries = entries_of(said)
        return [it for it in entries if self.is_told(place, it)] + [it for it in entries if it.startswith(searched) and "did not prove" in it]

    def is_of(self, name):
        """Is this function, as a check names it below the crate, the spoiled one, or made for a closure in it?"""
        return f"::{name}::".replace("::fn::", "::", 1).startswith(f"::{self.function}::")


def rename(file, old, new):
    """Has a file of proofs name the modules of another function."""
    text = open(file, encoding="utf-8").read()
    with open(file, "w", encoding="utf-8") as it:
        it.write(re.sub(rf"\bproofs\.{re.escape(old)}\.", f"proofs.{new}.", text))


class Way(Enum):
    """How edits are tried: the goals that are searched for, and whether the functions that theirs call are proved."""

    NAMED = "at the goal that it names"
    ANY = "at a goal of its own"
    PROVED = "at a goal of its own, beside the proofs of what it calls"


def make_copy(room, crate, edits, way):
    """Makes these edits in one copy of the crate, and returns what an earlier run may have kept of it."""
    copy_of(crate, f"{room}/{crate}")
    for number, edit in enumerate(edits):
        edit.make(f"{TOP}/crates/{crate}", f"{room}/{crate}", number)
        if way is Way.NAMED and edit.goal():
            edit.answer(f"{room}/{crate}", crate)
    if way is not Way.PROVED:
        take_at_word(f"{room}/{crate}", crate, [it.function for it in edits])
    return Try("edits", room, crate, [], [(it.name, it.words, it.pairs) for it in edits])


def try_copy(room, crate, edits):
    """Tries these edits in one copy of the crate, and says how each was refused. Those that are not are tried once more, in
    a way that takes longer."""
    told, lacking = [], unshown(crate, edits)
    for way in Way:
        refused, left = try_once(f"{room}/{way.name}", crate, edits, way)
        told += refused
        edits = [Edit(crate, f"{it.name}.edit") for it in left]
        if not edits:
            break
    if edits:
        raise Bad(f"{crate}: NOT REFUSED: {' '.join(it.name for it in edits)}")
    if lacking:
        raise Bad(f"{crate}: NOT SHOWN that the search proves the goal of the right function: python3 tests/edits.py --right {crate}: {' '.join(lacking)}")
    return told


def unshown(crate, edits):
    """The edits that name a searched goal of which tests/right_goals.txt does not say that the search proves it of the right function."""
    recorded = right_goals.recorded()
    return [it.name for it in edits if it.is_searched(crate) and it.shown(crate) not in recorded]


def try_once(room, crate, edits, way):
    """Makes these edits in one copy of the crate, and checks their functions. Returns how those were refused that were, and
    the others."""
    kept = make_copy(room, crate, edits, way)
    earlier = kept.refused_earlier()
    if earlier:
        return [it.replace(": refused, as it must be: ", ": refused by an earlier run: ", 1) for it in earlier], []
    places = [it.place(f"{room}/{crate}") for it in edits]
    said = check(room, crate, [], [it.function for it in edits], *(["--allow-holes"] if way is not Way.PROVED else []))
    verdicts = {it.removeprefix(f"{crate}::"): verdict for it, verdict in verdicts_of(said).items()}
    stands = ("proved",) if way is Way.PROVED else STANDS
    others = [it for it, verdict in verdicts.items() if verdict not in stands and not any(edit.is_of(it) for edit in edits)]
    if others or not verdicts:
        print(f"edits: {crate}: these do not stand beside the edits: {' '.join(others) or 'all'}\n{digest(said)}", flush=True)
        return [], edits
    told, left = [], []
    for edit, place in zip(edits, places):
        is_named = way is Way.NAMED and edit.goal()
        lines = goals.told(edit.function, edit.goal(), said) if is_named else edit.told(crate, place, said)
        if verdicts.get(edit.function) not in ("not proved", "no proof") or not lines:
            print(f"edits: {crate}/{edit.name}: not refused {way.value} ({verdicts.get(edit.function)})\n{digest(said)}", flush=True)
            left.append(edit)
            continue
        told.append(f"{crate}/{edit.name}: refused, as it must be: {lines[0][:160]}")
        folder = f"{room}/{crate}/proofs/{edit.function.replace('::', '/')}"
        line = goals.line_of(crate, edit.function, said, folder) if edit.may_name and not is_named else ""
        if line:
            print(f"edits: {crate}/{edit.name}: name its goal, if the right function has it: {line}", end="", flush=True)
    print(f"edits: {crate}, {len(edits)} in one copy: {said.splitlines()[-1]}", flush=True)
    if not left:
        kept.keep(told)
    return told, left


def try_right(room, crate, edits):
    """Makes the right functions in place of the wrong ones, and says whether their named goals are proved by the same search."""
    lines = [it.shown(crate) for it in edits]
    for it in edits:
        it.is_wrong = False
    make_copy(room, crate, edits, Way.NAMED)
    said = check(room, crate, [], [it.function for it in edits], "--allow-holes") if edits else ""
    verdicts, told, wrong = verdicts_of(said), [], []
    for it, line in zip(edits, lines):
        name, errors = goals.name_of(it.goal()), goals.errors_at(it.function, said)
        if any(LOST.search(entry) for entry in errors):
            wrong.append(f"{crate}/{it.name}: the right function has no goal `{name}`: take the line `goal:` out")
        elif errors or f"{crate}::{it.function}" not in verdicts:
            wrong.append(f"{crate}/{it.name}: the right function's `{name}` IS NOT PROVED by the search: take the line `goal:` out")
        else:
            right_goals.show(crate, line)
            told.append(f"{crate}/{it.name}: the right function's `{name}` is proved")
    if wrong:
        print("".join(f"edits: {it}\n" for it in told), end="", flush=True)
        raise Bad("\n".join([*wrong, digest(said)]))
    return told


def copies_of(crate, is_right):
    """The edits of a crate, by the copies in which they are made, or just those whose goal is searched for. Those of one file stand
    beside each other: what their functions cite is much the same, and each copy reads that once."""
    edits = [Edit(crate, it) for it in sorted(os.listdir(f"{TOP}/crates/{crate}/{TOGETHER}"))]
    edits = [it for it in edits if not is_right or it.is_searched(crate)]
    edits.sort(key=lambda it: (it.file, it.function))
    copies = -(-len(edits) // AT_ONCE) or 1
    ends = [len(edits) * it // copies for it in range(copies + 1)]
    return [edits[first:end] for first, end in zip(ends, ends[1:])]


def right_ones(tries):
    """Looks at the right functions of these tries, and records what was shown."""
    wanted = {it.shown(crate) for crate, edits in tries for it in edits}
    is_well = try_all("edits", tries, lambda crate, _: below(crate), try_right, "goals of right functions proved")
    right_goals.record({crate for crate, _ in tries}, wanted)
    return is_well


def main(names):
    is_right = "--right" in names
    names = [it for it in names if it != "--right"]
    # (as `rt ci` builds them: the lowest first)
    every = sorted((it for it in NAMED if os.path.isdir(f"{TOP}/crates/{it}/{TOGETHER}")), key=lambda it: len(below(it)))
    try:
        tries = [(crate, edits) for crate in names or every for edits in copies_of(crate, is_right)]
    except Bad as why:
        print(f"edits: {why}", file=sys.stderr)
        return 1
    if is_right:
        return 0 if right_ones(tries) else 1
    return 0 if try_all("edits", tries, lambda crate, _: below(crate), try_copy) else 1


if __name__ == "__main__":
    sys.exit(main(sys.argv[1:]))
