"""The goal of a wrong body (edits.py): the one at which the prover has to refuse it.

`goal:` names it as a check offers it, with its arguments: `returns-in-Some c`. In a copy it is answered by the searches that
the prover makes by itself, and the function has the attribute `#[tactic(none)]`, so nothing else is searched for: neither the
proofs of its other goals, nor those that the prover would offer at its end. A goal that the right function has an answer for
by hand keeps that answer, with the lemmas of the same file that it cites. Answers to other goals are left out.
"""

import os
import re

from prover import LOST, Bad, entries_of
from standing import text_of

# As the prover tries it where a goal has no answer.
SEARCHES = "first_of (search {common}.rules, grind ({common}.arith, {sets}.common_steps))"

# What the prover says of a file that is no file of answers: that shows nothing.
TORN = re.compile(r"is already declared|this clause follows the signature")


def name_of(goal):
    """The goal's name, without its arguments."""
    return goal.split()[0]


def has_answer(folder, goal):
    """Does this folder of a function's proofs have an answer for the goal?"""
    path = f"{folder}/Answers.antt"
    return os.path.exists(path) and bool(re.search(rf"^pub {re.escape(name_of(goal))} :", text_of(path), re.M))


def brought_in(text, module, name):
    """The name by which a file of answers has a module, and the line to add if it has none."""
    found = re.search(rf"^use {re.escape(module)} as (\w+)$", text, re.M)
    return (found[1], "") if found else (name, f"use {module} as {name}\n")


def blocks_of(text):
    """The blocks of a file of answers: its `use` lines, and each definition with the comment before it."""
    blocks, is_comment = [], False
    for line in text.split("\n"):
        begins = re.match(r"--|use |(?:pub |abbrev )*\S+ :", line) and not is_comment
        if begins or not blocks:
            blocks.append([])
        blocks[-1].append(line)
        is_comment = line.startswith("--")
    return ["\n".join(it) for it in blocks]


def defined_in(block):
    """The name that a block defines, if it does."""
    found = re.search(r"^(?:pub |abbrev )*(\S+) :", block, re.M)
    return found[1] if found and not block.startswith("use ") else ""


def cited(text, name):
    """A file of answers with one answer alone, and what that cites."""
    blocks = blocks_of(text)
    needed, asked = set(), [name]
    while asked:
        one = asked.pop()
        needed.add(one)
        own = "\n".join(it for it in blocks if defined_in(it) == one)
        words = set(re.findall(r"[^\s(){}\[\],;]+", own))
        asked += [it for it in map(defined_in, blocks) if it in words and it not in needed]
    return "\n".join(it for it in blocks if not defined_in(it) or defined_in(it) in needed)


def answer(folder, function, goal):
    """Leaves the answer to one goal of a function, named by its crate, in the folder of its proofs, and makes it if there is none."""
    os.makedirs(folder, exist_ok=True)
    path, module = f"{folder}/Answers.antt", function.replace("::", ".proofs.", 1).replace("::", ".")
    name, has_one = name_of(goal), has_answer(folder, goal)
    text = text_of(path) if os.path.exists(path) else ""
    if not has_one and name in map(defined_in, blocks_of(text)):
        raise Bad(f"{function}: `{name}` is a lemma of its answers, and no goal")
    text = cited(text, name)
    if not has_one:
        common, first = brought_in(text, "Rattle.std.proofs.Common", "common")
        sets, second = brought_in(text, "Rattle.std.proofs.lemmas.Grind", "sets")
        goals, third = brought_in(text, f"Rattle.{module}.Goals", "goals_of_it")
        searches = SEARCHES.format(common=common, sets=sets)
        text = f"{first}{second}{third}{text}\npub {name} : {goals}.{name}\n{goal} = {searches}\n"
    with open(path, "w", encoding="utf-8") as it:
        it.write(text)


def errors_at(function, said):
    """The errors that a check tells of the answers of a function."""
    place = re.escape(f"proofs/{function.replace('::', '/')}/Answers.antt")
    return [it for it in entries_of(said) if re.match(rf"(\./)?{place}:\d+:\d+: error: ", it)]


def at_answers(function, said):
    """The errors that tell of an answer, and not of a lost name or a torn file: each with the name of the goal or lemma."""
    named = [(re.search(r" error: `([^`]+)`: ", it), it) for it in errors_at(function, said)]
    return [(found[1], it) for found, it in named if found and not LOST.search(it) and not TORN.search(it)]


def told(function, goal, said):
    """What a check says of the refusal of this goal of a function. A goal with arguments is one that is searched for."""
    found = [it for name, it in at_answers(function, said) if name == name_of(goal)]
    return [it for it in found if goal == name_of(goal) or re.search(r"error: `[^`]+`: `(search|grind)`", it)]


def line_of(crate, function, said, folder):
    """The line that names the goal of an edit, by a check that searched for each, and the folder of the function's proofs. There
    is none where the prover refuses a closure, a lemma of the answers, or a proof by hand."""
    verdict = re.search(rf"^fn {re.escape(f'{crate}::{function}')}: (.*)", said, re.M)
    lacking = re.search(r"`search` did not prove ((?:`[^`]+`(?:, )?)+)", verdict[1] if verdict else "")
    lacking = re.findall(r"`([^`]+)`", lacking[1]) if lacking else []
    place = re.escape(f"proofs/{function.replace('::', '/')}/Answers.antt")
    offer = re.search(rf"^help: .*{place}.*\n((?:(?: .*)?\n)*)", said, re.M)
    offered = re.findall(r"^ +((\S+)(?: \w+)*) = \?$", offer[1] if offer else "", re.M)
    found = [name for name, _ in at_answers(function, said) if has_answer(folder, name)]
    # (a clause says more than what a call requires)
    found += sorted((goal for goal, name in offered if name in lacking), key=lambda it: not it.startswith("returns"))
    return f"goal: {found[0]}\n" if found else ""
