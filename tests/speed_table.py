"""docs/PERFORMANCE.md has the same figures in its two tables of instructions: those of this map beside papaya are those of
"Instructions of an operation" less the row `loop`. If README has a table of speed, it has these figures too.

Where the row `loop` has no figure, one loop explains all figures of the row. README's figures of papaya may be up to 3 less than those of
the second table, as that table's own text says: README's heading says "about".
"""

import os
import re
import sys

TOP = os.path.dirname(os.path.dirname(os.path.abspath(__file__)))

# The second table's columns of this map as the first one names them, README's as the first and as the second one name them, and
# README's rows.
THERE_OURS = {"session": "session", "pins": "pin-a-call"}
OURS = {"a map pinned once": "shared", "a session": "session", "pinned for each call": "pin-a-call", "seq": "seq"}
BESIDE = {"a session": "session", "pinned for each call": "pins"}
PAPAYA = "papaya 0.2.5, about"
ROWS = {
    "get of a key that is there": "get hit",
    "get of a key that is absent": "get miss",
    "insert of a new key": "fresh insert",
    "insert of a new value": "replace",
    "remove, and insert again": "remove + insert",
    "update_or_insert": "update_or_insert",
    "compute": "compute",
    "insert while a map grows to 2^16 keys": "from empty",
    "iter, for each entry": "iter",
}
# Rows that the second table names otherwise.
THERE = {"from empty": "an insertion from empty to 2^16 keys", "iter": "iter, an entry"}
# An iteration is counted with the loop that it is.
NO_LOOP = ("iter",)
ABOUT = 3


def cells(line):
    """The cells of a row, without their marks."""
    return [re.sub(r"[*`]", "", it).strip() for it in line.strip().strip("|").split("|")]


def table(name, heading, first):
    """The first table below this heading of a document that has this text in its first row: by row and column, what a cell says."""
    with open(f"{TOP}/{name}", encoding="utf-8") as it:
        part = it.read().partition(f"\n## {heading}\n")[2].split("\n## ")[0]
    for found in re.findall(r"(?:^\|.*\n)+", part, re.M):
        head, _, *rows = map(cells, found.strip().split("\n"))
        if first in head:
            return {re.split("[:,]", row[0])[0] if first == "get hit" else row[0]: dict(zip(head, row)) for row in rows}
    raise SystemExit(f"speed_table.py: {name}: {heading}: no table with {first}\nspeed_table.py: 0 passed, 1 failed")


def number(cell):
    """The number of a cell, or none."""
    return float(cell) if cell else None


def is_rounded(said, exact):
    """Is this the whole number for an exact count?"""
    return said is not None and exact is not None and abs(said - exact) <= 0.5 + 1e-6


def loop_of(row, counted, figures):
    """What the loop takes in a row: what was counted, or else what explains these figures by their exact counts, or none if
    nothing does."""
    if row in NO_LOOP or counted is not None:
        return counted or 0.0
    least = max((exact - figure - 0.5 for figure, exact in figures), default=0.0)
    most = min((exact - figure + 0.5 for figure, exact in figures), default=0.0)
    return (least + most) / 2 if least <= most else None


def compared(row, said, columns, gross):
    """For each of these columns, the figure that is said, the one that it is to be, and whether it is that."""
    shown = {it: (number(said[it]), number(gross[name][row])) for it, name in columns.items() if said[it]}
    known = [it for it in shown.values() if None not in it]
    loop = loop_of(row, number(gross["loop"][row]), known)
    for column, (figure, exact) in shown.items():
        is_known = exact is not None and loop is not None
        yield column, figure, exact - loop if is_known else None, is_known and is_rounded(figure, exact - loop)


def about(said, of):
    """The same of README's figures of papaya, by the second table."""
    for figure, name in zip(map(float, re.findall(r"\d+", said[PAPAYA])), ("papaya", "papaya-pins")):
        yield PAPAYA, figure, number(of[name]), bool(of[name]) and 0 <= float(of[name]) - figure <= ABOUT


def main():
    gross = table("docs/PERFORMANCE.md", "Instructions of an operation", "get hit")
    there = table("docs/PERFORMANCE.md", "Beside papaya and other maps", "papaya-pins")
    found = []
    rows = {name: row for row, name in THERE.items()}
    for name, said in there.items():
        found += [("docs/PERFORMANCE.md", name, *it) for it in compared(rows.get(name, name), said, THERE_OURS, gross)]
    with open(f"{TOP}/README.md", encoding="utf-8") as it:
        has_table = PAPAYA in it.read()
    if has_table:
        readme = table("README.md", "Speed", PAPAYA)
        found += [("README.md", name, "this row", 0, "none", False) for name in sorted({*ROWS} ^ {*readme})]
        for name in [it for it in ROWS if it in readme]:
            of = there[THERE.get(ROWS[name], ROWS[name])]
            found += [("README.md", name, *it) for it in compared(ROWS[name], readme[name], OURS, gross)]
            found += [("README.md", name, *it) for it in about(readme[name], of)]
            both = [(it, readme[name][it], of[BESIDE[it]]) for it in BESIDE if readme[name][it]]
            found += [("README.md", name, it, number(said), number(wanted), said == wanted) for it, said, wanted in both]
    wrong = [it for it in found if not it[-1]]
    for document, name, column, figure, wanted, _ in wrong:
        print(f"{document}: {name}: {column}: {figure:g}, where docs/PERFORMANCE.md comes to {wanted}", file=sys.stderr)
    print(f"speed_table.py: {len(found) - len(wrong)} passed, {len(wrong)} failed")
    return 1 if wrong or not found else 0


if __name__ == "__main__":
    sys.exit(main())
