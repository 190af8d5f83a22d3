"""Each sentence of README.md on times and memory is a sentence of docs/PERFORMANCE.md."""

import os
import re
import sys

TOP = os.path.dirname(os.path.dirname(os.path.abspath(__file__)))
HEAD, END = "In time and memory", "## What is not proved"


def words(text):
    """A text on one line."""
    return re.sub(r"\s+", " ", text)


def main():
    with open(f"{TOP}/README.md", encoding="utf-8") as it:
        part = it.read().split(HEAD)[1].split(END)[0]
    with open(f"{TOP}/docs/PERFORMANCE.md", encoding="utf-8") as it:
        there = words(it.read())
    items = [words(it) for it in re.findall(r"^- (.*(?:\n  .*)*)", part, re.M)]
    said = [it.rstrip(".") for item in items for it in re.split(r"(?<=[.?!]) ", item) if re.search(r"\d", it)]
    missing = [it for it in said if it not in there]
    for it in missing:
        print(f"README.md: docs/PERFORMANCE.md does not say: {it}", file=sys.stderr)
    print(f"figures.py: {len(said) - len(missing)} passed, {len(missing)} failed")
    return 1 if missing or not said else 0


if __name__ == "__main__":
    sys.exit(main())
