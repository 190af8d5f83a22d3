"""Each example in a comment of the sources is that of a function in papaya_uses_tests, whose tests run it. Each such function is quoted by a comment."""

import glob
import os
import re
import sys

TOP = os.path.dirname(os.path.dirname(os.path.abspath(__file__)))
EXAMPLES = "tests/crates/papaya_uses_tests/examples.rs"


def blocks(path):
    """The fenced blocks in the comments of a file, each with its line number and its text."""
    with open(path, encoding="utf-8") as it:
        lines = [re.match(r"\s*//[/!] ?(.*)", line) for line in it.read().split("\n")]
    found, begun = [], None
    for number, line in enumerate(lines, 1):
        if line is None or not line[1].startswith("```"):
            continue
        if begun is None:
            begun = number
        else:
            found.append((begun, "".join(f"{it[1]}\n" for it in lines[begun : number - 1])))
            begun = None
    return found


def examples():
    """The lines of each example, by the name of its function. A helper has a comment, and a test an attribute."""
    with open(f"{TOP}/{EXAMPLES}", encoding="utf-8") as it:
        found = re.findall(r"^\nfn (\w+).*? \{\n(.*?)^    Ok\(", it.read(), re.M | re.S)
    return {name: re.sub(r"^    ", "", body, flags=re.M) for name, body in found}


def main():
    wanted, quoted, passed, failed = examples(), set(), 0, 0
    for path in sorted(glob.glob(f"{TOP}/crates/*/src/**/*.rt", recursive=True)):
        for number, text in blocks(path):
            names = [name for name, body in wanted.items() if body == text]
            quoted.update(names)
            passed, failed = passed + bool(names), failed + (not names)
            if not names:
                print(f"{os.path.relpath(path, TOP)}:{number}: {EXAMPLES} has no such example:\n{text}", file=sys.stderr)
    for name in sorted(wanted.keys() - quoted):
        failed += 1
        print(f"{EXAMPLES}: no comment quotes {name}", file=sys.stderr)
    print(f"quoted_examples.py: {passed} passed, {failed} failed")
    return 1 if failed or not passed else 0


if __name__ == "__main__":
    sys.exit(main())
