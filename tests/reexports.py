"""The contracts of public calls cite definitions of many crates. Each of these is re-exported by papaya/specs, so a caller's line of crates.txt names
only papaya."""

import glob
import os
import re
import sys

TOP = os.path.dirname(os.path.dirname(os.path.abspath(__file__)))
CRATES = ["papaya_json", "papaya_map", "papaya_reclaiming", "papaya_seq", "papaya_set", "papaya_words_keys"]
USED = r"ghost use (Rattle\.papaya[\w.\-]*)\.\{([^}]*)\}"
# the functions of this file are for papaya_map alone
WITHOUT = "crates/papaya_map/src/keeping.rt"


def read(path):
    """A file's text."""
    with open(path, encoding="utf-8") as it:
        return it.read()


def names(text):
    """The names of a list, each with the name by which this file has it."""
    for name in filter(None, (it.strip() for it in text.split(","))):
        first, _, last = name.partition(" as ")
        yield first, last or first


def exported():
    """What papaya/specs re-export: names, and modules of variants."""
    found = set()
    for path in glob.glob(f"{TOP}/crates/papaya/specs/*.antt"):
        text = read(path)
        for module, inside in re.findall(r"pub use ([\w.\-]+)\.\{([^}]*)\}", text):
            found.update((module, name) for name, _ in names(inside))
        found.update((module, None) for module in re.findall(r"pub use ([\w.\-]+) as \w+", text))
    return found


def contracts(text):
    """The heads of a file's public functions, contracts included."""
    return re.findall(r"^ *pub fn .*?\{$", text, re.M | re.S)


def sources():
    """The files that have public calls."""
    found = [f"{TOP}/crates/papaya_core/src/schedule.rt"]
    for crate in CRATES:
        found += glob.glob(f"{TOP}/crates/{crate}/src/**/*.rt", recursive=True)
    return [path for path in found if not path.endswith(WITHOUT)]


def cited(text):
    """The definitions of papaya's crates that the contracts of a file's public functions cite: the module and the name of each."""
    heads = "\n".join(contracts(text))
    for module, inside in re.findall(USED, text):
        for name, here in names(inside):
            if re.search(rf"(?<![\w.']){re.escape(here)}(?![\w'])", heads):
                yield module, name


def main():
    there, passed, failed = exported(), set(), set()
    for path in sources():
        for module, name in cited(read(path)):
            good = (module, name) in there or (module, None) in there
            (passed if good else failed).add(f"{module}.{name}")
    for name in sorted(failed):
        print(f"papaya/specs do not re-export {name}", file=sys.stderr)
    print(f"reexports.py: {len(passed)} passed, {len(failed)} failed")
    return 1 if failed or not passed else 0


if __name__ == "__main__":
    sys.exit(main())
