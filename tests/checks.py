"""The gate's own checks fail where they should: each is run on something small in which a thing is wrong.

    python3 tests/checks.py

Nothing is proved or built here.
"""

import contextlib
import io
import os
import re
import shutil
import subprocess
import sys
import tempfile

from proofs import module

TOP = os.path.dirname(os.path.dirname(os.path.abspath(__file__)))

# A part of the gate that notes that it has begun, and ends with the status that a file of its name has.
STUB = """#!/usr/bin/env bash
touch "begun-{name}"
echo "{name}: said"
[[ ! -f "status-{name}" ]] || exit 1
"""


def parts():
    """The names of the parts that .ci/run has beside `rt ci`."""
    with open(f"{TOP}/.ci/run", encoding="utf-8") as it:
        text = it.read()
    looped = re.search(r"^for script in (.*); do$", text, re.M)[1].split()
    return [*re.findall(r"^begin (\w+) ", text, re.M), *looped, *re.findall(r"^part (\w+) ", text, re.M), *re.findall(r'^part_with "\S+" (\w+) ', text, re.M)]


class Checks:
    """What passed and failed, and a folder for each check."""

    def __init__(self, room):
        self.room, self.passed, self.failed, self.number = room, 0, 0, 0

    def same(self, what, wanted, found):
        """One case: what was wanted, and what came."""
        if wanted == found:
            self.passed += 1
            return
        self.failed += 1
        print(f"checks.py: {what}\n--- wanted\n{wanted}\n--- found\n{found}", file=sys.stderr)

    def folder(self, *copied, files):
        """A new folder with copies of these files of the repository, and further files with these texts."""
        self.number += 1
        folder = f"{self.room}/{self.number}"
        for name in copied:
            os.makedirs(os.path.dirname(f"{folder}/{name}"), exist_ok=True)
            shutil.copy(f"{TOP}/{name}", f"{folder}/{name}")
        for name, text in files.items():
            write(f"{folder}/{name}", text)
        return folder


def write(path, text):
    """Writes a file that can be run."""
    os.makedirs(os.path.dirname(path), exist_ok=True)
    with open(path, "w", encoding="utf-8") as it:
        it.write(text)
    os.chmod(path, 0o755)


def ran(folder, *words):
    """The status of a command, and the last line that it prints."""
    how = {"cwd": folder, "stdin": subprocess.DEVNULL, "stdout": subprocess.PIPE, "stderr": subprocess.STDOUT, "text": True}
    found = subprocess.run(words, **how)
    return found.returncode, (found.stdout.strip().split("\n") or [""])[-1]


def shell_tests(checks):
    """same.sh: no case, an empty text, and a command that does not run are no success."""
    for what, lines, wanted in [
        ("a case that is so", "same a b b", (0, "t: 1 passed, 0 failed")),
        ("one that is not", "same a b c 2>/dev/null", (1, "t: 0 passed, 1 failed")),
        ("no case", ":", (1, "t: 0 passed, 0 failed")),
        ("an empty text", "same a '' '' 2>/dev/null", (1, "t: 0 passed, 1 failed")),
        ("no output", "silent a true", (0, "t: 1 passed, 0 failed")),
        ("some output", "silent a echo b 2>/dev/null", (1, "t: 0 passed, 1 failed")),
        ("a command that fails", "silent a false 2>/dev/null", (1, "t: 0 passed, 1 failed")),
        ("a command that there is not", "silent a no-such-command 2>/dev/null", (1, "t: 0 passed, 1 failed")),
    ]:
        said = ran(TOP, "bash", "-c", f"source tests/same.sh\n{lines}\ntold t")
        checks.same(f"same.sh: {what}", wanted, said)


def links(checks):
    """links.py: a link that finds nothing fails, and so does no link."""
    for what, text, wanted in [
        ("a link", "[b](CHANGELOG.md)", (0, "1 passed, 0 failed")),
        ("a link to nothing", "[b](none.md) [c](CHANGELOG.md)", (1, "1 passed, 1 failed")),
        ("a link to no heading", "[b](#none) [c](CHANGELOG.md)", (1, "1 passed, 1 failed")),
        ("no link", "none", (1, "0 passed, 0 failed")),
    ]:
        files = {"README.md": text, "CHANGELOG.md": "# Changes\n", "CONTRIBUTING.md": "# How\n"}
        status, said = ran(checks.folder("tests/links.py", files=files), "python3", "-B", "tests/links.py")
        checks.same(f"links.py: {what}", wanted, (status, said.removeprefix("links.py: ")))


def quoted_code(checks):
    """readme_code.sh takes over the counts of the scripts that it runs, and their status."""
    text = open(f"{TOP}/tests/readme_code.sh", encoding="utf-8").read()
    counted = re.search(r"^counted\(\) \{\n.*?^\}\n", text, re.M | re.S)[0]
    for what, command, wanted in [
        ("counts", "echo a.py: 3 passed, 0 failed", "3 0"),
        ("counts with a failure", "printf 'x\\na.py: 2 passed, 1 failed\\n'", "2 1"),
        ("no case", "echo a.py: 0 passed, 0 failed", "0 1"),
        ("another status", "sh -c 'echo a.py: 3 passed, 0 failed; exit 1'", "0 1"),
        ("no counts", "true", "0 1"),
    ]:
        script = f"set -euo pipefail\npassed=0 failed=0\n{counted}counted {command} 2>/dev/null\necho $passed $failed"
        checks.same(f"readme_code.sh: {what}", (0, wanted), ran(TOP, "bash", "-c", script))


def speed_tables(checks):
    """speed_table.py: a figure of this map in the second table of docs/PERFORMANCE.md that is another one fails."""
    folder = checks.folder("tests/speed_table.py", "README.md", "docs/PERFORMANCE.md", files={})
    text = open(f"{TOP}/docs/PERFORMANCE.md", encoding="utf-8").read()
    at = text.index("| | `session` | `pins` | `papaya` |")
    rows = [*re.finditer(r"^\| [^|]+ \| (\d+) \|", text[at : text.index("\n\n", at)], re.M)]
    checks.same("speed_table.py: it is as it is", 0, ran(folder, "python3", "-B", "tests/speed_table.py")[0])
    found = []
    for row in rows:
        wrong = text[: at + row.start(1)] + str(int(row[1]) + 2) + text[at + row.end(1) :]
        write(f"{folder}/docs/PERFORMANCE.md", wrong)
        found.append(ran(folder, "python3", "-B", "tests/speed_table.py")[0])
    checks.same("speed_table.py: a figure is changed in each row", (True, {1}), (len(found) > 5, {*found}))


SOURCE = """impl<K: Eq, V> HashMap<K, V> {
    /// Prints the map. And more.
    pub fn print<W: fmt::Write>(&self, f: &mut fmt::Formatter<W>) -> fmt::Result
        requires { true }
    {
        body(f)
    }

    /// Adds one to `x`,
    /// and returns it.
    #[inline(always)]
    pub const fn more(mut x: u64, mut self: u64) -> u64 {
        x
    }

    /// Calls a closure.
    pub fn call<
        'g,
        F: FnMut(Option<(&'g K, &'g mut V)>) -> Operation<V, T>,
        G: Guard,
    >(
        &'g mut self,
        f: F,
    ) -> Result<V, Refused>
    where
        G: Drop,
        ensures { true }
    {
        f()
    }

    fn hidden(&self) {}
}
"""

# What is listed of each public function there: the first sentence of its comment, its head, and its contract.
LISTED = [
    (
        "Prints the map.",
        "fn print<W: fmt::Write>(&self, f: &mut fmt::Formatter<W>) -> fmt::Result;",
        """    fn print<W: fmt::Write>(&self, f: &mut fmt::Formatter<W>) -> fmt::Result
        requires { true };""",
    ),
    (
        "Adds one to `x`, and returns it.",
        "const fn more(x: u64, self: u64) -> u64;",
        "    const fn more(mut x: u64, mut self: u64) -> u64;",
    ),
    (
        "Calls a closure.",
        "fn call<'g, F: FnMut(Option<(&'g K, &'g mut V)>) -> Operation<V, T>, G: Guard>(&'g mut self, f: F) -> Result<V, Refused> where G: Drop;",
        """    fn call<
        'g,
        F: FnMut(Option<(&'g K, &'g mut V)>) -> Operation<V, T>,
        G: Guard,
    >(
        &'g mut self,
        f: F,
    ) -> Result<V, Refused>
    where
        G: Drop,
        ensures { true };""",
    ),
]


def signatures(checks):
    """tools/signatures takes these functions so from the sources, and sees that a list is stale."""
    made, lines = module("signatures", f"{TOP}/tools/signatures"), SOURCE.split("\n")
    heads = [at for at, line in enumerate(lines) if re.match(r" *pub (const )?fn ", line)]
    found = [(made.first_sentence(lines[:at]), made.signature(lines[at:]), made.contract(lines[at:])) for at in heads]
    for wanted, listed in zip(LISTED, found):
        checks.same("tools/signatures", wanted, listed)
    checks.same("tools/signatures: how many", len(LISTED), len(found))
    made.TOP = checks.folder(files={"docs/ONE.md": "one", "docs/TWO.md": "two"})
    for what, texts, wanted in [
        ("fresh lists", {"ONE": "one", "TWO": "two"}, (0, "signatures: 2 passed, 0 failed")),
        ("a stale one", {"ONE": "one", "TWO": "2"}, (1, "signatures: 1 passed, 1 failed")),
        ("one that is not there", {"ONE": "one", "SIX": "six"}, (1, "signatures: 1 passed, 1 failed")),
    ]:
        made.documents, said = lambda texts=texts: texts, io.StringIO()
        with contextlib.redirect_stdout(said), contextlib.redirect_stderr(io.StringIO()):
            status = made.main(["--check"])
        checks.same(f"tools/signatures: {what}", wanted, (status, said.getvalue().strip()))


def flow(checks):
    """.ci/run: a part that fails is counted, and without a program none is begun that needs it."""
    program = "mkdir -p crates/papaya_run/out; cp tests/take.sh crates/papaya_run/out/papaya_run"
    made, names = 'mkdir -p "$1"; cp tests/take.sh "$1/papaya_tests"', parts()
    checks.same(".ci/run: its parts are found", True, {"first_run", "edits", "checks", "take", "runs", "refused"} <= {*names} and len(names) == len({*names}))
    # (what rt ci does, the parts that fail, how many crates and how many parts pass and fail, and what is skipped)
    for what, proofs, broken, (good, bad), skipped in [
        ("all passes", f"{program}; echo 32 passed, 0 failed", [], (32, 0), []),
        ("a part fails", f"{program}; echo 32 passed, 0 failed", ["edits"], (32, 0), []),
        ("several do", f"{program}; echo 32 passed, 0 failed", ["runs", "chart", "twins"], (32, 0), []),
        ("a proof fails", "echo 31 passed, 1 failed; exit 1", [], (31, 1), ["runs", "readme_commands"]),
        ("a proof fails beside the program", f"{program}; echo 31 passed, 1 failed; exit 1", [], (31, 1), []),
        ("rt ci is killed", "echo rt: papaya proved; kill -9 $$", [], (0, 1), ["runs", "readme_commands"]),
        ("it counts well, and ends badly", f"{program}; echo 32 passed, 0 failed; exit 2", [], (32, 1), []),
        ("it counts nothing", f"{program}; echo 0 passed, 0 failed", [], (0, 1), []),
        ("no test is compiled", f"{program}; echo 32 passed, 0 failed", ["run_tests"], (32, 0), ["refused"]),
    ]:
        files = {f"tests/{it}.sh": STUB.format(name=it) for it in names}
        files |= {"tests/readme_commands.sh": 'name=readme_commands; [[ -z "${1-}" ]] || name=first_run\n' + STUB.format(name="$name")}
        files |= {f"tests/{it}.py": f"import os, sys\nsys.exit(os.system('bash tests/{it}.sh') >> 8)\n" for it in ("checks", "refused")}
        files |= {"tools/need-rt": "true\n", "tools/chart": STUB.format(name="chart"), "tests/progress.py": "import time\ntime.sleep(600)\n"}
        files |= {"tests/run_tests.sh": STUB.format(name="run_tests") + made, "stub.sh": f"sleep 0.3\n{proofs}\n"}
        files |= {"tests/proofs.py": "import os\nos.execvp('bash', ['bash', 'stub.sh'])\n"}
        folder = checks.folder(".ci/run", "tests/end.sh", files={**files, **{f"status-{it}": "" for it in broken}})
        lost = len(broken) + len(skipped)
        wanted = (int(bad + lost > 0), f"{good + len(names) - lost} passed, {bad + lost} failed")
        checks.same(f".ci/run: {what}", wanted, ran(folder, "bash", ".ci/run"))
        begun = {it for it in names if os.path.exists(f"{folder}/begun-{it}")}
        checks.same(f".ci/run: {what}: what is skipped", sorted(skipped), sorted({*names} - begun))


# The modules by which edits and tests are tried, and a script over them.
MODULES = [f"tests/{it}.py" for it in ("edits", "goals", "kept", "prover", "right_goals", "standing", "unproved")]
OVER = "import sys\nsys.path.insert(0, 'tests')\n"


def lists_of_tests(checks):
    """unproved.py: the crates of tests/crates are those that are listed, and have as many tests."""
    test = "#[test]\nfn one() {}\n"
    for what, files, wanted in [
        ("as listed", {"tests/crates/a/lib.rs": test * 2}, True),
        ("a test less", {"tests/crates/a/lib.rs": test}, False),
        ("a crate more", {"tests/crates/a/lib.rs": test * 2, "tests/crates/b/lib.rs": test}, False),
        ("a crate less", {"tests/crates/.none/lib.rs": ""}, False),
    ]:
        files |= {"crates.txt": "", "tests/unproved.txt": "# A list\na: b c\n# a 2\n# d 1\n"}
        said = ran(checks.folder(*MODULES, files=files), sys.executable, "-B", "-c", f"{OVER}import unproved\nunproved.stop_on_lists()\nprint('well')")
        checks.same(f"unproved.py: {what}", wanted, said == (0, "well"))


def kits(checks):
    """kept.py: a library of the kit that changes below its folder makes another sum."""
    from kept import kit_sum

    files = {it: "one" for it in ("KIT-ID", "WHAT", "bin/rattle", "logic_built/a.oantt", "rlibs/a.rlib/format", "rlibs/a.rlib/lang/b")}
    kit = checks.folder(files=files)
    first = kit_sum(kit)
    checks.same("kept.py: the same kit", first, kit_sum(kit))
    for name in files:
        at = os.stat(f"{kit}/{name}")
        write(f"{kit}/{name}", "more")
        os.utime(f"{kit}/{name}", ns=(at.st_atime_ns, at.st_mtime_ns))
        checks.same(f"kept.py: {name} of another size", True, kit_sum(kit) != first)
        write(f"{kit}/{name}", "one")
        checks.same(f"kept.py: {name} of another time", True, kit_sum(kit) != first)
        os.utime(f"{kit}/{name}", ns=(at.st_atime_ns, at.st_mtime_ns))
    checks.same("kept.py: the kit as it was", first, kit_sum(kit))
    at = os.stat(f"{kit}/rlibs/a.rlib/format")
    write(f"{kit}/rlibs/a.rlib/format", "two")
    os.utime(f"{kit}/rlibs/a.rlib/format", ns=(at.st_atime_ns, at.st_mtime_ns))
    checks.same("kept.py: another library of the same size and time", True, kit_sum(kit) != first)


FUNCTION = """/// Returns one.
pub fn one() -> u64
    ensures { result ≡ 1 }
{
    1
}
"""
EDIT = "fn: one\ngoal: returns\nfile: src/lib.rt\nold:     1\nnew:     2\n"
# Tries the edit, where the prover refuses each; first it may record what --right would have shown.
TRY = """import edits, right_goals
edits.try_once = lambda room, crate, tried, way: ([it.name for it in tried], [])
def one():
    return edits.Edit("a", "b.edit")
if {records}:
    right_goals.show("a", one().shown("a"))
    right_goals.record({{"a"}}, set())
try:
    print(edits.try_copy("room", "a", [one()]))
except edits.Bad as why:
    print(str(why).split(":")[1].strip()[:9])
"""


def named_goals(checks):
    """edits.py: a searched goal that is named fails, unless --right has shown of this very function that the search is not too weak."""
    own = {"crates.txt": "a:\n", "crates/a/src/lib.rt": FUNCTION, "crates/a/must-fail-together/b.edit": EDIT}
    folder = checks.folder(*MODULES, files=own)
    hand = "crates/a/proofs/one/Answers.antt"
    for what, records, name, text, wanted in [
        ("no record", False, "", "", "NOT SHOWN"),
        ("a record", True, "", "", "['b']"),
        ("in a fresh clone", False, "", "", "['b']"),
        ("another comment", False, "crates/a/src/lib.rt", FUNCTION.replace("Returns", "Gives"), "['b']"),
        ("another wrong body", False, "crates/a/must-fail-together/b.edit", EDIT.replace("2", "3"), "['b']"),
        ("another goal", False, "crates/a/must-fail-together/b.edit", EDIT.replace("returns", "returns-in-Some"), "NOT SHOWN"),
        ("another contract", False, "crates/a/src/lib.rt", FUNCTION.replace("≡ 1", "≡ 0 + 1"), "NOT SHOWN"),
        ("another lemma by hand", False, hand, "some : A\nsome = b\n", "NOT SHOWN"),
        ("an answer by hand", False, hand, "pub returns : A\nreturns = b\n", "['b']"),
        ("no named goal", False, "crates/a/must-fail-together/b.edit", EDIT.replace("goal: returns\n", ""), "['b']"),
    ]:
        if name:
            before = open(f"{folder}/{name}", encoding="utf-8").read() if os.path.exists(f"{folder}/{name}") else None
            write(f"{folder}/{name}", text)
        said = ran(folder, sys.executable, "-B", "-c", OVER + TRY.format(records=records))
        checks.same(f"edits.py: {what}", (0, wanted), said)
        if name and before is None:
            os.remove(f"{folder}/{name}")
        elif name:
            write(f"{folder}/{name}", before)


# A process of which a copy takes most of the time.
COPIES = """import os, time
if not os.fork():
    while time.process_time() < 0.3:
        pass
    os._exit(0)
os.wait()
"""


def lanes(checks):
    """proofs.py: a crate of the longest chain gets its share beside others, a short one gets one job, and copies count."""
    import proofs

    crates = {"low": [], "book": ["low"], "side": ["low"], "top": ["book"]}
    tasks = {(name, "proof"): ([(it, "proof") for it in below], 100, 1e9, None) for name, below in crates.items()}
    made = proofs.Lanes(tasks, 4, 2e10, {"low": 0.2, "book": 9, "side": 2})
    checks.same("proofs.py: a crate that is not listed counts by its lines", 11.2 / 3, made.work["top", "proof"])
    for what, name, idle, others, wanted in [
        ("a crate of the chain, where one processor is idle", "book", 1, 0, 2),
        ("one where all are", "book", 4, 0, 4),
        ("another crate", "side", 2, 1, 1),
        ("another crate where nothing waits", "side", 3, 0, 3),
        ("a short one", "low", 4, 0, 1),
    ]:
        checks.same(f"proofs.py: {what}", wanted, made.jobs((name, "proof"), idle, others))
    process = proofs.Measured([sys.executable, "-c", COPIES, "--crate-name", "a", "--jobs", "2"])
    checks.same("proofs.py: a process that is measured ends as it does", 0, process.wait())
    _, jobs, work, memory = proofs.Measured.used["a"]
    checks.same("proofs.py: what its copies take counts", (2, True, True), (jobs, 0.3 <= work < 3, memory > 1000))
    log = re.sub(r"\| [\d.]+ (\| [\d.]+ \|\n)", r"| 4.5 \1", proofs.Measured.table())
    folder = checks.folder("tests/proofs.py", files={"tests/minutes.txt": "# Minutes\na 1\nb 2\n", "log": log})
    ran(folder, sys.executable, "-B", "tests/proofs.py", "--take", "log")
    checks.same("proofs.py: minutes are taken from a log", "# Minutes\na 4.5\nb 2\n", open(f"{folder}/tests/minutes.txt", encoding="utf-8").read())
    checks.same("proofs.py: a log without a table", 1, ran(folder, sys.executable, "-B", "tests/proofs.py", "--take", "tests/minutes.txt")[0])


def main():
    with tempfile.TemporaryDirectory(prefix="checks-") as room:
        checks = Checks(room)
        for it in (shell_tests, links, quoted_code, speed_tables, signatures, lists_of_tests, kits, named_goals, lanes, flow):
            it(checks)
    print(f"checks.py: {checks.passed} passed, {checks.failed} failed")
    return 1 if checks.failed or not checks.passed else 0


if __name__ == "__main__":
    sys.exit(main())
