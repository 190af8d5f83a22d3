"""What tests/edits.py and tests/twins.py have in common: the check of some functions of a changed copy of
crates, over the libraries that `rt ci` has built in this checkout, so that nothing else is proved again.

Where RT_CI is the number of the process in which `rt ci` runs, a check waits for the libraries that it
needs until that process has built them or has ended."""

import os
import re
import shutil
import subprocess
import sys
import tempfile
import threading
import time
from concurrent.futures import ThreadPoolExecutor

TOP = os.path.dirname(os.path.dirname(os.path.abspath(__file__)))

# What a check reads of a crate: its functions and its clauses' words, and the answers to what they leave to show.
PARTS = ("src", "specs", "proofs")

# What the prover says where a change took away a name that a proof uses: that shows nothing. (Of a goal that it prints it may say
# that a name in it "is not in scope here, so what is shown does not paste back": that is not such a case.)
LOST = re.compile(r"has no field|is not in scope(?! here, so what is shown)|has no `|was not admitted|that depends? on|is no name")


class Bad(Exception):
    """Why a change shows nothing."""


class Change:
    """A wrong body: the lines of a file, as must-fail/ has them, with some more words before them."""

    def __init__(self, path):
        self.name, self.words, self.pairs = os.path.basename(path).removesuffix(".edit"), {}, []
        file = old = ""
        for line in open(path, encoding="utf-8").read().split("\n"):
            word, _, text = line.partition(": ")
            if word == "file":
                file = text
            elif word == "old":
                old = text
            elif word == "new":
                self.pairs.append((file, old, text))
            elif word:
                self.words[word] = text
        if not self.pairs:
            raise Bad(f"{self.name}: it has no `old:` and `new:`")

    def apply(self, folder):
        """Makes the change in a copy: each `old` stands once in its file."""
        for file, old, new in self.pairs:
            text = open(f"{folder}/{file}", encoding="utf-8").read()
            if text.count(old) != 1:
                raise Bad(f"{self.name}: {file} has this text {text.count(old)} times, and not once: {old}")
            open(f"{folder}/{file}", "w", encoding="utf-8").write(text.replace(old, new))


def kit():
    """The folder of the toolchain."""
    said = subprocess.run(["rt", "doc"], capture_output=True, text=True, check=True).stdout
    return os.path.dirname(said.split()[-1])


def libraries(file):
    """What each crate names, from crates.txt or a file of the same form."""
    lines = [line.partition(":") for line in open(f"{TOP}/{file}", encoding="utf-8") if not line.startswith("#")]
    return {name.split()[0]: named.split() for name, _, named in lines if name.strip()}


KIT, NAMED, BEGUN = kit(), libraries("crates.txt"), time.time()


def below(crate, named=None):
    """The crates of this repository on which a crate stands, each after those that it stands on."""
    found = []
    for name in (named or NAMED)[crate]:
        found += [it for it in [*below(name), name] if it not in found] if name in NAMED else []
    return found


def is_proving():
    """Does the `rt ci` beside which this runs go on?"""
    number = os.environ.get("RT_CI")
    return bool(number) and os.path.isdir(f"/proc/{number}")


def why_not_built(crate, since, parts=PARTS[:2]):
    """Why there is no library of the crate as these parts of it stand, made since that time."""
    library = f"{TOP}/crates/{crate}/out/rlib/{crate}.rlib/format"
    try:
        # (rt may have linked it from what it keeps: then only this time is that of the link)
        made = os.stat(library).st_ctime
    except OSError:
        return "is not built here"
    for part in parts:
        for at, _, names in os.walk(f"{TOP}/crates/{crate}/{part}"):
            if any(os.path.getmtime(f"{at}/{name}") > made for name in names):
                return f"was built before a change of its {part}/"
    return None if made >= since else "was built by an earlier run"


def wait_for(crates):
    """Waits for the libraries of these crates, while `rt ci` runs beside."""
    for crate in crates:
        while True:
            goes_on = is_proving()
            why = why_not_built(crate, BEGUN if goes_on else 0)
            if not why:
                break
            if not goes_on:
                raise Bad(f"{crate} {why}: run `rt ci` first")
            time.sleep(5)


def copy_of(crate, to):
    """Copies what a check reads of a crate."""
    for part in PARTS:
        if os.path.isdir(f"{TOP}/crates/{crate}/{part}"):
            shutil.copytree(f"{TOP}/crates/{crate}/{part}", f"{to}/{part}")


def check(folder, crate, changed, functions, *more):
    """What a check of these functions of the crate says. The crate and those in `changed`, on which it
    stands, are read from their copies below the folder. The last line is the time that it took."""
    words = [f"{KIT}/bin/rattle", "check", "--crate-name", crate, "src/lib.rt", "--links", f"{crate}=", "--jobs", "1"]
    ours = below(crate)
    # (a crate that is read as source names its libraries too)
    named = {it for name in [crate, *changed] for it in NAMED[name]}
    for name in ["std", *(["core"] if changed else []), *sorted(named - {*ours}), *(it for it in ours if it in named)]:
        if name in changed:
            used = ",".join(["core", "std", *NAMED[name]])
            words += ["--lib", f"{name}:{used}={folder}/{name}/src/lib.rt"]
        else:
            words += ["--extern", f"{name}={library_of(name)}"]
    folders = [f"{KIT}/rlibs", *(os.path.dirname(library_of(it)) for it in ours if it not in changed)]
    words += [word for it in folders for word in ("-L", f"dependency={it}")]
    words += ["--antt-project", f"{KIT}/rattle/logic/antt-project.json", "--logic-built", f"{KIT}/logic_built", *more]
    words += [word for it in functions for word in ("--only", it)]
    with tempfile.TemporaryFile("w+", encoding="utf-8") as said:
        how = {"stdin": subprocess.DEVNULL, "stdout": said, "stderr": subprocess.STDOUT}
        process = subprocess.Popen(words, cwd=f"{folder}/{crate}", **how)
        _, _, used = os.wait4(process.pid, 0)
        said.seek(0)
        return f"{said.read()}\ntook {used.ru_utime + used.ru_stime:.0f} s of a processor\n"


def library_of(name):
    """Where the library of a crate, or of the kit, lies."""
    return f"{TOP}/crates/{name}/out/rlib/{name}.rlib" if name in NAMED else f"{KIT}/rlibs/{name}.rlib"


def verdicts_of(said):
    """What the check says of each function, by its whole name."""
    return dict(re.findall(r"^fn (\S+): (proved|not proved|no proof|could not tell|no holes|depends on a hole)", said, re.M))


def entries_of(said):
    """The entries of what a check says, a line each: one that goes on has its further lines indented."""
    return re.sub(r"\n +", " ", said).split("\n")


def digest(said):
    """What a check says of the functions that it refuses, and the places that it names."""
    lines = [it for it in said.split("\n") if re.match(r"fn \S+: (?!proved|no holes|depends on a hole)|(note: )?\S+:\d+:\d+: ", it)]
    return "\n".join(f"    {it[:200]}" for it in lines or said.split("\n")[-5:])


def number_in(file, word):
    """The number behind a word of a file of the system."""
    with open(file, encoding="utf-8") as it:
        return int(re.search(rf"^{word}:? +(\d+)", it.read(), re.M)[1])


def lanes(each=3_000_000):
    """How many tries may begin at once: one a processor, and each may take 3 GB."""
    return max(min(len(os.sched_getaffinity(0)), number_in("/proc/meminfo", "MemAvailable") // each), 1)


def idle():
    """How many processors have nothing to do, by the least of some readings."""
    found = []
    for _ in range(5):
        # (this process counts too)
        found.append(len(os.sched_getaffinity(0)) + 1 - number_in("/proc/stat", "procs_running"))
        time.sleep(0.2)
    return min(found)


class Turns:
    """Lets as many tries go on at once as there are lanes. Beside `rt ci` these are half of the processors, and
    more where some are idle."""

    def __init__(self):
        self.asking, self.free, self.running = threading.Lock(), threading.Lock(), 0

    def has_room(self):
        """May one more begin?"""
        most, free = len(os.sched_getaffinity(0)), number_in("/proc/meminfo", "MemAvailable")
        if is_proving():
            most = min(most, max(most // 2, self.running + idle()))
            # (so that all that runs takes some 16 GB at most)
            free = min(free, free + 17_000_000 - number_in("/proc/meminfo", "MemTotal"))
        return self.running < most and free > 3_000_000

    def __enter__(self):
        with self.asking:
            while self.running and not self.has_room():
                time.sleep(3)
            with self.free:
                self.running += 1

    def __exit__(self, *_):
        with self.free:
            self.running -= 1


def try_all(what, tries, needs, call, done="refused"):
    """Makes each of these tries, some at once, each once the crates that it needs are built, and returns whether
    all went well."""
    turns, failures = Turns(), []

    def one(given):
        try:
            wait_for(needs(*given))
            with turns, tempfile.TemporaryDirectory(prefix=f"{what}-") as room:
                return [print(f"{what}: {it}", flush=True) for it in call(room, *given)]
        except Bad as why:
            print(f"{what}: {why}", file=sys.stderr, flush=True)
            failures.append(why)
            return None

    # (one that waits keeps no other from its turn)
    with ThreadPoolExecutor(len(tries) or 1) as pool:
        results = list(pool.map(one, tries))
    lost = results.count(None)
    refused = sum(len(it) for it in results if it is not None)
    # (the gate shows how the output of a part that failed ends)
    for why in failures:
        print(f"{what}: FAILED: {why}", flush=True)
    print(f"{what}: {refused} {done}; {lost} of {len(results)} tries failed", flush=True)
    return bool(results) and not lost
