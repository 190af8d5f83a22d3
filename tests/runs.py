"""Runs papaya-run, and compares what it prints, what it says on standard error and its exit status:
the runs of tests/runs.txt, long ones whose replies a plain dictionary gives, and the scripts of
tests/answers, with what papaya 0.2.5 answered. As many parts run at a time as there are processors.

    python3 tests/runs.py PROGRAM
"""

import os
import random
import subprocess
import sys
from concurrent.futures import ProcessPoolExecutor

WRAP = 2**64

HERE = os.path.dirname(os.path.abspath(__file__))


class Runs:
    def __init__(self, program):
        self.program, self.passed, self.failed = program, 0, 0

    def printed_by(self, args, script):
        """What a run prints, what it says on standard error, and its status."""
        words = args.split(" ") if args else []
        found = subprocess.run([self.program, *words], input=script, capture_output=True, timeout=600)
        return found.stdout.decode(), found.stderr.decode(), found.returncode

    def run_one_of(self, args, lines, printed):
        """A run on these lines, which prints one of these lists."""
        got = self.printed_by(args, "".join(f"{it}\n" for it in lines).encode())
        if got in [("".join(f"{it}\n" for it in wanted), "", 0) for wanted in printed]:
            self.passed += 1
            return
        self.failed += 1
        print(f"runs.py: papaya-run {args} on {lines[-200:]} printed {got}", file=sys.stderr)

    def is_so(self, holds, what):
        """What several runs came to is as wanted."""
        if holds:
            self.passed += 1
            return
        self.failed += 1
        print(f"runs.py: papaya-run {what}", file=sys.stderr)

    def run(self, args, lines, printed, said="", status=0, end=b"\n"):
        """A run on these lines, and the lines that it prints."""
        lines = [it if isinstance(it, bytes) else it.encode() for it in lines]
        script = b"\n".join(lines) + end if lines else b""
        self.run_script(args, script, "".join(f"{it}\n" for it in printed), script[-200:], said, status)

    def run_script(self, args, script, printed, name, said="", status=0):
        """A run on this input, which has a name, and the text that it prints."""
        got = self.printed_by(args, script)
        if got == (printed, said, status):
            self.passed += 1
            return
        self.failed += 1
        print(f"runs.py: papaya-run {args} on {name}", file=sys.stderr)
        for what, *both in zip(["output", "errors", "status"], (printed, said, status), got):
            one, other = map(str, both)
            if one != other:
                at = max(len(os.path.commonprefix([one, other])) - 100, 0)
                print(f"  {what}: wanted {one[at : at + 200]!r}, found {other[at : at + 200]!r}", file=sys.stderr)


def bytes_of(text):
    """A line, in which \\xNN is a byte."""
    return text.encode("latin-1", "backslashreplace").decode("unicode_escape").encode("latin-1")


def stored(runs):
    """The runs of runs.txt, whose head tells its format."""
    blocks = []
    for line in open(os.path.join(HERE, "runs.txt"), encoding="utf-8").read().split("\n"):
        mark, text = line[:1], line[2:]
        if mark in ("", "#"):
            continue
        if mark == "$":
            if not blocks or blocks[-1]["lines"] or blocks[-1]["printed"]:
                blocks.append({"args": [], "lines": [], "printed": [], "said": "", "status": 0, "end": b"\n"})
            blocks[-1]["args"].append(bytes_of(text).decode())
        elif mark == "=":
            blocks[-1]["status"] = int(text)
        elif mark == "~":
            blocks[-1]["said"] += f"{text}\n"
        elif mark in (">", "!", "-"):
            blocks[-1]["lines"].append((mark == "!", bytes_of(text)))
            blocks[-1]["end"] = b"" if mark == "-" else b"\n"
        else:
            blocks[-1]["printed"].append(line)
    for it in blocks:
        turns = [at for at, (in_turn, _) in enumerate(it["lines"]) if in_turn] or [None]
        for turn in turns:
            lines = [text for at, (in_turn, text) in enumerate(it["lines"]) if not in_turn or at == turn]
            for args in it["args"]:
                runs.run(args, lines, it["printed"], it["said"], it["status"], it["end"])


def answered(runs, backend):
    """The scripts of tests/answers on a map in each mode: it answers what papaya 0.2.5 did. Where a script has few
    keys, they share a path too."""
    folder = os.path.join(HERE, "answers")
    for name in sorted(it.removesuffix(".in") for it in os.listdir(folder) if it.endswith(".in")):
        script, printed = (open(os.path.join(folder, name + end), "rb").read() for end in (".in", ".out"))
        keys = {words[1] for words in map(bytes.split, script.splitlines()) if len(words) > 1}
        for mode in ["inc:1", "inc:2", "inc:64", "block"]:
            for hasher in ["id", "zero"] if len(keys) <= 15 else ["id"]:
                runs.run_script(f"{backend} {mode} {hasher}", script, printed.decode(), f"answers/{name}.in")


class Plain:
    """The map, as a dictionary. Each call answers what the program prints for it."""

    def __init__(self):
        self.pairs = {}

    def call(self, line):
        if line == "walk":
            return "walk" + "".join(f" {key}={value}" for key, value in sorted(self.pairs.items()))
        if line == "clear":
            self.pairs = {}
            return "ok"
        if line == "len":
            return f"len {len(self.pairs)}"
        word, key, *value = line.split(" ")
        old = self.pairs.get(int(key))
        if word == "g":
            return "none" if old is None else f"some {old}"
        if word == "i":
            self.pairs[int(key)] = int(value[0])
            return "none" if old is None else f"old {old}"
        if old is None:
            return "none"
        if word == "r":
            del self.pairs[int(key)]
            return f"removed {old}"
        self.pairs[int(key)] = (old + 1) % WRAP
        return f"new {(old + 1) % WRAP}"


def by_lines(runs, args, calls):
    """The calls on a backend that does each line in turn, with the number of pairs after them."""
    plain = Plain()
    calls = [*calls, "len"]
    runs.run(args, calls, [plain.call(it) for it in calls])


def by_callers(runs, args, calls):
    """The calls on the core, each by another caller, whole."""
    plain, lines, printed = Plain(), [], []
    for at, call in enumerate(calls):
        lines += [f"begin {at % 64} {call}", f"finish {at % 64}"]
        printed.append(f"{at % 64}: {plain.call(call)}")
    runs.run(args, lines, printed)


def grown(keys):
    """Keys are stored, each found at once beside older ones; the odd ones are removed, the even ones
    updated; then all are looked up."""
    calls = []
    for key in range(keys):
        calls += [f"i {key} {key}", "g 0", f"g {key // 2}", f"g {key}", f"g {key + 1}"]
    calls += [f"r {key}" if key % 2 else f"u {key}" for key in range(keys)]
    return calls + [f"g {key}" for key in range(keys + 1)]


def mixed(seed, calls, keys):
    """Calls of all kinds on some keys."""
    drawn = random.Random(seed)
    lines = []
    for _ in range(calls):
        word, key = drawn.choice("igru"), drawn.randrange(keys)
        lines.append(f"i {key} {drawn.randrange(WRAP)}" if word == "i" else f"{word} {key}")
    return lines


def walked(runs):
    """All pairs, after each of the calls that make the map grow and empty it again, and among calls of
    all kinds."""
    for mode in ["inc:1", "inc:3", "inc:64", "block"]:
        for args in [f"{backend} {mode} {hasher}" for backend in ["seq", "shared"] for hasher in ["id", "zero"]]:
            keys = random.Random(mode).sample(range(1000), 100)
            stores = [line for key in keys for line in (f"i {key} {key + 1}", "walk")]
            removals = [line for key in keys for line in (f"r {key}", "walk")]
            by_lines(runs, args, [*stores, *removals])
            by_lines(runs, args, [*stores, "clear", "walk", *stores])
            for seed in range(2):
                by_lines(runs, args, with_walks(seed, mixed(seed, 1000, 60)))
        for hasher in ["id", "zero"]:
            by_callers(runs, f"core {mode} {hasher}", with_walks(0, mixed(0, 1000, 60)))


def with_walks(seed, calls):
    """These calls, with walks and a few clears among them."""
    drawn = random.Random(seed)
    others = drawn.choices(["", "walk", "clear"], [90, 9, 1], k=len(calls))
    return [it for pair in zip(calls, others) for it in pair if it]


def upstream(keys):
    """The cases of papaya's own tests of the map that these lines can say, by their names there, with so many
    keys where a case has many. Each begins with a new map."""
    stores = [f"i {key} {key + 1}" for key in range(keys)]
    looks = [f"g {key}" for key in range(keys)]
    return {
        "new": ["len"],
        "clear": [*[f"i {key} 1" for key in range(5)], "clear", "len"],
        "insert": ["i 42 0"],
        "get_empty": ["g 42"],
        "remove_empty": ["r 42"],
        "insert_and_remove": ["i 42 0", "r 42", "g 42"],
        "insert_and_get": ["i 42 0", "g 42"],
        "reinsert": ["i 42 0", "i 42 1", "g 42"],
        "update": ["i 42 0", "len", "u 42", "len", "g 42"],
        "update_empty": ["u 42", "g 42"],
        "len": [*stores, "len"],
        "iter": [*stores, "walk"],
        "test_zero_hasher": [*stores, f"g {WRAP - 1}", *looks, f"g {keys}", f"g {WRAP // 2}"],
    }


def as_upstream(runs):
    """These cases in both modes, on each backend, with keys that have paths of their own and keys on one path."""
    for mode in ["inc:1", "inc:64", "block"]:
        for hasher, keys in [("id", 10_000), ("zero", 100)]:
            for case in upstream(keys).values():
                for backend in ["seq", "shared"]:
                    by_lines(runs, f"{backend} {mode} {hasher}", case)
            for case in upstream(min(keys, 1000)).values():
                by_callers(runs, f"core {mode} {hasher}", [it for it in case if it != "len"])


def computed(runs):
    """Keys have paths of their own by `id`, and share one by `zero`."""
    for mode in ["inc:1", "inc:2", "inc:3", "inc:64", f"inc:{WRAP - 1}", "block"]:
        for backend, run in [("seq", by_lines), ("shared", by_lines), ("core", by_callers)]:
            run(runs, f"{backend} {mode} id", grown(1000))
            run(runs, f"{backend} {mode} zero", grown(100))
            for seed in range(4):
                run(runs, f"{backend} {mode} id", mixed(seed, 1000, 60))
                run(runs, f"{backend} {mode} zero", mixed(seed, 1000, 30))


def full(runs):
    """A table of 32 slots that is full, of keys that have paths of their own and of keys on one path:
    the map goes on in longer ones."""

    def run(args, keys, lines, printed):
        stores = [f"i {key} 1" for key in range(keys)]
        runs.run(args, [*stores, *lines], [*(["none"] * keys), *printed])

    for mode in ["inc:64", "block"]:
        lines = ["slots", "i 32 1", "len", "g 32", "slots"]
        run(f"seq {mode} id", 32, lines, ["slots 32", "none", "len 33", "some 1", "slots 64"])
        looks = [(26, 32), (27, 64), (31, 64), (32, 64), (64, 64), (67, 256), (100, 256)]
        for keys, slots in [*looks, (65, 256) if mode == "block" else (65, 128)]:
            run(f"seq {mode} zero", keys, ["slots", "len"], [f"slots {slots}", f"len {keys}"])
        run(f"shared {mode} id", 32, ["i 32 1", "len", "g 32"], ["none", "len 33", "some 1"])
    for mode in ["inc:1", "block"]:
        stores = [f"i {key} {key}" for key in range(100)]
        looks = ["g 0", "g 99", "g 100"]
        runs.run(f"shared {mode} zero", [*stores, *looks], [*(["none"] * 100), "some 0", "some 99", "none"])
    # A table in which pairs were removed everywhere makes room for a smaller one.
    lines = [f"{word} {key}{' 1' if word == 'i' else ''}" for key in range(26) for word in "ir"]
    printed = ["none", "removed 1"] * 26
    lines += ["slots", "len", "i 26 1", "slots", "len"]
    runs.run("seq inc:64 zero", lines, [*printed, "slots 32", "len 0", "none", "slots 16", "len 1"])


# How many steps a call of key 7 makes. In a new map an insertion loads the root, makes a table, opens
# it, learns its size, loads the hint and the slot, makes the key, the value and the pair, claims the slot,
# counts, and writes the hint. Where the key is there any call loads the root, learns the size, loads the
# hint and the slot and compares the key. A lookup is over then. An update shows the pair, makes the value
# and the new pair, and replaces the old one; a removal shows the pair, deletes it, and counts.
STEPS = {"i": 12, "g": 5, "u": 9, "r": 8}

# The step in which an insertion into a new map claims the slot.
CLAIM = 10

# A call that is stopped, another one, and the step in which the first one looks or changes the map.
# Then what is printed for each of them and what is found after both, where the first is stopped before
# that step, and where it is stopped later.
STOPPED = [
    ("i 7 100", "i 7 200", CLAIM, ("old 200", "none", "some 100"), ("none", "old 100", "some 200")),
    ("u 7", "i 7 5", 9, ("new 6", "old 1", "some 6"), ("new 2", "old 2", "some 5")),
    ("r 7", "g 7", 7, ("removed 1", "some 1", "none"), ("removed 1", "none", "none")),
    ("g 7", "r 7", 4, ("none", "removed 1", "none"), ("some 1", "removed 1", "none")),
    ("r 7", "i 7 2", 7, ("removed 2", "old 1", "none"), ("removed 1", "none", "some 2")),
]


def stopped(runs, rest):
    """Caller 0 is stopped after each number of its steps, caller 1 makes a call whole, and caller 0 goes
    on. Caller 2 looks the key up then."""
    for own, other, step, before, after in STOPPED:
        is_there = not own.startswith("i")
        last = STEPS[own[0]]
        for made in range(last + 1):
            lines = ["begin 3 i 7 1", "finish 3"] if is_there else []
            lines += [f"begin 0 {own}", *["step 0"] * made, f"begin 1 {other}", "finish 1"]
            lines += [*(["finish 0"] if made < last else []), "begin 2 g 7", "finish 2"]
            first, second, found = before if made < step else after
            said = [f"1: {second}", f"0: {first}"] if made < last else [f"0: {first}", f"1: {second}"]
            runs.run(f"core {rest}", lines, [*(["3: none"] if is_there else []), *said, f"2: {found}"])


def without_memory(runs, rest):
    """An insertion makes one step without memory after so many: it is refused where that step makes a
    table, the key, the value or the pair."""
    for made in range(STEPS["i"]):
        lines = ["begin 0 i 7 100", *["step 0"] * made, "refuse 0"]
        is_refused = made in (1, 6, 7, 8)
        is_over = is_refused or made == STEPS["i"] - 1
        lines += [*([] if is_over else ["finish 0"]), "begin 2 g 7", "finish 2"]
        printed = ["0: refused 1 Memory", "2: none"] if is_refused else ["0: none", "2: some 100"]
        runs.run(f"core {rest}", lines, printed)


# A key whose path begins in the slot of key 7. By `id` its hash has another byte.
NAMESAKE = 7 + 2**57


def before_its_hint(runs, rest):
    """Caller 0 is stopped after each number of steps of an insertion: between two of them its pair stands in
    its slot, whose hint is not written yet. Caller 1 finds the pair, replaces and removes it, beside a
    namesake of its key, and caller 0 goes on. Each call has the answer that it has whole, the insertion
    before those of caller 1 from its claim on, and after them till then."""
    others = [f"i {NAMESAKE} 1", "g 7", "i 7 200", "g 7", f"g {NAMESAKE}", "r 7", "g 7", f"r {NAMESAKE}"]
    later = ["g 7", f"g {NAMESAKE}", "u 7", "r 7", "g 7"]
    for made in range(STEPS["i"]):
        plain = Plain()
        said = around(plain, "i 7 100", made >= CLAIM, others)
        lines = ["begin 0 i 7 100", *["step 0"] * made, *wholes(1, others), "finish 0", *wholes(2, later)]
        runs.run(f"core {rest}", lines, [*said, *(f"2: {plain.call(it)}" for it in later)])


def around(plain, own, is_first, others):
    """What is printed for a call of caller 0 and the calls that caller 1 makes while it is stopped, where the
    first one's change is before theirs, or after."""
    first = plain.call(own) if is_first else None
    return [*(f"1: {plain.call(it)}" for it in others), f"0: {first or plain.call(own)}"]


# Two calls on a map that has the keys below the first number, each with its own value.
OVERLAPPING = [
    *[(0, first, second) for first, second in [("i 0 20", "i 0 30"), ("i 0 20", "i 1 30"), ("u 0", "i 0 30")]],
    *[(1, first, second) for first in ["i 0 20", "u 0", "r 0"] for second in ["i 0 30", "u 0", "r 0", "g 0"]],
    # A walk or a clear, beside which one key is changed.
    *[(3, first, second) for first in ["walk", "clear"] for second in ["i 1 30", "i 3 30", "u 1", "r 1"]],
    # The table has 32 slots, and the first call needs a longer one.
    *[(32, "i 32 20", second) for second in ["i 0 30", "i 32 30", "i 33 30", "u 0", "u 32", "r 0", "g 0", "g 32"]],
    *[(32, "i 32 20", second) for second in ["walk", "clear"]],
]


def rounds_of(runs, args, lines, steps, most=1000):
    """How often these lines go on before one of them is bad: a step of a caller whose call has replied. The
    program says which line is. At most so often."""
    script = "".join(f"{it}\n" for it in [*lines, *steps * most])
    said = runs.printed_by(args, script.encode())[1]
    if not said:
        return most
    bad = int(said.removeprefix("papaya-run: line ").split(":")[0])
    return (bad - 1 - len(lines)) // len(steps)


def steps_of(runs, args, lines, caller, most=1000):
    """How many steps this caller makes until its call replies."""
    return rounds_of(runs, args, lines, [f"step {caller}"], most)


def some_of(steps, most):
    """At most so many numbers of steps that leave the call under way, evenly."""
    return sorted({at * (steps - 1) // max(most - 1, 1) for at in range(most)})


def outcome(keys, calls, looks):
    """What is printed for these calls, each whole before the next, and for lookups then."""
    plain = Plain()
    for key in range(keys):
        plain.call(f"i {key} {key}")
    said = {caller: plain.call(call) for caller, call in calls}
    return said, [f"2: {plain.call(look)}" for look in looks]


def orders_of(first, second):
    """The orders of two calls that may come out. A clear takes out one pair after another, so what the
    other call puts in after its pair has gone may go too, or not: a clear, that call, and a clear again."""
    calls = [(0, first), (1, second)]
    clears = [it for it in calls if it[1] == "clear"]
    between = [[clear, it, clear] for clear in clears for it in calls if it != clear]
    return [calls, calls[::-1], *between]


def overlapping(runs, args):
    """Caller 0 is stopped after some of its steps and caller 1 after some of its own; then caller 0 ends
    its call, and caller 1. What they answer, what is found and what a walk gives then comes of one call
    whole before the other, or of a clear on both sides of the other."""
    for keys, *calls in OVERLAPPING:
        for first, second in [calls, calls[::-1]]:
            overlap(runs, args, keys, first, second)


def overlap(runs, args, keys, first, second):
    begun = [line for key in range(keys) for line in (f"begin 0 i {key} {key}", "finish 0")] + [f"begin 0 {first}"]
    looks = [*[f"g {key}" for key in range(keys + 2)], "walk"]
    found = [line for look in looks for line in (f"begin 2 {look}", "finish 2")]
    printed = []
    for calls in orders_of(first, second):
        said, after = outcome(keys, calls, looks)
        printed.append([*(["0: none"] * keys), f"0: {said[0]}", f"1: {said[1]}", *after])
    for made in some_of(steps_of(runs, args, begun, 0), 8):
        stopped = [*begun, *["step 0"] * made, f"begin 1 {second}"]
        for other in some_of(steps_of(runs, args, stopped, 1), 6):
            lines = [*stopped, *["step 1"] * other, "finish 0", "finish 1", *found]
            runs.run_one_of(args, lines, printed)


# One call of each kind on a map that has the keys below a number: a key that is there, one that is not, or all.
def each_call(keys):
    return [f"i {keys} 20", "i 0 20", "g 0", "u 0", "r 0", "walk", "clear"]


def each_pair(runs, args, full_at):
    """For each two calls: caller 0 is stopped after each number of its steps, caller 1 makes its call whole,
    within 1,000,000 steps, and caller 0 goes on. What they answer, what each key has and what a walk gives then
    comes of one call whole before the other, or of a clear on both sides of the other; a walk beside a clear gives
    some of the pairs. The map has one key, or its first table is full and an insertion has to go on in a longer
    one."""
    for keys in [1, full_at]:
        for first in each_call(keys):
            stop_at_each(runs, args, keys, first, each_call(keys))


def stop_at_each(runs, args, keys, first, seconds):
    """The first call is stopped after each number of its steps, and one of the others is made."""
    begun = [*filled(keys), f"begin 0 {first}"]
    looks = [*[f"g {key}" for key in range(keys + 1)], "walk"]
    outcomes = {}
    for second in seconds:
        printed = []
        for calls in orders_of(first, second):
            said, after = outcome(keys, calls, looks)
            printed.append([*(["0: none"] * keys), f"1: {said[1]}", f"0: {said[0]}", *after])
        outcomes[second] = printed
    for made in range(steps_of(runs, args, begun, 0)):
        for second in seconds:
            lines = [*begun, *["step 0"] * made, *whole(1, second), "finish 0", *wholes(2, looks)]
            if {first, second} == {"walk", "clear"}:
                walk_some(runs, args, lines, keys, outcomes[second])
            else:
                runs.run_one_of(args, lines, outcomes[second])


def walk_some(runs, args, lines, keys, printed):
    """A walk beside a clear gives some of the pairs, and all else is as one of these lists has it."""
    got, said, status = runs.printed_by(args, "".join(f"{it}\n" for it in lines).encode())
    given = [it.split(" ") for it in got.splitlines()]
    pairs = {f"{key}={key}" for key in range(keys)}
    walks = [it for it in given[keys : keys + 2] if it[1] == "walk"]
    is_some = all(len({*walk[2:]}) == len(walk[2:]) and {*walk[2:]} <= pairs for walk in walks)
    plain = [[it[:2] if it in walks else it for it in given]]
    wanted = [[it.split(" ")[:2] if " walk" in it else it.split(" ") for it in one] for one in printed]
    runs.is_so(is_some and plain[0] in wanted and (said, status) == ("", 0), f"{args} on {lines[-200:]} printed {got}")


# A first table has so many slots: by `id` so many keys fill it, and the next one asks for a longer table.
FULL = 32

GROWING = ["core inc:1 id", "core inc:2 id", "core inc:64 id", "core block id"]


def whole(caller, call):
    return [f"begin {caller} {call}", f"finish {caller}"]


def wholes(caller, calls):
    return [line for call in calls for line in whole(caller, call)]


def filled(keys):
    """Keys from 0 on, each with itself for a value."""
    return [line for key in range(keys) for line in whole(0, f"i {key} {key}")]


def looked_up(first, keys):
    """Lookups of these keys and of the next one."""
    return [line for key in range(first, keys + 1) for line in whole(2, f"g {key}")]


def found(first, keys):
    """What is printed where these keys are there, and the next one is not."""
    return [*[f"2: some {key}" for key in range(first, keys)], "2: none"]


def walk_of(keys):
    return "2: walk" + "".join(f" {key}={key}" for key in sorted(keys))


def stepping_in_turn(runs):
    """Two callers insert a key each, step by step in turn: the table is as good as full."""
    for args in GROWING:
        for keys in [*range(3), *range(FULL - 6, FULL + 3)]:
            lines = [*filled(keys), f"begin 0 i {keys} {keys}", f"begin 1 i {keys + 1} {keys + 1}"]
            rounds = rounds_of(runs, args, lines, ["step 0", "step 1"])
            lines += [*["step 0", "step 1"] * (rounds - 1), "finish 0", "finish 1", *looked_up(0, keys + 2)]
            runs.run(args, lines, [*["0: none"] * (keys + 1), "1: none", *found(0, keys + 2)])


def growing(runs):
    """Caller 0 is stopped after each number of steps of an insertion that needs a longer table. Then
    others go on as if it were not there, each with whole calls, and at last caller 0 does."""
    for args in GROWING:
        begun = [*filled(FULL), f"begin 0 i {FULL} {FULL}"]
        stored = ["0: none"] * FULL
        for made in range(steps_of(runs, args, begun, 0)):
            stopped = [*begun, *["step 0"] * made]
            store_more(runs, args, stopped, stored)
            clear_or_walk(runs, args, stopped, stored)
            change_each(runs, args, stopped, stored)


def store_more(runs, args, stopped, stored):
    """Caller 1 stores so many keys that the longer table is full too."""
    keys = range(FULL + 1, 2 * FULL + 4)
    lines = [line for key in keys for line in whole(1, f"i {key} {key}")]
    lines = [*stopped, *lines, *looked_up(FULL + 1, keys.stop), "finish 0", *looked_up(0, keys.stop)]
    said = [*["1: none"] * len(keys), *found(FULL + 1, keys.stop)]
    runs.run(args, lines, [*stored, *said, "0: none", *found(0, keys.stop)])


def clear_or_walk(runs, args, stopped, stored):
    """Caller 1 clears the map, or walks it and removes a key. What caller 0 stores may be there then or not."""
    looks = [line for key in range(FULL) for line in whole(2, f"g {key}")]
    lines = [*stopped, *whole(1, "clear"), "finish 0", *looks, *whole(2, "walk")]
    printed = [*stored, "1: ok", "0: none", *["2: none"] * FULL]
    runs.run_one_of(args, lines, [[*printed, walk_of(left)] for left in ([], [FULL])])
    lines = [*stopped, *whole(2, "walk"), *whole(1, "r 0"), "finish 0", *whole(1, "g 0"), *looked_up(1, FULL + 1)]
    printed = ["1: removed 0", "0: none", "1: none", *found(1, FULL + 1)]
    runs.run_one_of(args, lines, [[*stored, walk_of(range(end)), *printed] for end in (FULL, FULL + 1)])


def change_each(runs, args, stopped, stored):
    """Caller 1 finds each key, replaces and removes it, also one that caller 0 is copying, whose pair may stand
    in the longer table without a hint. What caller 0 stores may be there before these calls or not."""
    keys = range(FULL + 1)
    own = f"i {FULL} {FULL}"
    others = [call for key in keys for call in (f"g {key}", f"i {key} 0", f"r {key}")]
    looks = [f"g {key}" for key in keys]
    lines = [*stopped, *wholes(1, others), "finish 0", *wholes(2, looks)]
    printed = []
    for is_first in (True, False):
        plain = Plain()
        for key in range(FULL):
            plain.call(f"i {key} {key}")
        said = around(plain, own, is_first, others)
        printed.append([*stored, *said, *(f"2: {plain.call(it)}" for it in looks)])
    runs.run_one_of(args, lines, printed)


def walking(runs):
    """Caller 2 is stopped after each number of steps of a walk, while a key is stored for which a longer
    table is made, and another removed: these may be walked or not, and each other one is, once."""
    for args in GROWING:
        begun = [*filled(FULL), "begin 2 walk"]
        printed = [*["0: none"] * FULL, "1: none", "1: removed 3"]
        walks = [walk_of({*range(FULL)} - gone | new) for gone in (set(), {3}) for new in (set(), {FULL})]
        for made in range(steps_of(runs, args, begun, 2)):
            lines = [*begun, *["step 2"] * made, *whole(1, f"i {FULL} {FULL}"), *whole(1, "r 3"), "finish 2"]
            runs.run_one_of(args, lines, [[*printed, walk] for walk in walks])


def growing_without_memory(runs):
    """One step of an insertion that needs a longer table has no memory. The call is refused where that step
    makes the key, the value, the pair or the table, and nowhere else; then there is memory, and the map grows."""
    keys = FULL + 4
    later = [line for key in range(FULL, keys) for line in whole(1, f"i {key} {key}")]
    for args in GROWING:
        begun = [*filled(FULL), f"begin 0 i {FULL} {FULL}"]
        refused = 0
        for made in range(steps_of(runs, args, begun, 0) - 1):
            lines = [*begun, *["step 0"] * made, "refuse 0"]
            is_refused = "refused" in runs.printed_by(args, "".join(f"{it}\n" for it in lines).encode())[0]
            refused += is_refused
            lines += [*([] if is_refused else ["finish 0"]), *looked_up(0, FULL + (not is_refused))]
            said = ["0: refused 1 Memory" if is_refused else "0: none", *found(0, FULL + (not is_refused))]
            olds = ["1: none" if is_refused else f"1: old {FULL}", *["1: none"] * (keys - FULL - 1)]
            printed = [*["0: none"] * FULL, *said, *olds, *found(0, keys)]
            runs.run(args, [*lines, *later, *looked_up(0, keys)], printed)
        runs.is_so(refused == 4, f"{args}: {refused} steps of a growth make something")


def said_by(runs, args, lines, keys):
    """What is printed after the insertions of so many keys."""
    return runs.printed_by(args, "".join(f"{it}\n" for it in lines).encode())[0].splitlines()[keys:]


def steps_that_make(runs, args, keys, call):
    """How many steps of this call by caller 0 come before each that is refused without memory. Each step is made
    without memory once, and where none of them is refused any more, the call answers."""
    begun, steps, made, plain = [*filled(keys), f"begin 0 {call}"], [], 0, plain_of(keys)
    while True:
        made += rounds_of(runs, args, [*begun, *["step 0"] * made], ["refuse 0"], 20000)
        said = said_by(runs, args, [*begun, *["step 0"] * (made - 1), "refuse 0"], keys)
        if said != ["0: refused 1 Memory"]:
            runs.is_so(said == [f"0: {plain.call(call)}"], f"{args} with {keys} keys: {call} without memory: {said}")
            return steps
        steps.append(made - 1)


def plain_of(keys):
    """The map that has so many keys."""
    plain = Plain()
    for key in range(keys):
        plain.call(f"i {key} {key}")
    return plain


# Maps in which a table is full, or is being copied, in chunks of one slot through up to three tables. The fourth
# gives a table up.
WITHOUT_MEMORY = [
    *[(args, keys) for args in GROWING for keys in [FULL, FULL + 2]],
    *[("core inc:1 zero", keys) for keys in [26, 27, 40, 63, 64, 65, 66]],
    *[(f"core {mode} zero", keys) for mode in ["inc:4", "inc:64", "block"] for keys in [26, 63, 64]],
]


def each_without_memory(runs):
    """One step of each call has no memory, and the call is refused by it. Then no pair has changed, but a clear may
    have taken some out. With memory the call answers."""
    refused = {}
    for args, keys in WITHOUT_MEMORY:
        for call in each_call(keys):
            steps = steps_that_make(runs, args, keys, call)
            refused[args, keys, call] = len(steps)
            for made in steps:
                lines = [*filled(keys), f"begin 0 {call}", *["step 0"] * made, "refuse 0"]
                refuse_step(runs, args, keys, call, lines)
    # An insertion makes its key, its value, its pair and a table, and one more where that is given up.
    of_new = [refused[args, keys, f"i {keys} 20"] for args, keys in [("core block id", FULL), ("core block zero", 64)]]
    of_others = [sum(it for (*_, call), it in refused.items() if call == word) for word in ["walk", "clear", "r 0"]]
    runs.is_so(of_new == [4, 5] and all(of_others), f"makes something in {of_new} and {of_others} steps")


def refuse_step(runs, args, keys, call, lines):
    """A call of caller 0 is refused by these lines, and caller 1 makes it then."""
    looks = [*[f"g {key}" for key in range(keys + 1)], "walk"]
    plain = plain_of(keys)
    if call == "clear":
        for key, it in enumerate(said_by(runs, args, [*lines, *wholes(2, looks)], keys)[1:-2]):
            plain.call(f"g {key}" if it != "2: none" else f"r {key}")
    printed = ["0: refused 1 Memory", *(f"2: {plain.call(it)}" for it in looks)]
    printed += [f"1: {plain.call(it)}" for it in [call, *looks]]
    runs.run(args, [*lines, *wholes(2, looks), *wholes(1, [call, *looks])], [*["0: none"] * keys, *printed])


def removing_beside_a_refusal(runs):
    """Caller 0 makes one step of an insertion without memory, before or after caller 2 walks the map and caller 1
    removes a key, and goes on to its end. The key is gone then, and each other one is there."""
    others = [*whole(2, "walk"), *whole(1, "r 0")]
    looks = [*whole(1, "g 0"), *looked_up(1, FULL + 1), *whole(2, "walk")]
    for args in GROWING:
        begun = [*filled(FULL), f"begin 0 i {FULL} {FULL}"]
        for made in range(steps_of(runs, args, begun, 0)):
            stopped = [*begun, *["step 0"] * made]
            for lines in [[*stopped, "refuse 0", *others], [*stopped, *others, "refuse 0"]]:
                replies = [it for it in said_by(runs, args, lines, FULL) if it.startswith("0: ")]
                lines += [*([] if replies else ["finish 0"]), *looks]
                replies = replies or ["0: none"]
                end = FULL + (replies == ["0: none"])
                kept = ["1: none", *found(1, end), *["2: none"] * (FULL + 1 - end), walk_of(range(1, end))]
                walks = [walk_of(range(walked)) for walked in {FULL, end}]
                beside = [[walk, "1: removed 0"] for walk in walks]
                orders = [order for it in beside for order in ([*replies, *it], [*it, *replies])]
                runs.run_one_of(args, lines, [[*["0: none"] * FULL, *it, *kept] for it in orders])


def two_copiers(runs):
    """Each of two callers is stopped after each number of steps of an insertion that copies a chunk of the full
    table, one from chunk 0 on and the other from chunk 5, and both go on: each cut of one of them with twelve of
    the other's. Each key is found once then."""
    for hasher, keys in [("id", FULL), ("zero", 26)]:
        args = f"core inc:4 {hasher}"
        last = keys + 2
        begun = [*filled(keys), *whole(2, f"i {keys} {keys}"), f"begin 0 i {keys + 1} {keys + 1}"]
        ends = ["finish 0", "finish 5", *looked_up(0, last + 1), *whole(2, "walk")]
        printed = [*["0: none"] * keys, "2: none", "0: none", "5: none", *found(0, last + 1), walk_of(range(last + 1))]
        steps = steps_of(runs, args, begun, 0)
        for made in range(steps):
            stopped = [*begun, *["step 0"] * made, f"begin 5 i {last} {last}"]
            others = steps_of(runs, args, stopped, 5)
            for other in range(others) if made in some_of(steps, 12) else some_of(others, 12):
                runs.run(args, [*stopped, *["step 5"] * other, *ends], printed)


def looking_up_beside_a_copy(runs):
    """An insertion copies a whole table of 64 keys on one path. A lookup finds its key after each step of it,
    and so does one that is stopped after each of its own steps, while the insertion is made whole."""
    args = "core block zero"
    stored = ["0: none"] * (2 * FULL)
    insertion = f"i {2 * FULL} 0"
    begun = [*filled(2 * FULL), f"begin 1 {insertion}"]
    steps = steps_of(runs, args, begun, 1, most=20000)
    # A hundred steps a run, since lookups make a trace long.
    for made in range(0, steps, 100):
        rounds = min(100, steps - made)
        lines = [*begun, *["step 1"] * made, *["step 1", *whole(2, "g 5")] * rounds]
        last = ["1: none"] if made + rounds == steps else []
        runs.run(args, lines, [*stored, *["2: some 5"] * (rounds - 1), *last, "2: some 5"])
    begun = [*filled(2 * FULL), "begin 2 g 5"]
    for made in range(steps_of(runs, args, begun, 2)):
        lines = [*begun, *["step 2"] * made, *whole(1, insertion), "finish 2"]
        runs.run(args, lines, [*stored, "1: none", "2: some 5"])


def held_up_by_claims(runs):
    """In `Blocking` 17 callers that have claimed slots of a table of 32, and not counted them, keep an
    insertion from ending until one of them makes a step. Beside 16 it ends, and in `Incremental`."""
    unended = ["step 63"] * 3000 + ["step 0"]
    for mode, callers, further in [("block", 17, unended), ("block", 16, []), ("inc:1", 17, []), ("inc:64", 17, [])]:
        lines = [line for key in range(15) for line in (f"begin 62 i {key} 0", "finish 62")]
        for caller in range(callers):
            lines += [f"begin {caller} i {15 + caller} 0", *[f"step {caller}"] * 8]
        lines += ["begin 63 i 32 0", *further, "finish 63"]
        runs.run(f"core {mode} id", lines, ["62: none"] * 15 + ["63: none"])


# What is run, each part with what it is called with, the longest first.
PARTS = [
    (two_copiers,),
    *[(each_pair, f"core {mode} {it}", keys) for it, keys in [("zero", 26), ("id", FULL)] for mode in ["block", "inc:2"]],
    (growing,),
    *[(overlapping, args) for args in ["core inc:1 id", "core inc:3 zero", "core block id"]],
    (each_without_memory,),
    (removing_beside_a_refusal,),
    (computed,),
    (growing_without_memory,),
    (as_upstream,),
    (looking_up_beside_a_copy,),
    (held_up_by_claims,),
    (walked,),
    *[(answered, backend) for backend in ["seq", "shared"]],
    *[(it,) for it in [stored, full, stepping_in_turn, walking]],
    *[(it, rest) for rest in ["inc:64 id", "block zero"] for it in [stopped, before_its_hint, without_memory]],
]


def passed_and_failed(program, number):
    """Does one part, and counts what passed and what failed."""
    runs, (part, *given) = Runs(program), PARTS[number]
    part(runs, *given)
    return runs.passed, runs.failed


def main(program):
    with ProcessPoolExecutor() as pool:
        counts = list(pool.map(passed_and_failed, [program] * len(PARTS), range(len(PARTS))))
    passed, failed = (sum(it) for it in zip(*counts))
    print(f"runs.py: {passed} passed, {failed} failed")
    return 0 if passed and not failed else 1


if __name__ == "__main__":
    sys.exit(main(sys.argv[1]))
