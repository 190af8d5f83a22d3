"""Runs tests with requests for memory refused to them, or answered late.

    python3 tests/refused.py --programs FOLDER [CRATE..]

The folder has the program of the crate's tests, or that of all tests (tests/run_tests.py). Tests of the first kind run once
for each request that they make, with just that one refused. Those of the second kind run once, and tell what is to
be refused, while a call of theirs runs: a request for a number of bytes that no test needs is a word (crate
papaya_testing). By such a word a test also tells which request is to be answered late, when other threads are done.
Each has to pass, and each of the second kind has to be refused something, or to get an answer late. The requests are
those of the C library's heap: a small library that is loaded before it counts them, and is built here by the
toolchain's own compiler.
"""

import os
import shutil
import subprocess
import sys
import tempfile
from concurrent.futures import ThreadPoolExecutor

TOP = os.path.dirname(os.path.dirname(os.path.abspath(__file__)))

# Refuses the request that REFUSED numbers, or what words tell, or answers it late. Then it adds a byte to the file
# REFUSED_SAYS.
LIBRARY = """
typedef unsigned long size_t;

extern char *getenv(const char *name);
extern long atol(const char *text);
extern int open(const char *path, int flags, ...);
extern long write(int file, const void *bytes, size_t count);
extern int close(int file);
extern int usleep(unsigned microseconds);
extern void *__libc_malloc(size_t size);
extern void *__libc_realloc(void *block, size_t size);

// Words, whose numbers begin at these sizes: refuse the request of a number from here on; refuse each whose number
// is a multiple; refuse none, and this word itself where one was refused since the last word. Hold the next request
// for just so many bytes, and refuse this word; let it go, and refuse this word where one was held.
enum { ONE = 7000000, EACH = 8000000, NONE = 9000000, HOLD = 10000000, LET_GO = 11000000, END = 12000000 };

// A request is held for 20 seconds at most: so many steps of so many microseconds.
enum { STEPS = 20000, STEP = 1000 };

// How many bytes the request has that is to be held, or 0 for none. HELD while it is.
enum { HELD = -1 };

static long asked, refused, one, each, bytes;

static void say(void) {
    // Made where it is not there, and written at its end.
    int file = open(getenv("REFUSED_SAYS"), 02101, 0600);
    write(file, ".", 1);
    close(file);
}

static int is_held_from(long size) {
    return __atomic_compare_exchange_n(&bytes, &size, HELD, 0, __ATOMIC_SEQ_CST, __ATOMIC_SEQ_CST);
}

static void hold_if_meant(long size) {
    if (!size || !is_held_from(size))
        return;
    for (int step = 0; step < STEPS; step++) {
        if (__atomic_load_n(&bytes, __ATOMIC_SEQ_CST) != HELD)
            return;
        usleep(STEP);
    }
    __atomic_store_n(&bytes, 0, __ATOMIC_SEQ_CST);
}

static int lets_go(void) {
    if (__atomic_exchange_n(&bytes, 0, __ATOMIC_SEQ_CST) != HELD)
        return 0;
    say();
    return 1;
}

static int is_word_refused(size_t size) {
    if (LET_GO <= size)
        return lets_go();
    if (HOLD <= size) {
        __atomic_store_n(&bytes, size - HOLD, __ATOMIC_SEQ_CST);
        return 1;
    }
    int was_refused = refused != 0;
    asked = refused = 0;
    one = size < EACH ? size - ONE : 0;
    each = EACH <= size && size < NONE ? size - EACH : 0;
    return NONE <= size && was_refused;
}

static int is_meant(long number) {
    const char *only = getenv("REFUSED");
    return only ? number == atol(only) : number == one || (each && number % each == 0);
}

static int is_refused(size_t size) {
    if (ONE <= size && size < END)
        return is_word_refused(size);
    hold_if_meant(size);
    if (!is_meant(__atomic_add_fetch(&asked, 1, __ATOMIC_SEQ_CST)))
        return 0;
    __atomic_add_fetch(&refused, 1, __ATOMIC_SEQ_CST);
    say();
    return 1;
}

void *malloc(size_t size) {
    return is_refused(size) ? 0 : __libc_malloc(size);
}

void *realloc(void *block, size_t size) {
    return is_refused(size) ? 0 : __libc_realloc(block, size);
}
"""

# The program of all tests (tests/unproved.py).
TOGETHER = "papaya_tests"

# Of one run, in seconds. A loaded machine takes far longer than one that does nothing else.
MOST_SECONDS = 600


def build(folder):
    """The library, which stands in the folder then."""
    tools = os.path.join(os.path.dirname(os.path.dirname(os.path.realpath(shutil.which("rt")))), "toolchain/bin")
    source, library = f"{folder}/refuse.c", f"{folder}/refuse.so"
    with open(source, "w", encoding="utf-8") as it:
        it.write(LIBRARY)
    words = [f"{tools}/clang", "--target=x86_64-unknown-linux-gnu", "-O2", "-fPIC", "-shared", "-nostdlib"]
    subprocess.run([*words, f"-fuse-ld={tools}/ld.lld", source, "-o", library], check=True)
    return library


class Tests:
    """The tests of a crate whose names have a word."""

    def __init__(self, program, crate, word, folder, library):
        self.program, self.crate, self.folder, self.library = program, crate, folder, library
        lines = subprocess.run([self.program, "--list"], check=True, capture_output=True, text=True).stdout
        names = [it.removesuffix(": test") for it in lines.splitlines() if it.endswith(": test")]
        # (where the program has the tests of many crates, each is a module)
        own = [it for it in names if it.startswith(f"{crate}::")] or names
        self.names = [it for it in own if word in it]

    def run(self, name, number=None):
        """How many requests were refused, and did the test pass?"""
        says = f"{self.folder}/{self.crate}-{name.replace(':', '-')}-{number}"
        how = {**os.environ, "LD_PRELOAD": self.library, "REFUSED_SAYS": says}
        how |= {"REFUSED": str(number)} if number else {}
        ran = subprocess.run([self.program, name], env=how, capture_output=True, timeout=MOST_SECONDS)
        return os.path.getsize(says) if os.path.exists(says) else 0, not ran.returncode

    def refusals(self, name):
        """How many requests a test makes, and which of them it does not pass without."""
        failed, number = [], 1
        with ThreadPoolExecutor(os.cpu_count()) as pool:
            while True:
                numbers = range(number, number + 64)
                for it, (refused, passed) in zip(numbers, pool.map(lambda it: self.run(name, it), numbers)):
                    if not passed:
                        failed.append(it)
                    if not refused:
                        return it - 1, failed
                number += 64


# The tests that pass whichever request is refused.
TOLERANT = [
    ("papaya_seq_tests", "refused::"),
    ("papaya_set_tests", "refused::"),
    ("papaya_map_tests", "refused::"),
    ("papaya_collect_tests", "json::refused::"),
]

# Those that tell what is to be refused.
TELLING = [
    ("papaya_map_tests", "scarce::"),
    ("papaya_map_tests", "stopped::"),
    ("papaya_cases_tests", "refused::"),
    ("papaya_collect_tests", "calls::"),
    ("papaya_collect_tests", "crowds::"),
]


def refuse_each(tests):
    """Each request is refused in turn. Which tests pass whichever it is?"""
    for name in tests.names:
        requests, failed = tests.refusals(name)
        print(f"{tests.crate} {name}: {requests} requests refused in turn, {len(failed)} failed", *failed, flush=True)
        yield requests and not failed


def refuse_told(tests):
    """What a test tells is refused, or held. Which tests pass, and have something refused or held?"""
    with ThreadPoolExecutor(os.cpu_count()) as pool:
        for name, (refused, passed) in zip(tests.names, pool.map(tests.run, tests.names)):
            print(f"{tests.crate} {name}: {refused} requests refused or held, {'passed' if passed else 'failed'}", flush=True)
            yield passed and refused


def program_of(crate, programs):
    """The program of a crate's tests."""
    own = f"{programs}/{crate}"
    return own if os.path.exists(own) else f"{programs}/{TOGETHER}"


def main(words):
    if words[:1] != ["--programs"] or not words[1:]:
        print("refused.py: name the folder of the programs: --programs FOLDER", file=sys.stderr)
        return 2
    programs, crates, results = words[1], words[2:], []
    with tempfile.TemporaryDirectory() as folder:
        library = build(folder)
        for kind, refuse in [(TOLERANT, refuse_each), (TELLING, refuse_told)]:
            for crate, word in kind:
                if not crates or crate in crates:
                    tests = Tests(program_of(crate, programs), crate, word, folder, library)
                    results += refuse(tests) if tests.names else [False]
    failed = sum(not it for it in results)
    print(f"refused.py: {len(results) - failed} passed, {failed} failed")
    return 1 if failed else 0


if __name__ == "__main__":
    sys.exit(main(sys.argv[1:]))
