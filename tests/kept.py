"""What tests/edits.py and tests/twins.py saw refused on this machine, so that a later run tries only what changed.

It lies beside the kit, in papaya-kept, as what `rt ci` keeps lies there: a file for each copy, whose name is the
sum of all that the try reads. That is the changed copies, the sources of all that they stand on, the lines of
crates.txt, the kit, and these scripts. Nothing else than refusals is kept."""

import contextlib
import functools
import hashlib
import json
import os
import stat
import tempfile
import time

from prover import KIT, NAMED, PARTS, TOP, below, why_not_built

FOLDER = f"{os.path.dirname(KIT)}/papaya-kept"
# What no run has used for so long is removed.
DAYS = 60


def files_of(folder):
    """The files that a check reads of a crate or of its copy."""
    walked = [it for part in PARTS for it in os.walk(f"{folder}/{part}")]
    return sorted(f"{at}/{name}" for at, _, names in walked for name in names)


def sum_of(folder):
    """The sum of the files that a check reads of a crate or of its copy."""
    found = hashlib.sha256()
    for path in files_of(folder):
        with open(path, "rb") as it:
            found.update(repr((os.path.relpath(path, folder), it.read())).encode())
    return found.hexdigest()


def kit_sum(kit):
    """The sum of a kit: its names, the place, size and time of each file that a check reads, and what says of a library
    from what it was built."""
    found = hashlib.sha256()
    files = [f"{kit}/KIT-ID", f"{kit}/WHAT"]
    for part in ("bin", "logic_built", "rlibs"):
        # (a kit made by tools/kit has links)
        files += [f"{at}/{name}" for at, _, names in os.walk(f"{kit}/{part}", followlinks=True) for name in names]
    for path in sorted(files):
        name, at = os.path.relpath(path, kit), os.stat(path)
        found.update(repr((name, at.st_size, at.st_mtime_ns)).encode())
        if os.path.basename(name) in ("KIT-ID", "WHAT", "format"):
            with open(path, "rb") as it:
                found.update(it.read())
    return found.hexdigest()


@functools.lru_cache(maxsize=None)
def common():
    """The sum of what all tries read: the kit, and these scripts."""
    found = hashlib.sha256(kit_sum(KIT).encode())
    for name in ("prover", "kept", "standing", "goals", "edits", "twins"):
        with open(f"{TOP}/tests/{name}.py", "rb") as it:
            found.update(repr((name, it.read())).encode())
    return found.hexdigest()


def is_ours():
    """Is the folder there, and this user's own? It is made where it can be."""
    with contextlib.suppress(OSError):
        os.makedirs(FOLDER, 0o700, exist_ok=True)
        found = os.lstat(FOLDER)
        return stat.S_ISDIR(found.st_mode) and found.st_uid == os.geteuid() and not found.st_mode & 0o022
    return False


class Try:
    """A try of that kind over the copies of a crate, and of those in `changed` on which it stands, below a room."""

    def __init__(self, what, room, crate, changed, asked):
        self.what, self.room, self.crate, self.changed, self.asked = what, room, crate, changed, asked
        self.libraries = [it for it in below(crate) if it not in changed]
        self.name = self.read()

    def read(self):
        """The name of the try: the sum of all that it reads."""
        copies = [(it, sum_of(f"{self.room}/{it}")) for it in sorted({self.crate, *self.changed})]
        libraries = [(it, sum_of(f"{TOP}/crates/{it}")) for it in self.libraries]
        named = [(it, NAMED[it]) for it in [self.crate, *below(self.crate)]]
        read = repr((common(), copies, libraries, named, self.asked))
        return f"{self.what}-{hashlib.sha256(read.encode()).hexdigest()}"

    def refused_earlier(self):
        """What an earlier run told of the refusals, or nothing."""
        with contextlib.suppress(OSError, ValueError, KeyError, TypeError):
            if is_ours():
                with open(f"{FOLDER}/{self.name}", encoding="utf-8") as it:
                    said = json.load(it)
                if said["name"] == self.name and said["refused"] and all(type(it) is str for it in said["refused"]):
                    os.utime(f"{FOLDER}/{self.name}")
                    return said["refused"]
        return []

    def is_as_it_was(self):
        """Do the sources stand as they did, and are the libraries built from them?"""
        stale = [it for it in self.libraries if why_not_built(it, 0, PARTS)]
        return not stale and self.read() == self.name

    def keep(self, refused):
        """Keeps what is told of the refusals, and removes what is long unused."""
        if not is_ours() or not self.is_as_it_was():
            return
        with contextlib.suppress(OSError):
            with tempfile.NamedTemporaryFile("w", dir=FOLDER, prefix="new-", delete=False, encoding="utf-8") as it:
                json.dump({"name": self.name, "refused": refused}, it)
            os.replace(it.name, f"{FOLDER}/{self.name}")
            for path in [it.path for it in os.scandir(FOLDER) if time.time() - it.stat().st_mtime > DAYS * 86400]:
                os.remove(path)
