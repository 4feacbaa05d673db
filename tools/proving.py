"""`rt ci` in two calls, for `.ci/run` (tools/prove-all) and `./lab` (tools/prove-program).

`rt ci` starts as many checks as memory holds, by what it plans for each; that is up to twice what they use, so that on 16 GB
processors wait. With RT_JOBS=n it starts n, however much memory there is, and gives each of them one job. So there are two
calls:

1. RT_JOBS=n, for the crates below `lab`, and for all others that don't stand on it. It is made in a copy that has these
   crates alone, and keeps what it proves, as `rt ci` does.
2. `rt ci`, for all: it takes what is kept, and gives the tail (`lab`, `bsc_lab`, the tests of `lab`) the jobs that it wants.
   It alone counts.

**n** is how many of the largest checks fit into 0.85 of the memory that is free (MemAvailable, less where a control group
says so), at least 1, and at most the processors that there are. 3.0 GB are taken for each. Measured were 2.9 of `radio_book`,
2.8 of `encoded_messages` and 2.4 of `cell_table`, the largest of the first call; `lab`, in the second, takes 4.
`tools/gate-times` prints the peak of each crate.

**A check that the system kills**, which it does where memory ends, says nothing of its crate. `rt ci` tries it once more; what
is killed then, too, counts as not proved there. After the first call the second one tries it again; after the second a third
one does, with RT_JOBS=1: alone.

**What fails otherwise** in the first call fails in the second, too, and is counted there. Where it doesn't, as a test
that hangs on time, it is said, and counts as failed all the same.

Where nothing can be kept (no room on the disk) there is the second call alone.
"""
import os
import re
import shutil
import subprocess
import tempfile
from dataclasses import dataclass, field

# What stands on this crate, and this one, is the tail.
TAIL = "lab"
# What one of the largest checks of the first call takes, in GB, and what share of the free memory may be taken.
PEAK, SHARE = 3.0, 0.85
# So many GB have to be free on the disk, so that all is kept: what a run keeps, and what `rt ci` wants to be left.
ROOM = 12.0
KILLED = "most likely for memory"


def listed(top):
    """What stands in crates.txt of each crate: its line, and the crates that it stands on."""
    with open(f"{top}/crates.txt", encoding="utf-8") as it:
        lines = [line.strip() for line in it if line.strip() and not line.startswith("#")]
    return {line.split(":")[0].split()[0]: (line, line.split(":")[1].split()) for line in lines}


def below(crates, name):
    """The crate and all of the repository that it stands on. (A library of the kit has no line.)"""
    return {name}.union(*(below(crates, it) for it in crates[name][1] if it in crates))


def copy(top, names, to, *without):
    """Makes a repository of these crates alone, without some of the folders that crates have."""
    shutil.rmtree(to, ignore_errors=True)
    # (by this `rt ci` knows that it is the top of one)
    os.makedirs(f"{to}/.git")
    for name in names:
        shutil.copytree(f"{top}/crates/{name}", f"{to}/crates/{name}", ignore=shutil.ignore_patterns("out", *without))
    shutil.copyfile(f"{top}/HANDLES", f"{to}/HANDLES")
    with open(f"{to}/crates.txt", "w", encoding="utf-8") as it:
        it.writelines(line + "\n" for name, (line, _) in listed(top).items() if name in names)


def jobs(rt):
    """How many checks the first call runs at once; `rt` is the kit's command as a module."""
    return max(1, min(rt.processors(), int(SHARE * rt.free() / (PEAK * 1e9))))


def has_room(rt):
    """Whether what is proved can be kept."""
    parent = os.path.dirname(rt.STORE)
    return os.access(parent, os.W_OK) and shutil.disk_usage(parent).free > ROOM * 1e9


@dataclass
class Call:
    """What a call of `rt ci` said: its status, what it counted at its end, what failed, what of that was killed, or waits for
    something that was, and of which crates a check told why they aren't proved."""

    status: int = 0
    passed: int = 0
    failures: int = 1
    failed: set = field(default_factory=set)
    killed: set = field(default_factory=set)
    told: set = field(default_factory=set)

    def refused(self):
        """What failed though nothing was killed."""
        return self.failed - self.killed


class Reader:
    """Reads what a call prints, line by line."""

    def __init__(self):
        self.call, self.section, self.libraries = Call(), [], {}

    def read(self, line):
        if line.startswith("== "):
            self.section = []
        self.section.append(line)
        if found := re.match(r"rt: (\w+)(?:: its tests are)? NOT PROVED(?:: its library (\w+) failed)?", line):
            if found[2]:
                self.libraries[found[1]] = found[2]
            else:
                (self.call.killed if was_killed(self.section) else self.call.told).add(found[1])
        elif found := re.match(r"rt: must-fail (\w+/[^:]+): NOT TRIED: .*" + KILLED, line):
            self.call.killed.add(found[1])
        elif found := re.match(r"rt: FAILED: (.*)", line):
            self.call.failed = set(re.findall(r"[\w./-]+(?: \(\w+\))?", found[1]))
        elif found := re.match(r"(\d+) passed, (\d+) failed", line):
            self.call.passed, self.call.failures = int(found[1]), int(found[2])

    def end(self, status):
        """What was said, all in all."""
        self.call.status = status
        self.call.killed |= {name for name, library in self.libraries.items() if self.comes_from_killed(library)}
        self.call.killed -= self.call.told
        return self.call

    def comes_from_killed(self, name):
        """Whether a crate was killed, or a library that it waits for."""
        return name in self.call.killed or (name in self.libraries and self.comes_from_killed(self.libraries[name]))


def was_killed(section):
    """Whether the check that a section tells of was killed at last: nothing is said of the crate behind that."""
    at = max((at for at, line in enumerate(section) if KILLED in line), default=None)
    return at is not None and not any(re.search(r"\berror\b|^logic=", line) for line in section[at:])


def call(folder, number, write, command):
    """Calls `rt ci` in a folder, with a number of jobs or as it plans itself; gives `write` each line. What came."""
    settings = {name: value for name, value in os.environ.items() if name != "RT_JOBS"}
    settings |= {"RT_JOBS": str(number)} if number else {}
    how = {"stdin": subprocess.DEVNULL, "stdout": subprocess.PIPE, "stderr": subprocess.STDOUT, "errors": "replace"}
    reader = Reader()
    with subprocess.Popen(command, cwd=folder, env=settings, text=True, **how) as ran:
        for line in ran.stdout:
            write(line)
            reader.read(line.rstrip("\n"))
    return reader.end(ran.returncode)


def two_calls(top, rt, write, *without, command=("rt", "ci")):
    """Makes the two calls for the repository that stands in a folder; the first one leaves out some of the folders that crates
    have. Returns what the last call counted, with what the first refused and the last didn't."""
    crates, first = listed(top), Call()
    names = {name for name in crates if TAIL not in below(crates, name)}
    if names and not has_room(rt):
        write(f"proving: one call, since {os.path.dirname(rt.STORE)} has less than {ROOM:.0f} GB of room for what is kept\n")
    elif names:
        number = jobs(rt)
        write(f"proving: {len(names)} crates, with RT_JOBS={number}, and then all {len(crates)}\n")
        with tempfile.TemporaryDirectory() as room:
            copy(top, names, f"{room}/first", *without)
            first = call(f"{room}/first", number, write, command)
        again = " ".join(sorted(first.failed)) or "nothing"
        write(f"proving: the first call passed {first.passed}; what failed there is tried again: {again}\n")
    last = call(top, 0, write, command)
    if last.killed or last.status < 0:
        write(f"proving: once more, each alone, since these were killed: {' '.join(sorted(last.killed)) or 'rt ci'}\n")
        last = call(top, 1, write, command)
    if hidden := sorted(first.refused() - last.failed):
        write(f"proving: the first call refused what the last one didn't: {' '.join(hidden)}\n")
        last.failed |= set(hidden)
        last.failures, last.status = last.failures + len(hidden), last.status or 1
    return last
