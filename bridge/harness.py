"""A bridge that runs, for the scripts that try it: what it prints is waited for, line by line."""
import contextlib
import os
import pathlib
import re
import shutil
import signal
import socket
import subprocess
import threading

import rsl
from station import LIMIT, TestStation

FOLDER = pathlib.Path(__file__).resolve().parent
# How many seconds a machine that is slow and busy may take for what has to be done before a timer runs out.
SLOW = 12
# Timers that are no matter of a check don't run out.
PATIENT = {name: 120 for name in ("answer", "patience", "t3103", "t7", "t8")}
# Nor is a controller killed that is slow.
NEVER_HANGS = ("--hang", "120")
# What has a command killed with who starts it, where that is to be had.
WITH_PARENT = ("setpriv", "--pdeathsig", "KILL", "--") if shutil.which("setpriv") else ()
# The site of the checks, and its stations.
SITE = FOLDER.parent / "examples" / "two_cells.toml"
FIRST, SECOND = "6969/0/0", "6970/0/1"
# Cell 0 has the channel 0/0/3, whose number on Abis is 0B, and cell 1 the channel 1/1/3.
CHANNEL = 0x0B


def runnable(program, room):
    """The program; a copy of it in a folder, where that lost the right to be run, as what the gate keeps of a build does."""
    program = pathlib.Path(program).resolve()
    if not os.access(program, os.X_OK):
        program = pathlib.Path(shutil.copy(program, room))
        program.chmod(0o755)
    return program


class Unmet(Exception):
    """Something didn't come."""


class LeftOut(Exception):
    """What a check needs isn't to be had on this machine. From any place of a check

        raise LeftOut("no SCTP is to be had (socket: Protocol not supported)")

    ends it, and it counts as neither met nor not: `bridge/check` names it with this reason and counts it above its last line, and
    so does the gate, which fails of it with GATE_WHOLE=1. The reason is what was looked for, and the package that has it. `needs`
    looks for a program, `namespaces` for those. What is there and fails is `Unmet`, and no check returns silently.
    """


def needs(program, package):
    """Leaves the check out where a program isn't installed, as in needs("cc", "gcc"); `package` is Debian's that has it."""
    if not shutil.which(program):
        raise LeftOut(f"there is no {program} (package {package})")


def namespaces(*kinds):
    """The words that run a command in namespaces of its own, as in namespaces("--net"); leaves the check out where a machine
    gives none."""
    needs("unshare", "util-linux")
    words = ["unshare", *kinds] if os.geteuid() == 0 else ["unshare", "--map-root-user", *kinds]
    tried = subprocess.run([*words, "true"], capture_output=True, text=True, timeout=LIMIT)
    if tried.returncode:
        raise LeftOut(f"no namespace is to be had ({' '.join(words)}: {tried.stderr.strip()})")
    return words


class Lines:
    """The lines of a file, as they come."""

    def __init__(self, file):
        self.lines, self.at = [], 0
        self.changed = threading.Condition()
        self.thread = threading.Thread(target=self.read, args=(file,), daemon=True)
        self.thread.start()

    def read(self, file):
        # a socket may be closed before all is read
        with contextlib.suppress(ConnectionError):
            for line in file:
                with self.changed:
                    self.lines.append(line.rstrip("\n"))
                    self.changed.notify_all()

    def expect(self, pattern, seconds=LIMIT):
        """Waits for a line that a pattern describes, behind those that were waited for before; the match."""
        found, self.at = self.find(pattern, self.at, seconds)
        return found

    def find(self, pattern, at, seconds=LIMIT):
        """Waits for a line that a pattern describes, at a place or behind it; the match, and the place behind that line."""
        seen = at

        def find():
            nonlocal seen
            while seen < len(self.lines):
                seen += 1
                if found := re.search(pattern, self.lines[seen - 1]):
                    return found
            return None

        with self.changed:
            found = self.changed.wait_for(find, seconds)
            if not found:
                raise Unmet(f"no line {pattern!r}, but:\n    " + "\n    ".join(self.lines[at:][-15:]))
            return found, seen


class Bridge:
    """A bridge that runs, with its controller."""

    def __init__(self, core, room, options, stations, abis=FOLDER / "abis"):
        self.run([abis, *options, *stations, "--", *core], room)

    def run(self, words, room):
        """Starts it. It is killed with who tries it, however that ends."""
        self.process = subprocess.Popen(
            [*WITH_PARENT, *(str(word) for word in words)],
            cwd=room,
            stdin=subprocess.PIPE,
            stdout=subprocess.PIPE,
            stderr=subprocess.PIPE,
            text=True,
            errors="replace",
        )
        self.out, self.said = Lines(self.process.stdout), Lines(self.process.stderr)
        self.stations = []
        self.port = int(self.said.expect(r"listens on [0-9.]+, port (\d+)")[1])

    def station(self, unit, trx=0):
        """A station for tests that is there."""
        station = TestStation(self.port, unit, trx)
        must(station.known.wait(LIMIT), f"{unit} isn't acknowledged")
        self.stations.append(station)
        return station

    def ask(self, line):
        """Gives a line of an operator."""
        self.process.stdin.write(line + "\n")
        self.process.stdin.flush()

    def expect(self, *patterns):
        """Waits for lines of the controller."""
        for pattern in patterns:
            self.out.expect(pattern)

    def end(self, status=0):
        """Ends standard input, and waits for the bridge's end."""
        if self.process.poll() is None:
            self.process.stdin.close()
        self.wait(status)

    def wait(self, status):
        """Waits for the bridge's end."""
        came = self.process.wait(LIMIT)
        for lines in (self.out, self.said):
            lines.thread.join(LIMIT)
        if came != status:
            raise Unmet(f"the status is {came}, not {status}")

    def stop(self):
        """Stops it, if it is running still, and its controller, which may hang."""
        if self.process.poll() is None:
            begun = children(self.process.pid)
            self.process.kill()
            self.process.wait()
            for group in begun:
                with contextlib.suppress(ProcessLookupError):
                    os.killpg(group, signal.SIGKILL)

    def last_words(self):
        """What it said last."""
        return "\n    ".join(["  it said last:", *self.said.lines[-12:]])


def child(bridge):
    """The process of a bridge's controller."""
    return children(bridge.process.pid)[0]


def children(parent):
    """The processes that a process has begun, and that haven't ended."""
    found = []
    for path in pathlib.Path("/proc").glob("[0-9]*/stat"):
        # one may be gone meanwhile
        with contextlib.suppress(OSError):
            # behind the name, in which anything may stand
            state, its_parent = path.read_text().rpartition(") ")[2].split()[:2]
            if int(its_parent) == parent and state != "Z":
                found.append(int(path.parent.name))
    return found


class Asker:
    """An operator at the control socket of a bridge."""

    def __init__(self, path):
        self.socket = socket.socket(socket.AF_UNIX)
        self.socket.connect(str(path))
        self.lines = Lines(self.socket.makefile(errors="replace"))

    def ask(self, text):
        """Gives octets."""
        self.socket.sendall(text.encode())

    def expect(self, *patterns):
        """Waits for lines."""
        for pattern in patterns:
            self.lines.expect(pattern)

    def leave(self):
        """Asks nothing more, and waits for the end of the answers; all lines that came."""
        self.socket.shutdown(socket.SHUT_WR)
        self.lines.thread.join(LIMIT)
        self.socket.close()
        return self.lines.lines


def measured(what, seconds, how):
    """Says how long something took; it hangs on the machine."""
    print(f"bridge/check: {what} {seconds:.2f} seconds {how}", flush=True)


def must(holds, what):
    """Fails where something doesn't hold."""
    if not holds:
        raise Unmet(what)


def is_kind(message_type, channel=CHANNEL):
    """Whether a message that came is of a type about a channel."""
    return lambda _stream, message: rsl.about_channel(message) == (message_type, channel)
