"""A new bridge takes this one's place, in the same process: the process becomes another program (`exec`), and keeps its number, its
children and its open files, so that nobody who is joined to it notices more than a wait. What this bridge knows stands in a page
(page.py), which the new one reads. Before that a bridge of the new program is begun beside this one with --check: it looks whether it
would take such a page, and this one goes on where it wouldn't."""
import os
import pathlib
import shutil
import signal
import socket
import tempfile
import time
import zlib

import page
from page import Unkept, keeps
from tell import ERRORS, OUTPUT, Level, say
from trial import Beside

# The option by which a program is given a page.
OPTION = "--takes-over"
# How many seconds a bridge may take to look at a page; how long what is printed may take to be written; and after how many it is looked
# again whether it is, while others have their turns.
LONGEST, UNWRITTEN, SOON = 120.0, 30.0, 0.05
# Times that the new bridge sets itself, as it begins or as they are wanted.
OWN_TIMES = ("figures", "frames", "succession")
OWN_KINDS = ("said", "listener")
# How many lines of a program's standard error are told.
MOST_SAID = 20
# The signals that wait until the new bridge hears them.
SIGNALS = (signal.SIGINT, signal.SIGTERM, signal.SIGHUP, signal.SIGUSR2)


class Begun:
    """How a bridge was begun: its program and its words, and the files that it has read, with the checksum that each had then."""

    def __init__(self, words, paths):
        """`words` are the whole command line, and may have a page of an older bridge."""
        self.program, *rest = words
        self.words = rest[2:] if rest[:1] == [OPTION] else rest
        self.files = {str(path): sum_of(path) for path in paths if path}

    def changed(self):
        """A file that has changed since; None where none has."""
        return next((path for path, known in self.files.items() if sum_of(path) != known), None)


def sum_of(path):
    """The checksum of a file; None where it can't be read."""
    try:
        return zlib.crc32(pathlib.Path(path).read_bytes())
    except OSError:
        return None


def state_in(path):
    """The state of a page in a file."""
    try:
        return page.read(pathlib.Path(path).read_text())
    except (OSError, UnicodeDecodeError) as error:
        raise Unkept(str(error)) from error


@keeps("operator", "asked_at", wired=("bridge", "begun", "program", "path", "beside", "is_due", "until"))
class Succession:
    """What becomes of a wish that another bridge takes this one's place."""

    def __init__(self, bridge, begun):
        """`begun` is how this one was begun."""
        self.bridge, self.begun = bridge, begun
        # who is told what comes of it, None for nobody; and when it was asked for
        self.operator, self.asked_at = None, 0.0
        # the program that is tried, the page that it looks at, and its process
        self.program, self.path, self.beside = "", None, None
        # whether the program would go on, and takes this one's place once nothing is handled and all is written; and until when that
        # may take
        self.is_due, self.until = False, 0.0

    def is_awaited(self, operator):
        """Whether an operator is yet to be told what came of it."""
        return self.operator is not None and self.operator is operator

    def ask(self, operator, program=""):
        """Somebody wishes it, an operator or nobody; of the same program, where none is named."""
        program = program or self.begun.program
        if why := "another program is being tried" if self.program else self.objection(program):
            tell(operator, f"refused: bridge upgrade {program}: {why}")
            return
        self.operator, self.program, self.asked_at = operator, program, time.monotonic()
        try:
            self.path = write(self.state()[0])
            command = [program, "--check", OPTION, self.path, *self.begun.words]
            said: list[str] = []
            self.beside = Beside(
                self.bridge,
                "succession",
                command,
                LONGEST,
                lambda line: said.append(line.decode(errors="replace")) if len(said) < MOST_SAID else None,
                lambda status, is_late: self.tried(status, is_late, said),
            )
        except (OSError, Unkept) as error:
            self.refuse(str(error))

    def objection(self, program):
        """Why another bridge can't take this one's place just now; None where that can be tried."""
        if not shutil.which(program):
            return "no program that can be run"
        if self.bridge.is_ending:
            return "the bridge ends"
        if path := self.begun.changed():
            return f"{path} has changed since the bridge began, and is for one that begins anew"
        return self.bridge.again.unkept()

    def tried(self, status, is_late, said):
        """A bridge of the program has looked at the page."""
        self.beside = None
        self.remove()
        if is_late:
            self.refuse(f"it isn't done in {LONGEST:g} seconds, and is killed")
        elif status:
            self.refuse("; ".join(said[-1:]) or f"it ended with status {status}")
        else:
            self.is_due, self.until = True, time.monotonic() + UNWRITTEN

    def refuse(self, why):
        """This bridge goes on."""
        program, operator = self.program, self.operator
        self.program, self.operator, self.is_due = "", None, False
        self.remove()
        tell(operator, f"refused: bridge upgrade {program}: {why}; this one goes on")

    def remove(self):
        """The page isn't of use any more."""
        path, self.path = self.path, None
        if path and os.path.lexists(path):
            os.unlink(path)

    def state(self):
        """What is known now; and the numbers of the files that stay open."""
        keeper = page.Keeper(self.bridge.parts())
        return keeper.state(kept_times(self.bridge.times)), keeper.files

    # The end of this one

    def look(self):
        """Nothing is handled now: the program takes this one's place, if that is so far."""
        if not self.is_due or self.bridge.selector.failed or self.bridge.links.due:
            return
        if (text := unwritten()) and time.monotonic() < self.until:
            self.bridge.times.set("succession", SOON, lambda: None)
            return
        self.is_due = False
        if why := self.objection(self.program) or text:
            self.refuse(why)
            return
        try:
            self.become(self.program)
        except (OSError, Unkept) as error:
            self.refuse(str(error))

    def become(self, program):
        """The process becomes the program. It comes back only where that fails."""
        state, files = self.state()
        self.path = write(state)
        before = signal.pthread_sigmask(signal.SIG_BLOCK, SIGNALS)
        try:
            for number in files:
                os.set_inheritable(number, True)
            path = shutil.which(program)
            os.execv(path, [program, OPTION, self.path, *self.begun.words])
        finally:
            for number in files:
                os.set_inheritable(number, False)
            signal.pthread_sigmask(signal.SIG_SETMASK, before)

    # The beginning of the new one

    def tell(self):
        """This bridge has taken the place of another, which is told to who wished it."""
        operator, self.operator = self.operator, None
        seconds = time.monotonic() - self.asked_at
        text = f"bridge upgrade: {self.begun.program} goes on in the bridge's place, {seconds:.1f} seconds behind the wish"
        tell(operator, text)

    def leave(self):
        """The bridge ends, and who is tried with it."""
        if self.beside:
            self.beside.leave()
            self.beside = None
        self.remove()
        if self.program:
            tell(self.operator, f"refused: bridge upgrade {self.program}: the bridge ends")
        self.program, self.operator, self.is_due = "", None, False


def write(state):
    """Writes the page of a state; its path."""
    number, path = tempfile.mkstemp(prefix="gofnild-page-")
    try:
        with open(number, "w") as file:
            file.write(page.written(state))
    except OSError:
        os.unlink(path)
        raise
    return path


def kept_times(times):
    """The times that stand in a page, each with its moment."""
    for name, at in times.moments().items():
        kind = name[0] if isinstance(name, tuple) else name
        if kind not in OWN_TIMES and kind not in OWN_KINDS:
            yield name, at


def take_over(bridge, state, opens=None):
    """Has a bridge that hasn't started take the state of another. Where `opens` isn't given, that is only looked at: nothing is
    opened. Raises Unkept where it can't."""
    times = bridge.times
    try:
        times.left = page.take(bridge.parts(), state, opens)
        bridge.resume()
    except (KeyError, TypeError, ValueError, AttributeError) as error:
        raise Unkept(f"it can't be understood: {type(error).__name__}: {error}") from error
    if times.left:
        raise Unkept(f"a time that isn't known here: {next(iter(times.left))}")


def opened(number):
    """The socket of a number that the process has open."""
    os.set_inheritable(number, False)
    return socket.socket(fileno=number)


def unwritten():
    """What isn't written yet of what is printed, in words; None where all is, or is at once."""
    end = time.monotonic() + SOON
    for writer, name in ((OUTPUT, "standard output"), (ERRORS, "standard error")):
        while writer.waiting() and time.monotonic() < end:
            time.sleep(0.001)
        if count := writer.waiting():
            return f"{name} isn't read: {count} octets wait"
    return None


def tell(operator, text):
    """Tells who wished it, and says it."""
    say(text, Level.WARNING if text.startswith("refused") else Level.NOTICE)
    if operator:
        operator.tell(text)
