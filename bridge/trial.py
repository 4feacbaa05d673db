"""Whether a program goes on with a controller's calls, tried beside the controller: over a copy of the last file of its journal, with
nothing to do behind that. The controller and its journal notice nothing. What the copy ends with may be half a record, since the
controller may be writing it."""
import functools
import os
import pathlib
import re
import shutil
import tempfile

from child import begin, kill_all
from journal import Journal, JournalError
from stream import Stream
from tell import plain

# After which time is looked again whether it is gone, in seconds.
SOON = 0.02
# What it says once it goes on.
RESUMED = re.compile(rb"resumed after line (\d+): .*")
# How many lines of standard error are kept.
MOST_SAID = 20
# Options by which a controller writes elsewhere.
WRITING = ("--pcap",)


def command_over(command, folder):
    """A controller's command, over the journal in another folder; it writes nowhere else."""
    found, words = [], iter(command)
    for word in words:
        name, equals, _ = word.partition("=")
        if name == "--journal":
            found += ["--journal", str(folder)]
        elif name not in WRITING:
            found.append(word)
            continue
        if not equals:
            next(words, None)
    return found


class Copy:
    """A copy of the last file of a journal, in a folder of its own, which goes with it."""

    def __init__(self, journal):
        self.folder = pathlib.Path(tempfile.mkdtemp(prefix="gofnild-trial-"))
        try:
            self.take(journal)
            # the number of its last record, None where there is no file
            self.last = last[0] if (last := Journal(self.folder).last()) else None
        except (OSError, JournalError):
            self.remove()
            raise

    def take(self, journal):
        """Copies the file. The controller may begin another one meanwhile, and remove that."""
        for tries_left in (2, 1, 0):
            for _, path in journal.files()[-1:]:
                try:
                    shutil.copyfile(path, self.folder / path.name)
                except FileNotFoundError:
                    if not tries_left:
                        raise
                    break
            else:
                return

    def remove(self):
        """Nothing of it stays."""
        shutil.rmtree(self.folder, ignore_errors=True)


class Tried:
    """What a program did that was tried."""

    def __init__(self, last):
        """`last` is the number of the last record that it had; None where it had none."""
        self.last, self.line, self.said = last, None, []

    def hear(self, line):
        """Hears a line of its standard error."""
        if found := RESUMED.fullmatch(line):
            self.line = int(found[1])
        elif len(self.said) < MOST_SAID:
            self.said.append(plain(line.decode(errors="replace")))

    def problem(self, status):
        """What is wrong with it, in words, now that it has ended with a status; None where nothing is."""
        why = f": {self.said[-1]}" if self.said else ""
        if status != 0:
            return f"it ended with status {status}{why}"
        if self.last is not None and self.line is None:
            return f"it didn't go on{why}"
        if self.line != self.last:
            return f"it goes on behind line {self.line}, but the journal has line {self.last}"
        return None


class Beside:
    """A program that runs beside the bridge, and is given nothing."""

    def __init__(self, bridge, name, command, seconds, hear, done):
        """`name` is that of its time, `seconds` how long it may take. `hear` takes each line of its standard error; `done` is told,
        once it is gone, its status, and whether it was killed for taking longer."""
        self.times, self.name, self.hear, self.done = bridge.times, name, hear, done
        self.is_late = False
        self.process, writes, reads, errors = begin(command)
        os.close(writes)
        self.streams = [Stream(bridge.selector, reads), Stream(bridge.selector, errors)]
        self.streams[0].heard = lambda _octets: None
        self.streams[1].hear_lines(hear)
        for it in self.streams:
            it.ended = functools.partial(self.closed, it)
        self.times.set(name, seconds, self.kill)

    def kill(self):
        """It takes too long."""
        self.is_late = True
        kill_all(self.process)

    def closed(self, stream):
        """It prints nothing more at one of its outputs."""
        stream.close()
        self.streams.remove(stream)
        if not self.streams:
            self.look()

    def look(self):
        """Once it is gone, that is told."""
        if (status := self.process.poll()) is None:
            self.times.set((self.name, "gone"), SOON, self.look)
            return
        self.forget()
        self.done(status, self.is_late)

    def forget(self):
        """Nothing more is awaited of it."""
        for name in (self.name, (self.name, "gone")):
            self.times.forget(name)

    def leave(self):
        """The bridge ends, and it with it."""
        kill_all(self.process)
        for stream in self.streams:
            stream.close()
        self.forget()


class Trial:
    """A program that is tried while the bridge runs."""

    def __init__(self, bridge, command, journal, seconds, done):
        """`seconds` is how long it may take. `done` is told once what was found: what is wrong, in words, or None; and the line
        behind which it goes on."""
        self.seconds, self.done = seconds, done
        self.copy = Copy(journal)
        self.tried = Tried(self.copy.last)
        try:
            words = command_over(command, self.copy.folder)
            self.beside = Beside(bridge, "trial", words, seconds, self.tried.hear, self.gone)
        except OSError:
            self.copy.remove()
            raise

    def gone(self, status, is_late):
        """It is gone: what was found is told."""
        self.copy.remove()
        problem = f"it isn't done in {self.seconds:g} seconds, and is killed" if is_late else self.tried.problem(status)
        self.done(problem, self.tried.line)

    def leave(self):
        """The bridge ends, and it with it."""
        self.beside.leave()
        self.copy.remove()
