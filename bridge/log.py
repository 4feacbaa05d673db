"""The bridge's log: a script of each line that the controller could read, each behind a comment that says when it was given,
and by whom where that was no station. `run` plays it (docs/PROGRAM.md)."""
import os
import stat
import time

from page import keeps
from tell import Level, say

# How many octets may wait for room on a disk that is full.
MOST_WAITING = 1 << 20
# How many octets are written at once, a longer line aside, and after how many seconds a full disk is tried again.
PIECE, AGAIN = 1 << 16, 1.0


def stamp():
    """The date and the time of day."""
    seconds = time.time()
    return f"{time.strftime('%Y-%m-%d %H:%M:%S', time.localtime(seconds))}.{int(seconds * 1000) % 1000:03}"


@keeps("path", "times", "file", "waiting", "missing", "is_full", files=("file",))
class Log:
    """A log at a path."""

    def __init__(self, path, times):
        """`times` are told when a full disk is to be tried again."""
        self.path, self.times = path, times
        self.file = self.opened()
        # what isn't written yet, for want of room, and how many lines there wasn't even room for here
        self.waiting = bytearray()
        self.missing = 0
        self.is_full = False
        self.go_on()

    def opened(self):
        """The file, opened."""
        flags = os.O_RDWR | os.O_CREAT | os.O_APPEND | os.O_CLOEXEC | os.O_NOCTTY | os.O_NONBLOCK
        return os.open(self.path, flags, 0o600)

    def go_on(self):
        """Goes on behind what the file has. What stands behind its last line feed is no line, and is cut off."""
        if self.is_file():
            os.fchmod(self.file, 0o600)
            if torn := self.cut(os.fstat(self.file).st_size):
                say(f"{self.path}: its last line has no line feed: {torn} octets are cut off", Level.WARNING)
        self.note("the log begins, or goes on, here")

    def open_anew(self):
        """Opens the file anew, as after it was moved away; what came of that."""
        try:
            file, self.file = self.file, self.opened()
            os.close(file)
            self.go_on()
        except OSError as error:
            told = f"the log can't be opened anew, and goes on in the old file: {error}"
            say(told)
            return told
        return f"{self.path}: the log is opened anew"

    def is_file(self):
        """Whether it is a file on a disk, which can be cut."""
        return stat.S_ISREG(os.fstat(self.file).st_mode)

    def cut(self, size):
        """Cuts the file behind its last line feed, where it has this size; how many octets were cut off."""
        kept, torn = size, b""
        while kept and b"\n" not in torn:
            begin = max(0, kept - 4096)
            torn = os.pread(self.file, kept - begin, begin) if kept else b""
            kept = begin + torn.rfind(b"\n") + 1
        if kept < size:
            os.ftruncate(self.file, kept)
        return size - kept

    def write(self, line, who=None):
        """Writes a line, with the time, and with who gave it."""
        self.put(f"# {stamp()}{f' {who}' if who else ''}\n".encode(errors="replace") + line + b"\n")

    def note(self, text):
        """Writes a comment, with the time."""
        self.put(f"# {stamp()} {text}\n".encode())

    def put(self, text):
        """Writes whole lines, behind those that wait."""
        if self.missing or len(self.waiting) > MOST_WAITING:
            # behind one that is missing all are, until a comment says so
            self.missing += 1
        else:
            self.waiting += text
        if not self.is_full:
            self.flush()

    def flush(self):
        """Writes what waits. What there is no room for goes on waiting, and half a line doesn't stay."""
        try:
            while self.waiting:
                self.write_piece()
        except OSError as error:
            if not self.is_full:
                say(f"{self.path}: the log can't be written now: {error}", Level.ERROR)
            self.is_full = True
            self.try_again()
            return
        if self.is_full:
            self.is_full, missing, self.missing = False, self.missing, 0
            say(f"{self.path}: the log goes on; lines that are missing: {missing}")
            if missing:
                self.note(f"{missing} lines are missing here")

    def try_again(self):
        """A full disk is tried again before long."""
        self.times.set("log", AGAIN, self.flush)

    def resume(self):
        """Goes on with the time that another bridge has set."""
        if self.times.was_set("log"):
            self.try_again()

    def write_piece(self):
        """Writes the first of the lines that wait, and no half of one."""
        end = self.waiting.rfind(b"\n", 0, PIECE) + 1 or self.waiting.index(b"\n") + 1
        begin = os.fstat(self.file).st_size
        written = os.write(self.file, self.waiting[:end])
        if self.is_file():
            written = self.waiting.rfind(b"\n", 0, written) + 1
            if os.fstat(self.file).st_size > begin + written:
                os.ftruncate(self.file, begin + written)
            if not written:
                raise OSError("there is no room for a line")
        del self.waiting[:written]

    def finish(self):
        """Nothing more is written."""
        self.times.forget("log")
        self.flush()
        if self.waiting:
            octets = len(self.waiting)
            say(f"{self.path}: {octets} octets of the log aren't written, lines that are missing: {self.missing}", Level.ERROR)
        os.close(self.file)
