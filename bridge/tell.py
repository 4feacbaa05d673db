"""What the bridge says (standard error) and shows (standard output). What is said has a level; of one peer it is bounded."""
import enum
import os
import time

from page import keeps
from stream import Writer

# What the bridge says and what the controller prints, each on a file of its own.
ERRORS, OUTPUT = Writer(2), Writer(1)
# How many lines may be said of one peer in so many seconds.
MOST_LINES, PERIOD = 100, 10.0
# How many characters a line has at most.
LONGEST = 4_000
# Of how many peers this is counted. What is said of more of them is counted together.
MOST_PEERS = 1000


class Level(enum.IntEnum):
    """How much a line matters, by the numbers that systemd's journal has for it (sd-daemon(3))."""

    # something doesn't work that has to; something is wrong, or lost; something that matters has changed; all else
    ERROR = 3
    WARNING = 4
    NOTICE = 5
    INFO = 6

    @classmethod
    def of(cls, word):
        """The level that a word says."""
        try:
            return cls[word.upper()]
        except KeyError:
            raise ValueError(word) from None


class Said:
    """Which lines are said, and how."""

    # the last level of which lines are said
    last = Level.INFO
    # whether standard error is systemd's journal, which then knows a line's level by the number in front
    is_journal = False


def says_up_to(level):
    """Lines up to a level are said from here on."""
    Said.last = level
    status = os.fstat(2)
    Said.is_journal = os.environ.get("JOURNAL_STREAM") == f"{status.st_dev}:{status.st_ino}"


def now():
    """The time of day."""
    return time.strftime("%H:%M:%S")


@keeps("at")
class Since:
    """A moment, from which on something is so: told by its time of day, and by its date where that isn't today's."""

    def __init__(self):
        self.at = time.time()

    def __str__(self):
        at = time.localtime(self.at)
        is_today = at[:3] == time.localtime()[:3]
        return time.strftime("%H:%M:%S" if is_today else "%Y-%m-%d %H:%M:%S", at)


def plain(text):
    """A text as it is told, wherever it is from: one line, not too long, and nothing in it that a terminal obeys, or that can't be
    seen."""
    told = text[:LONGEST]
    if not told.isprintable():
        told = "".join(it if it.isprintable() else "?" for it in told)
    return f"{told} .." if len(text) > LONGEST else told


def shown(line):
    """A line as it is told in another."""
    return plain(line.decode(errors="replace"))


def say(text, level=Level.NOTICE):
    """Tells the operator something, with the time and its level."""
    if level <= Said.last:
        number = f"<{level.value}>" if Said.is_journal else ""
        ERRORS.put(f"{number}{now()} {level.name.lower()}: {plain(text)}\n".encode(errors="replace"))


def show(line):
    """Shows a line of the controller, or what an operator asked for."""
    OUTPUT.put(line + b"\n")


class Sayings:
    """What is said of peers: of each so many lines in a while, and then how many were left out."""

    def __init__(self, times):
        self.times = times
        self.said = {}

    def say(self, peer, text, level=Level.NOTICE):
        """Says something of a peer, unless too much was said of it. What isn't said for its level doesn't count."""
        if level > Said.last:
            return
        if peer not in self.said and len(self.said) >= MOST_PEERS:
            peer = "others"
        if peer not in self.said:
            self.said[peer] = 0
            self.times.set(("said", self, peer), PERIOD, lambda: self.end(peer))
        self.said[peer] += 1
        if self.said[peer] <= MOST_LINES:
            say(text, level)

    def end(self, peer):
        """A while is over."""
        left_out = self.said.pop(peer) - MOST_LINES
        if left_out > 0:
            say(f"{peer}: {left_out} lines more in {PERIOD:g} seconds are left out", Level.WARNING)
