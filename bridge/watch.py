"""A watch over the controller while it has lines to answer: whether it goes on with them, waits for a disk, or hangs."""
import os
import pathlib

from page import keeps
from tell import Level, Since, say

# In so many parts the time is divided in which it may answer nothing; behind each it is looked at. A bridge that itself gets no
# time looks less often, and so is more patient.
PARTS = 10
# States of a process (proc(5)): it waits for a disk, has a processor or waits for one, is stopped.
DISK, RUNNING, STOPPED = "D", "R", {"T", "t"}
# Where the words behind its name have its state, its group, and the time that it has had of processors.
STATE, GROUP, TIMES = 0, 2, slice(11, 13)


@keeps(
    *("begun", "has_gone_on", "place", "parts", "hanging", "used", "since"), wired=("bridge", "relay", "times", "seconds")
)
class Watch:
    """Kills a controller that hangs: it has lines, answers none, and neither waits for a disk nor for a processor."""

    def __init__(self, bridge, seconds):
        """`seconds` is how long it may hang."""
        self.bridge, self.relay, self.times, self.seconds = bridge, bridge.relay, bridge.times, seconds
        self.begin()

    def resume(self):
        """Goes on with the times that another bridge has set."""
        if self.times.was_set("watch"):
            self.await_answer()

    def begin(self):
        """A controller begins. Until it has answered something, or goes on over its journal, it may take any time, as to be built,
        and so it may while it ends, unless it is stopped."""
        self.begun, self.has_gone_on = self.relay.line, False
        self.forget()

    def go_on(self):
        """It goes on over its journal."""
        self.has_gone_on = True
        self.forget()

    def forget(self):
        """It isn't waited for."""
        self.times.forget("watch")
        # how much of an answer was heard; for how many parts no more was; for how many of these it hangs; what it had of processors
        self.place, self.parts, self.hanging, self.used = None, 0, 0.0, None
        self.since = Since()

    def await_answer(self):
        """It has a line to answer, or is to go on, or to end."""
        if not self.times.is_set("watch"):
            self.times.set("watch", self.seconds / PARTS, self.look)

    def look(self):
        """Looks whether more of an answer was heard, and else at the controller."""
        relay, place = self.relay, (self.relay.line, self.relay.heard)
        if relay.core is None or not (relay.given or self.is_between()):
            self.forget()
            return
        if place != self.place:
            self.forget()
            self.place = place
        else:
            self.parts += 1
            self.hanging += self.hangs()
        if self.hanging >= PARTS:
            say(f"the controller answers nothing for {self.seconds:g} seconds, and is killed", Level.ERROR)
            self.bridge.kill_core()
            return
        if self.parts == PARTS:
            doing = "is ending, or beginning" if self.is_between() else "waits for a disk or a processor, or is beginning"
            say(f"the controller answers nothing for {self.seconds:g} seconds: it {doing}", Level.WARNING)
        self.await_answer()

    def silent_since(self):
        """Since when it answers nothing, though it has lines; None where it does."""
        is_silent = self.parts > 0 and self.place == (self.relay.line, self.relay.heard) and self.relay.given
        return self.since if is_silent else None

    def is_between(self):
        """Whether it is to go on over its journal yet, or to end."""
        return self.relay.is_away or self.relay.core.is_last

    def hangs(self):
        """For how much of the last part it hangs, from 0 to 1: what it computes counts as far as it had a processor."""
        states, used = processes(self.bridge.core.pid)
        if not states:
            # that can't be seen just now
            return 0
        before, self.used = self.used if self.used is not None else used, used
        if DISK in states:
            return 0
        if self.is_between() or not (self.has_gone_on or self.relay.line > self.begun):
            return int(states <= STOPPED)
        if RUNNING in states:
            return min(1, max(0, used - before) * PARTS / self.seconds)
        return 1


def processes(group):
    """The states of a group's processes, none where they can't be read just now, and how many seconds they had of processors."""
    states: set[str] = set()
    ticks = 0
    try:
        numbers = [it for it in os.listdir("/proc") if it.isdecimal()]
    except OSError:
        return states, 0
    for number in numbers:
        try:
            # behind the name, in which anything may stand
            words = pathlib.Path(f"/proc/{number}/stat").read_text(errors="replace").rpartition(") ")[2].split()
        except OSError:
            # it is gone meanwhile, or no file can be opened
            continue
        if int(words[GROUP]) == group:
            states.add(words[STATE])
            ticks += sum(map(int, words[TIMES]))
    return states, ticks / os.sysconf("SC_CLK_TCK")
