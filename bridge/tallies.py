"""What is counted of each cell: by the events and lines of the controller, and by what the bridge does itself. The bridge keeps the
counts, and hears each line once, so that they go on where another controller does."""
import collections

import bssmap
import rsl
from calls import Event
from page import keeps
from rsl import Channel

# For what a channel is asked for.
CALL, HANDOVER = PURPOSES = ("call", "handover")
# Kinds of attempts at handover, and what becomes of one. One that succeeds has no cause.
KINDS = ("internal", "incoming", "outgoing")
DONE, UNDONE, NO_CAUSE = "done", "undone", "none"
# By which words of an Undo a timer ran out, and the timers that are counted.
EXPIRED = {"t3103": "T3103", "t7": "T7", "t8": "T8"}
TIMERS = (*EXPIRED.values(), "T3101", "T3109", "T3113", "T10", "answer")
# Lines by which an attempt is taken back.
TAKING_BACK = ("undo", "clear")
# HANDOVER FAILURE of a mobile (TS 44.018, 9.1.17): discriminator and type of layer 3; and where these stand in DATA INDICATION.
FAILED, AT_LAYER_3 = b"\x06\x28", slice(9, 11)


@keeps(
    *("given", "none_free", "handovers", "assignments", "requests", "rejected", "expiries", "reports", "lost", "faults"),
    *("input", "message", "is_operators"),
    wired=("calls",),
)
class Tallies:
    """The counts of all cells, by name; each under its cell and its further labels."""

    def __init__(self, calls):
        """`calls` are those of the book, as they are before an event is followed."""
        self.calls = calls
        self.given: collections.Counter = collections.Counter()
        self.none_free: collections.Counter = collections.Counter()
        self.handovers: collections.Counter = collections.Counter()
        self.assignments: collections.Counter = collections.Counter()
        self.requests: collections.Counter = collections.Counter()
        self.rejected: collections.Counter = collections.Counter()
        self.expiries: collections.Counter = collections.Counter()
        self.reports: collections.Counter = collections.Counter()
        self.lost: collections.Counter = collections.Counter()
        self.faults: collections.Counter = collections.Counter()
        # the words of the input that the controller answers now, the message of a station in it, and whether an operator gave it
        self.input, self.message, self.is_operators = [""], b"", False

    # Lines of the controller

    def see(self, line, is_operators):
        """Sees a line, which answers an operator or not."""
        what, *words = line.decode(errors="replace").split()
        if what == "in":
            self.input, self.message, self.is_operators = words, b"", is_operators
        elif what == "none":
            self.none_free[int(words[1]), CALL if self.input[0] == "seize" else HANDOVER] += 1
        elif what == "fault" and (cell := self.cell_of_input()) is not None:
            self.faults[cell,] += 1

    def came(self, cell, message):
        """The input is a message of a station of a cell."""
        self.message = message
        kind = rsl.kind(message)
        if kind == (rsl.DEDICATED, rsl.MEASUREMENT_RESULT):
            self.reports[cell,] += 1
        elif kind == (rsl.DEDICATED, rsl.CONNECTION_FAILURE):
            self.lost[cell, rsl.cause(message)[3:].strip("()") or "missing"] += 1

    def cell_of_input(self):
        """The cell that the input is about; None where it is about none."""
        if self.input[0] == "abis":
            return int(self.input[1])
        call = self.calls.calls.get(self.input[1]) if len(self.input) > 1 else None
        place = call and (call.serving or call.target)
        return place.cell if place else None

    def follow(self, event: Event):
        """An event was asked of the book, which the calls haven't followed yet."""
        if event.reply == "refused":
            return
        if event.name == "open":
            self.given[Channel.of(event.words[0]).cell, CALL] += 1
        elif event.name == "take":
            self.given[Channel.of(event.words[1]).cell, HANDOVER] += 1
        elif event.name in ("complete", "left"):
            self.ended(event, DONE, NO_CAUSE)
        elif event.name == "undo":
            self.ended(event, UNDONE, self.cause_of(event))

    def ended(self, event, outcome, cause):
        """An attempt at handover has ended. It is counted where the call was; that of one that comes from another controller, where
        it was to come to."""
        call = self.calls.calls.get(event.about)
        place = call and (call.serving or call.target)
        if place is None:
            return
        self.handovers[place.cell, call.kind, outcome, cause] += 1
        if cause in EXPIRED.values():
            self.expired(place.cell, cause)

    def cause_of(self, event):
        """Why an attempt is undone: the timer that ran out, or what the input was."""
        if timer := EXPIRED.get(event.words[0]):
            return timer
        if self.input[0] in TAKING_BACK:
            return "operator" if self.is_operators else "bridge"
        if self.input[0] == "a":
            return named(bssmap.Type, bssmap.kind_of(bytes.fromhex(self.input[2])))
        if self.message[AT_LAYER_3] == FAILED:
            return "HANDOVER FAILURE"
        return rsl.NAMES.get(rsl.kind(self.message), "another message")

    def renumber(self, numbers):
        """Cells have other numbers, or go: so do their counts."""
        for counts in (it for it in vars(self).values() if isinstance(it, collections.Counter)):
            before = dict(counts)
            counts.clear()
            for (cell, *labels), count in before.items():
                if (number := numbers.get(cell, cell)) is not None:
                    counts[number, *labels] = count

    # What the bridge does itself

    def expired(self, cell, timer):
        """A timer ran out."""
        self.expiries[cell, timer] += 1

    def requested(self, cell, cause):
        """A mobile asks for a channel."""
        self.requests[cell, str(cause)] += 1

    def reject(self, cell, reason):
        """A mobile that asks for a channel is rejected."""
        self.rejected[cell, reason] += 1

    def assigned(self, channel, kind, outcome, cause=None):
        """An assignment has ended, on a channel; the channel is None where the call has none any more."""
        if channel is not None:
            self.assignments[channel.cell, kind, outcome, NO_CAUSE if cause is None else named(bssmap.Cause, cause)] += 1


def named(kinds, value):
    """What a number is called."""
    return kinds(value).name.replace("_", " ") if value in tuple(kinds) else "another message"
