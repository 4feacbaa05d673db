"""Operators: what they may ask, who is told what came of it, and whose turn it is. Stations, the centre and timers come first in
each turn of the loop: operators share what is left."""
import collections
import functools
import os
import re
import socket
import struct

import faults
from page import keeps
from stream import Lines, Stream
from tell import Level, plain, show, shown

# Keywords of what is simulated: none of it is there.
SIMULATED = (b"report", b"answer", b"sim", b"refuse", b"hold", b"let", b"mobile", b"double", b"cut", b"restart",
             b"hangup")
# After how many seconds without another line an operator who has asked all is answered to the end.
QUIET = 0.5
# How many lines of operators are taken in a turn of the loop. A view counts as many.
MOST_AT_ONCE = 16
# Lines that the controller isn't asked: views, of which each may have thousands of lines, and others.
VIEWS = (b"help", b"stations", b"calls", b"network")
OWN = (*VIEWS, b"upgrade", b"bridge", b"reload", b"reopen", b"watch", b"bar", b"unbar", *SIMULATED)
# How many lines of an input may come before it is known of which call it is.
MOST_LINES = 100
# How many digits the number of a call may have.
LONGEST_NUMBER = 20
HELP = """\
stations: the stations: since when each is there, its channels, its messages
calls: the channels in use: of which call and since when, how stations have them, if that agrees, the last report; lost calls
watch: from here on all that the controller prints; watch CALL: what comes of this call; watch off: no more of that
summary: what came so far, counted in all and for each cell: calls, attempts at handover and their ends, messages, faults
upgrade PROGRAM: the controller ends, and PROGRAM goes on with its calls, if it does so on a copy of the journal
bridge upgrade [PROGRAM]: PROGRAM, or the program of now, goes on as the bridge, if it takes what this one knows
reload: CONFIG and the site are taken as their files are now, and calls go on; it tells what changes, and what can't so
reopen: the log is opened anew, as after it was moved away
help: this
open CALL CELL TRX TN: a call begins on a channel, TN as 3, or 3/0 and 3/1 for halves of a timeslot
seize CALL CELL RATE: a call begins on the lowest free channel of a cell, RATE full or half
handover CALL CELL: a call is to go to a cell, to an outside one from 64 on
undo CALL: the handover of a call is taken back
clear CALL: a call ends
expire CALL TIMER: a timer of a call, T3103, T7 or T8, runs out
abis CELL TRX HEX: a message of a station is given in its place
a CALL HEX: a message of the switching centre about a call
#: nothing""".split("\n")


@keeps("waiting", wired=("relay",))
class Turns:
    """The lines of all operators, which wait for their turns."""

    def __init__(self, relay):
        self.relay = relay
        # by operator, in the order of their turns
        self.waiting = {}

    def add(self, operator, line):
        """A line of an operator waits; he isn't read before all of his are taken."""
        self.waiting.setdefault(operator, collections.deque()).append(line)
        operator.stream.pause("behind", True)

    def drop(self, operator):
        """Nothing that an operator has asked is carried out any more."""
        self.waiting.pop(operator, None)

    def next(self):
        """The operator whose turn it is; None where each line waits until the controller has answered others."""
        has_room = self.relay.has_room()
        return next((it for it, lines in self.waiting.items() if has_room or is_own(lines[0])), None)

    def take_turn(self):
        """Takes lines, one of each operator after another."""
        left = MOST_AT_ONCE
        while left > 0 and (operator := self.next()):
            lines = self.waiting.pop(operator)
            line = lines.popleft()
            if lines:
                # those of all others come first
                self.waiting[operator] = lines
            left -= MOST_AT_ONCE if first_word(line) in VIEWS else 1
            operator.contain(line)
            operator.stream.pause("behind", operator in self.waiting)


def first_word(line):
    """The first word of a line, empty where it has none."""
    return line.split(None, 1)[0] if line.strip() else b""


def is_own(line):
    """Whether the controller isn't asked a line."""
    word = first_word(line)
    return not word or word.startswith(b"#") or word in OWN


@keeps("relay", "name", "stream")
class Operator:
    """Somebody who gives lines: at standard input, or at the control socket."""

    # whether he waits behind stations
    is_served = True

    def __init__(self, relay, name):
        """Whoever makes one that asks gives it a `stream`."""
        self.relay, self.name = relay, name
        self.stream: Stream | None = None

    def __str__(self):
        return self.name

    def contain(self, line):
        """Takes a line. A fault of the bridge there is the end of this line alone."""
        try:
            self.take(line)
        except Exception as error:
            self.relay.faults.tell(faults.OPERATOR, f"{self}: {shown(line)}", error, "it isn't carried out to its end")
            self.tell(f"refused: {shown(line)}: a fault of the bridge, {type(error).__name__}")

    def faulty(self, error):
        """A fault of the bridge was met as he was read, or written to."""
        self.relay.faults.tell(faults.OPERATOR, self, error, "he is read no more")
        self.stream.pause("faulty", True)

    def take(self, line):
        """Takes a line."""
        words = line.split()
        if not words or line.startswith(b"#"):
            return
        if words == [b"help"]:
            self.tell(*self.relay.help())
        elif words == [b"stations"]:
            self.tell(*self.relay.again.away(), *(station.known() for station in self.relay.stations.values()))
        elif words == [b"calls"]:
            self.tell(*self.relay.views.channels())
        elif words[:2] == [b"bridge", b"upgrade"]:
            self.relay.succession.ask(self, os.fsdecode(line.strip()[len(b"bridge") :].strip()[len(b"upgrade") :].strip()))
        elif words[0] == b"upgrade":
            self.relay.again.upgrade(self, os.fsdecode(line.strip()[len(words[0]) :].strip()))
        elif words == [b"reload"]:
            self.relay.again.reload(self)
        elif words == [b"reopen"]:
            log = self.relay.log
            self.tell(log.open_anew() if log else "refused: reopen: there is no log")
        elif words[0] == b"watch":
            self.watch(words[1:])
        elif words[0] in SIMULATED:
            self.tell(f"refused: {shown(line)}: {words[0].decode()} is for simulators, and the stations are there")
        else:
            self.relay.give(line, self)

    def refuse_torn(self, rest):
        """Says that a line which ends without a line feed isn't carried out."""
        self.tell(f"refused: {shown(rest)}: the line has no line feed at its end, and may be cut")

    def tell(self, *texts):
        """Tells lines of text."""
        for text in texts:
            self.answer(plain(text).encode(errors="replace"))

    def watch(self, _words):
        """Asks for what the controller prints."""
        self.tell("refused: watch: standard output has all that the controller prints")

    def answer(self, line):
        """Is told a line."""
        show(line)

    def hear(self, _line):
        """Hears what the controller prints of his line, which is shown already."""


@functools.lru_cache
def names_of(call):
    """How the lines look that name a call."""
    return re.compile(rb"(in \w+|out a|event \w+|event .* -> owned) %d\b(?!/)" % call)


@keeps("call", "lines", "is_named")
class Watched:
    """What comes of a call: all lines of each input of which one names it."""

    def __init__(self, call):
        """`call` is its number."""
        self.call, self.lines = call, []
        self.is_named = False

    def see(self, line):
        """Which lines are of the call, now that another has come."""
        if line.startswith((b"in ", b"line ", b"end ", b"summary ")):
            self.lines, self.is_named = [], False
        self.is_named = self.is_named or (names_of(self.call).match(line) and not line.startswith(b"in abis")) is True
        self.lines = [*self.lines[-MOST_LINES:], line]
        if not self.is_named:
            return []
        lines, self.lines = self.lines, []
        return lines


@keeps("bridge")
class Standard(Operator):
    """The operator at standard input. That is left blocking, since others may have it too."""

    def __init__(self, bridge, number):
        """`number` is that of the file."""
        super().__init__(bridge.relay, "operator at standard input")
        self.bridge = bridge
        self.stream = Stream(bridge.selector, number)
        self.stream.is_operators = True
        self.join()

    def join(self):
        """Is told what comes."""
        it = self.stream
        it.hear_lines(lambda line: self.bridge.turns.add(self, line))
        it.ended, it.faulty = self.ended, self.faulty

    def ended(self):
        """Nothing more comes: the bridge ends, unless operators may come to the control socket."""
        if rest := self.stream.lines.end():
            self.refuse_torn(rest)
        self.stream.leave()
        if not self.bridge.control and not self.bridge.is_ending:
            self.bridge.end("standard input has ended", Level.NOTICE)


@keeps("bridge", "connection", "is_leaving", "watched")
class Client(Operator):
    """An operator at the control socket."""

    def __init__(self, bridge, connection, number):
        """`number` is how many operators have come by now."""
        user = struct.unpack("3i", connection.getsockopt(socket.SOL_SOCKET, socket.SO_PEERCRED, 12))[1]
        super().__init__(bridge.relay, f"operator {number}, user {user}")
        self.bridge, self.connection = bridge, connection
        self.is_leaving = False
        self.watched = None
        connection.setblocking(False)
        number = connection.fileno()
        self.stream = Stream(bridge.selector, number, number)
        self.stream.is_operators = True
        self.join()

    def join(self):
        """Is told what comes."""
        it = self.stream
        it.hear_lines(lambda line: self.bridge.turns.add(self, line))
        it.ended, it.faulty = lambda: self.ended(it.lines.end()), self.faulty

    def resume(self):
        """Goes on with the times that another bridge has set."""
        if self.bridge.times.was_set(("client", self)):
            self.leave_soon()

    def faulty(self, error):
        """A fault of the bridge was met as he was read, or written to: that is his end."""
        super().faulty(error)
        self.bridge.turns.drop(self)
        self.ended(b"")

    def tell(self, *texts):
        """Tells lines of text, at once."""
        self.answer("\n".join(map(plain, texts)).encode(errors="replace"))

    def watch(self, words):
        """Subscribes to what the controller prints."""
        self.relay.watchers.discard(self)
        if words == [b"off"] or self.is_leaving:
            return
        if words and not (len(words) == 1 and words[0].isdigit() and len(words[0]) <= LONGEST_NUMBER):
            self.tell("refused: watch, watch CALL or watch off")
            return
        self.watched = Watched(int(words[0])) if words else None
        self.relay.watchers.add(self)

    def see(self, line):
        """Sees a line of the controller that it watches."""
        for it in self.watched.see(line) if self.watched else [line]:
            self.answer(it)

    def answer(self, line):
        """Is told a line."""
        self.stream.send(line + b"\n")
        if self.is_leaving:
            self.leave_soon()

    def hear(self, line):
        """Hears what the controller prints of his line."""
        self.answer(line)

    def ended(self, rest):
        """Nothing more is asked: what is asked already is answered. A line without its line feed isn't carried out."""
        if rest and not self.is_leaving:
            self.refuse_torn(rest)
        if self.stream.is_unread:
            # he doesn't read what he is told
            self.bridge.turns.drop(self)
        self.is_leaving = True
        self.relay.watchers.discard(self)
        self.stream.pause("leaving", True)
        self.leave_soon()

    def leave_soon(self):
        """Leaves once no more answers come."""
        self.bridge.times.set(("client", self), QUIET, self.leave)

    def leave(self):
        """Leaves, where all is answered."""
        waits = self.stream.waiting or self in self.bridge.turns.waiting
        if waits or self.relay.is_awaited(self):
            self.leave_soon()
        else:
            self.bridge.clients.discard(self)
            self.stream.leave()
            self.connection.close()
