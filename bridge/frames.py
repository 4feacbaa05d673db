"""How many frames of speech a call has in a second. They go past the bridge, and osmo-mgw counts them for each of its connections.
By MGCP it tells that only as a connection ends, so it is asked at its terminal, once a second, about each endpoint in use:

    show mgcp endpoint rtpbridge/1@mgw

A remark behind the questions (`!`) comes back, as all that is typed at a terminal does, once they are answered."""
from __future__ import annotations

import errno
import os
import re
import selectors
import socket
import time
import typing

import faults
from stream import Stream
from tell import Level, Since, say

# In seconds: how often the terminal is asked, how long it may take to answer, after how long one that doesn't is tried again, and
# how old what it told may be.
EVERY, PATIENCE, RETRY, FRESH = 1.0, 5.0, 10.0, 3.0
# How many times in a row it may tell nothing of what it was asked, as where calls have just ended.
MOST_VAIN = 5
# What it tells of a connection, in this order: its number, and how many packets went to the other side, and came from there; and
# what comes back behind all.
CONNECTION = re.compile(rb" +CONN: \(.*\bid:0x([0-9A-Fa-f]{1,32})\b.*")
SENT, CAME = (re.compile(rb" +Packets %s: (\d{1,19}) .*" % word) for word in (b"Sent", b"Received"))
MARK = re.compile(rb".*! (\d{1,19})\r?")


class Counts(typing.NamedTuple):
    """How many packets of a connection there were by a moment, from the other side and to it."""

    at: float
    came: int
    sent: int


class Frames:
    """The terminal, and what it told of the connections to stations."""

    def __init__(self, selector, times, settings, media, met):
        """`settings` are the gateway's: the address and the port of its terminal, None where it isn't to be asked. `media` has the
        speech of calls. `met` are the faults of the bridge that were met."""
        self.selector, self.times, self.settings, self.media, self.faults = selector, times, settings, media, met
        self.socket: socket.socket | None = None
        self.stream: Stream | None = None
        # by the number of a connection, what was told last, and before that
        self.told: dict[str, tuple[Counts | None, Counts]] = {}
        # how often it was asked, when that was, and whether it hasn't answered; the connections that it was asked about
        self.number, self.asked_at, self.is_awaited = 0, 0.0, False
        self.wanted: set[str] = set()
        # the connection that it tells of, with how many packets were sent there; and how many connections it told of
        self.connection, self.sent, self.found = "", 0, 0
        self.vain = 0
        # since when it doesn't answer, and when it is tried again
        self.away_since: Since | None = None
        self.again_at = 0.0

    def __str__(self):
        return f"the gateway's terminal at {self.settings.terminal_address}, port {self.settings.terminal}"

    def start(self):
        """Asks from here on."""
        if self.settings.terminal:
            self.times.set("frames", EVERY, self.take_turn)

    def leave(self):
        """Asks no more."""
        self.times.forget("frames")
        self.close()

    # What is asked

    def take_turn(self):
        """Asks, unless it hasn't answered yet. A fault of the bridge there is the end of this link alone."""
        self.start()
        try:
            self.look()
        except Exception as error:
            self.faulty(error)

    def look(self):
        """Asks, opens the link to it, or gives that up."""
        now = time.monotonic()
        if self.is_awaited:
            if now > self.asked_at + PATIENCE:
                self.lose(f"it doesn't answer in {PATIENCE:g} seconds")
            return
        speeches = [it for it in self.media.all if it.endpoint and it.station.connection]
        self.wanted = {it.station.connection.upper() for it in speeches}
        self.told = {name: it for name, it in self.told.items() if name in self.wanted}
        if speeches and self.stream:
            self.ask(sorted(it.endpoint for it in speeches))
        elif speeches and now >= self.again_at:
            self.open()

    def ask(self, endpoints):
        """Asks about endpoints."""
        self.number, self.asked_at, self.is_awaited = self.number + 1, time.monotonic(), True
        self.connection, self.found = "", 0
        lines = [*(f"show mgcp endpoint {it}" for it in endpoints), f"! {self.number}"]
        self.stream.send("".join(f"{line}\r\n" for line in lines).encode())

    def open(self):
        """Opens the link."""
        self.asked_at, self.is_awaited = time.monotonic(), True
        address, port = self.settings.terminal_address, self.settings.terminal
        self.socket = socket.socket(socket.AF_INET6 if ":" in address else socket.AF_INET, socket.SOCK_STREAM)
        self.socket.setblocking(False)
        status = self.socket.connect_ex((address, port))
        if status in (0, errno.EINPROGRESS):
            self.selector.register(self.socket, selectors.EVENT_WRITE, lambda _mask: self.opened())
        else:
            self.lose(os.strerror(status))

    def opened(self):
        """It is open, or can't be."""
        self.selector.unregister(self.socket)
        if status := self.socket.getsockopt(socket.SOL_SOCKET, socket.SO_ERROR):
            self.lose(os.strerror(status))
            return
        self.is_awaited = False
        number = self.socket.fileno()
        self.stream = Stream(self.selector, number, number)
        self.stream.hear_lines(self.hear)
        self.stream.ended, self.stream.faulty = lambda: self.lose("the link ended"), self.faulty

    # What it tells

    def hear(self, line):
        """Hears a line."""
        if found := CONNECTION.fullmatch(line):
            self.connection = found[1].decode().upper()
        elif found := SENT.fullmatch(line):
            self.sent = int(found[1])
        elif (found := CAME.fullmatch(line)) and self.connection in self.wanted:
            self.note(int(found[1]))
        elif (found := MARK.fullmatch(line)) and int(found[1]) == self.number:
            self.answered()

    def note(self, came):
        """It has told of a connection."""
        _, before = self.told.get(self.connection, (None, None))
        self.told[self.connection] = before, Counts(self.asked_at, came, self.sent)
        self.found += 1

    def answered(self):
        """It has told of all."""
        self.is_awaited = False
        self.vain = 0 if self.found else self.vain + 1
        if self.vain > MOST_VAIN:
            self.lose("it tells no numbers of packets, as osmo-mgw does")
        elif self.found and self.away_since:
            say(f"{self}: answers again")
            self.away_since = None

    def lose(self, why):
        """It doesn't tell how many packets there are; it is tried again after a while."""
        self.close()
        self.again_at = time.monotonic() + RETRY
        if not self.away_since:
            say(f"{self}: {why}: frames of speech aren't counted", Level.WARNING)
            self.away_since = Since()

    def faulty(self, error):
        """A fault of the bridge was met."""
        self.faults.tell(faults.GATEWAY, self, error, "it is closed")
        self.lose("it had a fault")

    def close(self):
        """Closes the link."""
        self.is_awaited, self.vain = False, 0
        if self.stream:
            self.stream.leave()
            self.stream = None
        if self.socket:
            if self.socket.fileno() >= 0 and self.socket in self.selector.get_map():
                self.selector.unregister(self.socket)
            self.socket.close()
            self.socket = None

    # What operators are told

    def of(self, speech):
        """How many frames a call had in the last second, in words; nothing where that isn't known."""
        before, last = self.told.get((speech.station.connection or "").upper(), (None, None))
        if not before or time.monotonic() > last.at + FRESH:
            return ""
        seconds = last.at - before.at
        came, sent = (max(0, round(it / seconds)) for it in (last.came - before.came, last.sent - before.sent))
        return f"frames in the last second: {came} from the mobile, {sent} to it"

    def known(self):
        """Whether frames are counted, in words."""
        if not self.settings.terminal:
            return "frames: not counted (gateway.terminal)"
        return f"frames: not counted since {self.away_since}" if self.away_since else "frames: counted"
