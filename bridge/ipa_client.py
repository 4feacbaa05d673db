"""A link of IPA that this end opens, and opens again where it is lost: SCCP over TCP, as osmo-stp takes it.

The other side asks who this is, and knows an application server by the name that it is told; then each side acknowledges.
"""
import enum
import errno
import selectors
import socket

import faults
import ipa
from page import keeps
from stream import Stream
from tell import Level, say

# The stream of SCCP, and what a unit without a number says that it is.
SCCP, NO_UNIT = 0xFD, "0/0/0"


@keeps()
class Step(enum.Enum):
    """What is done once a time of the link is over, by which it is in CONFIG's timers: it is opened; it is given up, since it doesn't
    come up; the other side is asked whether it is there; or is missed, since it doesn't answer that."""

    OPEN = "retry"
    GIVE_UP = "patience"
    ASK = "patience of the link"
    MISS = "patience of an answer"

    @property
    def timer(self):
        """The name of the timer."""
        return self.value.split()[0]


@keeps(
    *("socket", "stream", "step", "is_ready", "is_named", "is_left", "frames"),
    wired=("selector", "times", "centre", "seconds", "user", "faults", "steps"),
)
class IpaClient:
    """The link. `user` has methods `up()`, `down()` and `heard(octets)` for the messages of SCCP; `met` are the faults of the bridge
    that were met."""

    def __init__(self, selector, times, centre, seconds, user, met):
        self.selector, self.times, self.centre, self.seconds, self.user = selector, times, centre, seconds, user
        self.faults = met
        self.socket: socket.socket | None = None
        self.stream: Stream | None = None
        # whether both sides have acknowledged, whether this side has said its name, and whether it is closed for good
        self.is_ready = self.is_named = self.is_left = False
        self.frames = ipa.Frames()
        self.step = Step.OPEN
        self.steps = {
            Step.OPEN: self.start,
            Step.GIVE_UP: lambda: self.lose("the centre's link doesn't come up"),
            Step.ASK: self.ask,
            Step.MISS: self.miss,
        }

    def join(self):
        """Is told what comes, where another bridge had the link open."""
        if self.stream:
            self.hear()
        elif self.socket:
            self.await_opened()

    def resume(self):
        """Goes on with the times that another bridge has set."""
        if self.times.was_set("centre"):
            self.later(self.step)

    def start(self):
        """Opens it; where that fails, again after a while."""
        self.frames, self.is_ready, self.is_named = ipa.Frames(), False, False
        try:
            family, kind, protocol, _, address = socket.getaddrinfo(
                self.centre.address, self.centre.port, type=socket.SOCK_STREAM
            )[0]
            self.socket = socket.socket(family, kind, protocol)
            self.socket.setblocking(False)
            status = self.socket.connect_ex(address)
        except OSError as error:
            self.lose(str(error))
            return
        if status not in (0, errno.EINPROGRESS):
            self.lose(errno.errorcode.get(status, str(status)))
            return
        self.await_opened()
        self.later(Step.GIVE_UP)

    def await_opened(self):
        """It is told whether it is open."""
        self.selector.register(self.socket, selectors.EVENT_WRITE, lambda _mask: self.contain(self.opened))

    def __str__(self):
        return f"A: the link to {self.centre.address}, port {self.centre.port}"

    def later(self, step):
        """Does something of it later, in place of what was to be done."""
        self.step = step
        self.times.set("centre", self.seconds[step.timer], lambda: self.contain(self.steps[step]))

    def contain(self, action):
        """Does something of it. A fault of the bridge there ends this link alone."""
        try:
            action()
        except Exception as error:
            self.faulty(error)

    def faulty(self, error):
        """A fault was met."""
        self.faults.tell(faults.CENTRE, self, error, "it is closed")
        self.lose("it had a fault")

    def opened(self):
        """It is open, or can't be."""
        if self.socket is None:
            return
        self.selector.unregister(self.socket)
        if status := self.socket.getsockopt(socket.SOL_SOCKET, socket.SO_ERROR):
            self.lose(errno.errorcode.get(status, str(status)))
            return
        self.socket.setsockopt(socket.IPPROTO_TCP, socket.TCP_NODELAY, 1)
        number = self.socket.fileno()
        self.stream = Stream(self.selector, number, number)
        self.hear()

    def hear(self):
        """Is told what comes."""
        it = self.stream
        it.heard, it.ended, it.faulty = self.heard, lambda: self.lose("the link ended"), self.faulty
        it.watch()

    def send(self, octets):
        """Sends a message of SCCP."""
        if self.is_ready:
            self.put(SCCP, octets)

    def put(self, stream, message):
        """Sends a message, where the link is there."""
        if self.stream:
            self.stream.send(ipa.frame(stream, message))

    def heard(self, octets):
        """Takes octets that came; anything that comes shows that the other side is there."""
        if self.is_ready:
            self.watch()
        self.frames.add(octets)
        while self.stream and (frame := self.frames.next()):
            stream, message = frame
            if stream == ipa.OWN:
                self.heard_own(message)
            elif stream == SCCP and self.is_ready:
                self.user.heard(message)

    def heard_own(self, message):
        """Takes a message of IPA's own."""
        kind = message[:1]
        if kind == ipa.PING:
            self.put(ipa.OWN, ipa.PONG)
        elif kind == ipa.IDENTITY_REQUEST:
            self.is_named = True
            self.put(ipa.OWN, self.identity(message))
        elif kind == ipa.ACKNOWLEDGEMENT and not self.is_ready:
            self.put(ipa.OWN, ipa.ACKNOWLEDGEMENT)
            self.is_ready = True
            self.watch()
            self.user.up()

    def identity(self, asked):
        """Who this is: the name, for each kind of thing that is asked for, once, so that there is room for all."""
        items, at, told = b"", 1, set()
        while at + 1 < len(asked) and asked[at]:
            kind = asked[at + 1]
            if kind not in told:
                told.add(kind)
                text = NO_UNIT if kind == ipa.UNIT else self.centre.name
                items += (len(text) + 2).to_bytes(2, "big") + bytes([kind]) + text.encode() + b"\0"
            at += 1 + asked[at]
        return ipa.IDENTITY + items

    def watch(self):
        """Asks whether the other side is there where nothing comes for a while; where nothing comes then, it isn't."""
        self.later(Step.ASK)

    def ask(self):
        """Asks whether it is there."""
        self.put(ipa.OWN, ipa.PING)
        self.later(Step.MISS)

    def miss(self):
        """It hasn't answered."""
        if self.stream and (self.stream.pauses or self.stream.readable()):
            # what it says isn't read for a while, or lies there
            self.watch()
        else:
            self.lose("the centre is silent")

    def lose(self, why):
        """It is lost, or doesn't come up: it is tried again."""
        was_ready, was_named = self.is_ready, self.is_named
        self.close()
        if not self.is_left:
            reason = f"; does osmo-stp know an as {self.centre.name!r} (centre.name)?" if was_named and not was_ready else ""
            say(f"A: no link to {self.centre.address}, port {self.centre.port}: {why}{reason}", Level.ERROR)
            self.later(Step.OPEN)
        if was_ready:
            self.user.down()

    def close(self):
        """Closes it."""
        self.is_ready = self.is_named = False
        self.times.forget("centre")
        if self.stream:
            self.stream.leave()
            self.stream = None
        if self.socket:
            if self.socket.fileno() >= 0 and self.socket in self.selector.get_map():
                self.selector.unregister(self.socket)
            self.socket.close()
            self.socket = None

    def leave(self):
        """Closes it for good."""
        self.is_left = True
        self.close()
