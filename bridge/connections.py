"""Connections of SCCP, of class 2 (ITU-T Q.714, clause 3), and messages without one, over a link of messages.

Who uses it is told by six methods: `unit_data(octets)`; `asked(connection, octets)`, which answers by `accept` or `refuse`;
`confirmed(connection)`; `data(connection, octets)`; `ended(connection, why)`, once, however a connection ends, but where the
user released it himself; and before that `unanswered(connection)`, where the other side didn't answer it.
"""
import enum

import sccp
from page import keeps
from sccp import Message, Type
from tell import Level, Sayings

# How many connections there may be at once; one more is refused.
MOST = 10_000


@keeps()
class State(enum.Enum):
    """How far a connection is."""

    REQUESTED = enum.auto()
    OFFERED = enum.auto()
    OPEN = enum.auto()
    RELEASING = enum.auto()


@keeps("own", "state", "other", "waiting", "sign", "call", "left")
class Connection:
    """A connection: our reference, the other side's once it is known, and what waits to be sent."""

    def __init__(self, own, state, other=None):
        self.own, self.state, self.other = own, state, other
        self.waiting = []
        # what the user notes of it: how often he had heard of the other side as he asked for it, and his call
        self.sign, self.call = 0, None
        # how many times more RELEASED is said where that isn't answered
        self.left = 0

    def __str__(self):
        return f"connection {self.own:06x}"


@keeps("known", "next", wired=("user", "times", "seconds", "send", "own", "sayings", "expired", "takers"))
class Connections:
    """One end of SCCP. `send` takes a message's octets for the link."""

    def __init__(self, user, times, seconds, own, send):
        self.user, self.times, self.seconds, self.send = user, times, seconds, send
        self.own = own
        self.sayings = Sayings(times)
        self.known = {}
        self.next = 1
        # what is done as each timer of a connection ends
        self.expired = {
            "connect": self.unanswered,
            "release": self.say_released,
            "silence": self.silent,
            "alive": self.test,
        }
        self.takers = {
            Type.CONNECTION_REQUEST: self.requested,
            Type.CONNECTION_CONFIRM: self.confirmed,
            Type.CONNECTION_REFUSED: self.refused,
            Type.RELEASED: self.released,
            Type.RELEASE_COMPLETE: self.completed,
            Type.DATA_FORM_1: self.heard_data,
            Type.UNITDATA: lambda message: self.user.unit_data(message.data()),
            Type.UNITDATA_SERVICE: lambda message: self.say(f"a message came back, cause {message.fields['cause']:02x}"),
            Type.PROTOCOL_ERROR: self.refused,
            Type.INACTIVITY_TEST: self.tested,
        }

    def resume(self):
        """Goes on with the times that another bridge has set."""
        for connection in self.known.values():
            for timer in self.expired:
                if self.times.was_set(("sccp", timer, connection.own)):
                    self.arm(connection, timer)

    def say(self, text):
        """Says something of the other side, unless too much was said of it."""
        self.sayings.say("A", f"A: {text}", Level.WARNING)

    # What the user asks

    def unit_data(self, octets):
        """Sends a message without a connection."""
        parts = {"called": sccp.address(), "calling": sccp.address(self.own), "data": octets}
        self.put(Type.UNITDATA, {"class": 0}, parts)

    def connect(self, octets):
        """Asks for a connection, with a first message; the connection, or None where there are too many."""
        connection = self.begun(State.REQUESTED)
        if connection is None:
            return None
        options = {sccp.CALLING: sccp.address(self.own)}
        if len(octets) <= sccp.LONGEST_REQUEST:
            options[sccp.DATA] = octets
        else:
            connection.waiting.append(octets)
        fields = {"source": connection.own, "class": sccp.CONNECTION_ORIENTED}
        self.put(Type.CONNECTION_REQUEST, fields, {"called": sccp.address()}, options)
        self.arm(connection, "connect")
        return connection

    def unanswered(self, connection):
        """The other side doesn't answer."""
        self.user.unanswered(connection)
        self.end(connection, "isn't answered")

    def accept(self, connection):
        """Takes a connection that the other side asked for."""
        fields = {"destination": connection.other, "source": connection.own, "class": sccp.CONNECTION_ORIENTED}
        self.put(Type.CONNECTION_CONFIRM, fields)
        self.opened(connection)

    def refuse(self, connection, cause=sccp.END_USER_ORIGINATED):
        """Refuses a connection that the other side asked for."""
        self.put(Type.CONNECTION_REFUSED, {"destination": connection.other, "cause": cause})
        self.forget(connection)

    def data(self, connection, octets):
        """Sends a message on a connection; it waits where that isn't open yet."""
        if len(octets) > sccp.LONGEST_DATA:
            self.say(f"not sent, a message of {len(octets)} octets would have to be segmented: {octets.hex()}")
        elif connection.state is State.REQUESTED:
            connection.waiting.append(octets)
        elif connection.state is State.OPEN:
            self.put(Type.DATA_FORM_1, {"destination": connection.other, "segmenting": 0}, {"data": octets})
            self.keep_alive(connection)

    def release(self, connection):
        """Ends a connection: the user hears no more of it. It is said again until the other side answers."""
        if connection.state is State.REQUESTED:
            # a confirm that comes yet finds the connection unknown, and is answered so
            self.forget(connection)
        elif connection.state is State.OPEN:
            connection.state = State.RELEASING
            self.disarm(connection)
            connection.left = 3
            self.say_released(connection)

    def lost(self):
        """The link is lost: all connections end."""
        for connection in list(self.known.values()):
            self.end(connection, "is lost with the link")

    # What comes from the other side

    def heard(self, octets):
        """Takes a message."""
        try:
            message = sccp.read(octets)
        except sccp.Unreadable as error:
            self.say(f"no message of SCCP that is taken: {error}: {octets.hex() or 'empty'}")
            return
        self.takers[message.type](message)

    def requested(self, message):
        """The other side asks for a connection."""
        connection = self.begun(State.OFFERED, message.fields["source"])
        if connection is None:
            fields = {"destination": message.fields["source"], "cause": sccp.SUBSYSTEM_CONGESTION}
            self.put(Type.CONNECTION_REFUSED, fields)
            return
        self.user.asked(connection, message.data())

    def confirmed(self, message):
        """The other side takes a connection, perhaps with a message."""
        connection = self.of(message)
        if connection is None or connection.state is not State.REQUESTED:
            # a second confirm changes nothing; one of no connection is released (Q.714, table B.1)
            if connection is None:
                self.put_released(message.fields["source"], message.fields["destination"], sccp.END_USER_FAILURE)
            return
        connection.other = message.fields["source"]
        self.opened(connection)
        self.user.confirmed(connection)
        if message.data() and connection.state is State.OPEN:
            self.user.data(connection, message.data())

    def refused(self, message):
        """The other side doesn't take a connection, or says that one has an error."""
        if connection := self.of(message):
            cause = message.fields["cause"]
            self.end(connection, f"is refused, cause {cause:02x}" if connection.other is None else f"has an error, {cause:02x}")

    def released(self, message):
        """The other side ends a connection; it is acknowledged, also where nobody knows the connection."""
        fields = {"destination": message.fields["source"], "source": message.fields["destination"]}
        self.put(Type.RELEASE_COMPLETE, fields)
        if connection := self.of(message):
            if message.data() and connection.state is State.OPEN:
                self.user.data(connection, message.data())
            self.end(connection, f"is released, cause {message.fields['cause']:02x}")

    def completed(self, message):
        """The other side acknowledges a release."""
        connection = self.of(message)
        if connection and connection.state is State.RELEASING:
            self.forget(connection)

    def heard_data(self, message):
        """A message on a connection. One in pieces can't be put together: the connection is released."""
        connection = self.of(message)
        if connection is None or connection.state is not State.OPEN:
            self.say(f"data of no connection that is open: {message.fields['destination']:06x}")
        elif message.fields["segmenting"] & 1:
            self.say(f"{connection}: a segmented message isn't taken, and the connection is released")
            self.release(connection)
            self.user.ended(connection, "had a segmented message")
        else:
            self.watch(connection)
            self.user.data(connection, message.data())

    def tested(self, message):
        """The other side says that a connection is still there."""
        if connection := self.of(message):
            self.watch(connection)

    # Connections

    def of(self, message):
        """The connection that a message is about."""
        connection = self.known.get(message.fields["destination"])
        source = message.fields.get("source")
        if connection and connection.other is not None and source not in (None, connection.other):
            self.say(f"{connection}: a message of another connection of the other side, {source:06x}")
            return None
        return connection

    def begun(self, state, other=None):
        """A new connection, under a reference that none has."""
        if len(self.known) >= MOST:
            return None
        while self.next in self.known:
            self.next = self.next % 0xFFFFFE + 1
        connection = self.known[self.next] = Connection(self.next, state, other)
        self.next = self.next % 0xFFFFFE + 1
        return connection

    def opened(self, connection):
        """A connection is open: what waits is sent."""
        connection.state = State.OPEN
        self.disarm(connection)
        self.watch(connection)
        self.keep_alive(connection)
        waiting, connection.waiting = connection.waiting, []
        for octets in waiting:
            self.data(connection, octets)

    def end(self, connection, why):
        """A connection has ended, which the user hears where he didn't release it."""
        if connection.own not in self.known:
            return
        was_released = connection.state is State.RELEASING
        self.forget(connection)
        if not was_released:
            self.user.ended(connection, why)

    def forget(self, connection):
        """Nothing more is known of a connection."""
        self.known.pop(connection.own, None)
        self.disarm(connection)
        connection.state = State.RELEASING

    def arm(self, connection, timer):
        """Runs a timer of a connection."""
        action = self.expired[timer]
        self.times.set(("sccp", timer, connection.own), self.seconds[timer], lambda: action(connection))

    def disarm(self, connection):
        """Ends all timers of a connection."""
        for timer in self.expired:
            self.times.forget(("sccp", timer, connection.own))

    def watch(self, connection):
        """Something was heard on a connection: where nothing is for long, it is released (T(iar))."""
        self.arm(connection, "silence")

    def silent(self, connection):
        """Nothing was heard on a connection for long."""
        self.release(connection)
        self.user.ended(connection, "is silent")

    def keep_alive(self, connection):
        """Something was sent on a connection: where nothing is for long, the other side is told that it is there (T(ias)).
        """
        self.arm(connection, "alive")

    def test(self, connection):
        """Nothing was sent on a connection for long."""
        fields = {"destination": connection.other, "source": connection.own, "class": sccp.CONNECTION_ORIENTED}
        self.put(Type.INACTIVITY_TEST, fields | {"sequencing": 0, "credit": 0})
        self.keep_alive(connection)

    def say_released(self, connection):
        """Says that a connection has ended, as many times as are left."""
        if connection.left == 0:
            self.forget(connection)
            return
        connection.left -= 1
        self.put_released(connection.other, connection.own, sccp.END_USER_ORIGINATED)
        self.arm(connection, "release")

    def put_released(self, destination, source, cause):
        """Sends RELEASED."""
        self.put(Type.RELEASED, {"destination": destination, "source": source, "cause": cause})

    def put(self, kind, fields, parts=None, options=None):
        """Sends a message."""
        self.send(Message(kind, fields, parts or {}, options or {}).written())
