"""A mobile on the virtual air: it asks for a channel (TS 44.018, 3.3.1), keeps a link there, and registers (TS 24.008, 4.4)."""
from lapdm import FAST_ROOM, FILL, FRAME, Link
from osmocom import Radio

# The channels of GSMTAP: broadcast, common downlink (three kinds), random access, and the fast channel of a full rate one and
# of a half rate one.
BROADCAST, COMMON, RANDOM_ACCESS, FAST, FAST_HALF = 1, (2, 4, 5), 3, 9, 10
# Why a mobile asks: to register. On the air: IMMEDIATE ASSIGNMENT, and its REJECT.
TO_REGISTER, ASSIGNED, REJECTED = 0x00, b"\x06\x3f", b"\x06\x3a"
# What it hears: LOCATION UPDATING ACCEPT, CHANNEL RELEASE; and says: that its new identity is taken.
ACCEPT, RELEASE, TAKEN = b"\x05\x02", b"\x06\x0d", b"\x05\x1b"
# The network 001/01, and what sort of mobile this is.
PLMN, CLASSMARK = bytes.fromhex("00f110"), b"\x57"


class Unheard(Exception):
    """A mobile didn't hear what it waited for."""


class Handset:
    """A mobile with an IMSI, in a cell. Where it has a channel it listens there, whoever waits for something on this radio."""

    def __init__(self, radio: Radio, imsi, arfcn):
        self.radio, self.imsi, self.arfcn = radio, imsi, arfcn
        self.requests = 0
        self.timeslot, self.half = None, None
        self.counted = 0
        self.came = []
        self.link = Link(0, FAST_ROOM, self.put, self.take)

    def __str__(self):
        return self.imsi

    # The common channels

    def broadcast(self, kind, seconds=10):
        """A message of the broadcast channel, by its type; None where none comes."""

        def take(frame):
            is_it = (frame.arfcn, frame.channel) == (self.arfcn, BROADCAST) and frame.octets[2] == kind
            return frame.octets if is_it else None

        return self.radio.hear(take, seconds)

    def ask(self, cause=TO_REGISTER):
        """Sends an access burst; its octet, whose last four bits tell one from another."""
        self.requests += 1
        octet = cause | self.requests & 0x0F
        self.radio.wait(0.1)
        self.radio.put(self.arfcn, 0, RANDOM_ACCESS, bytes([octet]))
        return octet

    def answered(self, octet, kind, seconds):
        """A message of a kind for who sent a burst; None where none comes."""

        def take(frame):
            if frame.arfcn != self.arfcn or frame.channel not in COMMON or frame.octets[1:3] != kind:
                return None
            place = 7 if kind == ASSIGNED else 4
            return frame.octets if frame.octets[place] == octet else None

        return self.radio.hear(take, seconds)

    def seize(self, seconds=10, cause=TO_REGISTER):
        """Asks for a channel, and goes there; IMMEDIATE ASSIGNMENT."""
        message = self.answered(self.ask(cause), ASSIGNED, seconds)
        if message is None:
            raise Unheard(f"{self}: no IMMEDIATE ASSIGNMENT")
        self.counted, self.came = 0, []
        self.go(self.arfcn, message[4:7])
        return message

    # The channel

    def go(self, arfcn, description):
        """Goes to a channel, by its carrier and its Channel Description (TS 44.018, 10.5.2.5): a whole timeslot or a half."""
        self.arfcn, number = arfcn, description[0]
        self.timeslot, self.half = number & 7, None if number & 0xF8 == 0x08 else number >> 3 & 1
        self.link.begin()
        self.radio.listen(self.place(), self)

    def is_on_channel(self):
        """Whether it listens on a channel."""
        return self in self.radio.places.values()

    def place(self):
        """Where it is: carrier, timeslot and half."""
        return self.arfcn, self.timeslot, self.half or 0

    def put(self, octets):
        """Sends a frame on the fast channel."""
        channel = FAST if self.half is None else FAST_HALF
        self.radio.put(self.arfcn, self.timeslot, channel, octets.ljust(FRAME, FILL), self.half or 0)

    def listen(self, frame):
        """Takes a frame of its channel."""
        if frame.channel in (FAST, FAST_HALF):
            self.link.hear(frame.octets)

    def tick(self):
        """Time goes on."""
        self.link.tick()

    def take(self, message):
        """Takes a message."""
        self.came.append(message)

    def until(self, holds, seconds):
        """Waits until something holds; whether it does."""
        return holds() or bool(self.radio.hear(lambda _frame: True if holds() else None, seconds))

    def open(self, layer_3=b"", seconds=10):
        """Makes itself known, with its first message."""
        self.link.open(layer_3)
        if not self.until(lambda: self.link.is_open, seconds):
            raise Unheard(f"{self}: its link isn't taken")

    def say(self, layer_3, seconds=5):
        """Sends a message, and waits until it is acknowledged; whether it is."""
        self.link.say(layer_3)
        return self.until(self.link.is_said, seconds)

    def expect(self, beginning, seconds=15):
        """Waits for a message that begins so; others are passed over."""

        def find():
            return any(it.startswith(beginning) for it in self.came)

        if not self.until(find, seconds):
            raise Unheard(f"{self}: doesn't hear {beginning.hex()}, but {[it.hex() for it in self.came]}")
        while not (message := self.came.pop(0)).startswith(beginning):
            pass
        return message

    def close(self):
        """Ends the link."""
        self.link.close()
        self.radio.wait(0.3)
        self.radio.ignore(self)

    # Mobility management

    def numbered(self, message):
        """A message with its number, modulo 4 (TS 24.007, 11.2.3.2): the centre is of release 99."""
        message = bytes([message[0], message[1] | self.counted % 4 << 6]) + message[2:]
        self.counted += 1
        return message

    def identity(self):
        """The IMSI as an identity, behind its length: 15 digits."""
        digits = f"{self.imsi[0]}9" + "".join(self.imsi[at + 1] + self.imsi[at] for at in range(1, 15, 2))
        return b"\x08" + bytes.fromhex(digits)

    def update(self, identity=None, lac=23):
        """LOCATION UPDATING REQUEST, by the IMSI, or by another identity."""
        place = PLMN + lac.to_bytes(2, "big")
        return self.numbered(b"\x05\x08\x70" + place + CLASSMARK + (identity or self.identity()))

    def register(self, lac=23):
        """Registers, from the burst to the end of the link."""
        self.seize()
        self.open(self.update(lac=lac))
        self.take_identity()
        self.leave()

    def take_identity(self):
        """Is registered, and takes its new identity; LOCATION UPDATING ACCEPT."""
        message = self.expect(ACCEPT)
        self.say(self.numbered(TAKEN))
        return message

    def leave(self):
        """Hears CHANNEL RELEASE, and ends the link."""
        self.expect(RELEASE)
        self.close()
