"""A mobile that is called, calls, speaks, and moves (TS 24.008, clause 5; TS 44.018; TS 24.011), on the virtual air: what radio
resources ask of it is done as it comes."""
import enum

from handset import FAST, FAST_HALF, RELEASE, Handset, Unheard
from lapdm import FILL, FRAME, SLOW_ROOM, Link
from speech import Voice

# The slow channel that goes with a fast one, and what stands in front of its frames: power level and timing advance.
SLOW, SLOW_HEAD = 0x80, b"\x00\x00"
# Why a mobile asks: it calls, with a whole channel or also with a half; it was paged, and has a whole one or either.
TO_CALL, TO_CALL_HALF, PAGED, PAGED_EITHER = 0xE0, 0x40, 0x80, 0x30
# Of radio resources what it hears: CHANNEL MODE MODIFY, HANDOVER COMMAND, CIPHERING MODE COMMAND, CLASSMARK ENQUIRY, and PAGING
# REQUEST of type 1; and says: the answers, PAGING RESPONSE, HANDOVER COMPLETE and FAILURE.
MODE_MODIFY, MOVE, CIPHER, ENQUIRY, PAGING = b"\x06\x10", b"\x06\x2b", b"\x06\x35", b"\x06\x13", b"\x06\x21"
MODE_MODIFIED, CIPHERED, CLASSMARK_CHANGE, ANSWER = b"\x06\x17", b"\x06\x32", b"\x06\x16", b"\x06\x27\x07"
ARRIVED, CAME_BACK = b"\x06\x2c\x00", b"\x06\x28\x6f"
# Classmark 2 behind its length, and an IMEISV as a mobile identity behind identifier and length.
CLASSMARK_2, SOFTWARE = b"\x03\x57\x18\x81", bytes.fromhex("17093301000000000000f0")
# Of mobility management and call control, by what it says or hears, without numbers of messages.
SERVICE_REQUEST, SERVICE_ACCEPT = b"\x05\x24\x71", b"\x05\x21"
SETUP, PROCEEDING, CONFIRMED, ALERTING, CONNECT = 0x05, 0x02, 0x08, 0x01, 0x07
CONNECT_ACKNOWLEDGE, DISCONNECT, LET_GO, LET_GO_COMPLETE = 0x0F, 0x25, 0x2D, 0x2A
# Speech at full rate in its versions 1 and 2, and at half rate in version 1 (TS 24.008, 10.5.4.5); why a call ends: normally.
SPEECH, NORMAL = b"\x04\x06\x60\x04\x02\x00\x05\x81", b"\x02\xe0\x90"
# Short messages (TS 24.011): CP-DATA, CP-ACK and CP-ERROR, and in the first RP-DATA to a mobile and RP-ACK from one.
SHORT_DATA, SHORT_ACK, RELAY_DATA, RELAY_ACK = 0x01, 0x04, 0x01, 0x02


class Moving(enum.Enum):
    """What it does of a HANDOVER COMMAND."""

    ARRIVES = enum.auto()
    COMES_BACK = enum.auto()
    STAYS = enum.auto()
    VANISHES = enum.auto()


class Telephone(Handset):
    """A mobile with a number."""

    def __init__(self, radio, imsi, number, arfcn):
        super().__init__(radio, imsi, arfcn)
        self.number = number
        self.tmsi = self.paged = None
        self.moving, self.moved = Moving.ARRIVES, 0
        # the last HANDOVER COMMAND
        self.command = None
        self.has_mode = self.is_called = self.was_released = False
        self.short, self.short_messages = Link(3, SLOW_ROOM, self.put_slow, self.take_short), []
        self.voice = Voice(self)
        radio.hearers.append(self.overhear)

    def __str__(self):
        return f"telephone {self.number}"

    # The common channels

    def overhear(self, frame):
        """Hears whether it is paged."""
        if frame.arfcn != self.arfcn or frame.octets[1:3] != PAGING:
            return
        if self.identity()[1:] in frame.octets or self.tmsi and self.tmsi in frame.octets:
            self.paged = frame.octets

    def register(self, lac=23):
        """Registers, and keeps its new identity."""
        self.seize()
        self.open(self.update(lac=lac))
        # the identity stands at the end, behind its own type
        self.tmsi = self.take_identity()[-4:]
        self.left()

    # The channel

    def go(self, arfcn, description):
        """Goes to a channel."""
        super().go(arfcn, description)
        self.short.begin()
        self.was_released = False

    def seize(self, seconds=10, cause=0):
        """Asks for a channel, and goes there."""
        self.has_mode = False
        return super().seize(seconds, cause)

    def put_slow(self, octets):
        """Sends a frame on the slow channel."""
        channel = (FAST if self.half is None else FAST_HALF) | SLOW
        frame = (SLOW_HEAD + octets).ljust(FRAME, FILL)
        self.radio.put(self.arfcn, self.timeslot, channel, frame, self.half or 0)

    def listen(self, frame):
        """Takes a frame of its channel."""
        if frame.channel & SLOW:
            self.short.hear(frame.octets[len(SLOW_HEAD) :])
        elif not self.voice.hear(frame):
            super().listen(frame)

    def tick(self):
        """Time goes on."""
        super().tick()
        self.short.tick()

    def take(self, message):
        """Takes a message: what radio resources ask is done, all else is kept."""
        kind = message[:2]
        if kind == MODE_MODIFY:
            self.has_mode = True
            self.link.say(MODE_MODIFIED + message[2:6])
        elif kind == CIPHER:
            self.link.say(CIPHERED + (SOFTWARE if message[2] & 0x10 else b""))
        elif kind == ENQUIRY:
            self.link.say(CLASSMARK_CHANGE + CLASSMARK_2)
        elif kind == MOVE:
            self.move(message)
        elif kind == RELEASE:
            self.was_released = True
            self.voice.stop()
            self.link.close()
        else:
            super().take(message)

    def move(self, command):
        """Is sent to another channel."""
        self.moved += 1
        self.command = command
        if self.moving is Moving.VANISHES:
            self.vanish()
        elif self.moving is Moving.COMES_BACK:
            self.come_back()
        elif self.moving is Moving.ARRIVES:
            self.arrive()

    def arrive(self):
        """Goes to the channel to which it was sent last (TS 44.018, 9.1.15): its cell's carrier, the channel and its carrier."""
        self.go((self.command[5] & 3) << 8 | self.command[6], self.command[4:7])
        self.link.open()
        self.link.say(ARRIVED)

    def come_back(self):
        """Didn't find the other channel: its link is begun anew on this one (TS 44.018, 3.4.4.4)."""
        self.short.begin()
        self.link.open()
        self.link.say(CAME_BACK)

    def vanish(self):
        """Hears and says nothing any more."""
        self.voice.stop()
        self.radio.ignore(self)

    def left(self, seconds=15):
        """Has heard CHANNEL RELEASE, and ended its link."""
        if not self.until(lambda: self.was_released, seconds):
            raise Unheard(f"{self}: doesn't hear CHANNEL RELEASE, but {[it.hex() for it in self.came]}")
        self.radio.wait(0.3)
        self.radio.ignore(self)

    # Calls

    def own_identity(self):
        """Its TMSI, or its IMSI where it has none, as an identity behind its length."""
        return b"\x05\xf4" + self.tmsi if self.tmsi else self.identity()

    def control(self, kind, rest=b""):
        """Says a message of call control; of a call that came, the transaction is the other side's."""
        head = 0x83 if self.is_called else 0x03
        self.say(self.numbered(bytes([head, kind]) + rest))

    def hears(self, kind, seconds=15):
        """Waits for a message of call control."""
        return self.expect(bytes([0x03 if self.is_called else 0x83, kind]), seconds)

    def dial(self, number, cause=TO_CALL):
        """Calls a number, up to CALL PROCEEDING."""
        self.is_called = False
        self.seize(cause=cause)
        self.open(self.numbered(SERVICE_REQUEST) + CLASSMARK_2 + self.own_identity())
        self.expect(SERVICE_ACCEPT)
        self.control(SETUP, SPEECH + called_number(number))
        self.hears(PROCEEDING)

    def is_paged(self, seconds=15):
        """Whether it is paged in so many seconds."""
        return self.until(lambda: self.paged, seconds)

    def answer_paging(self, cause=PAGED):
        """Is paged, and answers."""
        if not self.is_paged():
            raise Unheard(f"{self}: isn't paged")
        self.is_called = True
        self.seize(cause=cause)
        self.open(ANSWER + CLASSMARK_2 + self.own_identity())
        self.paged = None

    def ring(self):
        """Takes a call, up to its ringing."""
        self.hears(SETUP)
        self.control(CONFIRMED, SPEECH)
        self.has_speech()
        self.control(ALERTING)

    def has_speech(self, seconds=15):
        """Has its channel for speech."""
        if not self.until(lambda: self.has_mode, seconds):
            raise Unheard(f"{self}: no CHANNEL MODE MODIFY, but {[it.hex() for it in self.came]}")

    def take_call(self):
        """Is picked up."""
        self.control(CONNECT)
        self.hears(CONNECT_ACKNOWLEDGE)

    def is_taken(self):
        """Hears that the other is picked up."""
        self.hears(CONNECT)
        self.control(CONNECT_ACKNOWLEDGE)

    def hang_up(self):
        """Ends its call."""
        self.control(DISCONNECT, NORMAL)
        self.hears(LET_GO)
        self.control(LET_GO_COMPLETE)
        self.left()

    def is_hung_up(self):
        """Hears that the other has ended the call, which ends here too."""
        self.hears(DISCONNECT)
        self.control(LET_GO)
        self.left()

    # Short messages

    def take_short(self, message):
        """Takes a message on the link of short messages, and acknowledges it on both layers."""
        kind, reference = message[1], message[4:5]
        if kind == SHORT_DATA and message[3] == RELAY_DATA:
            self.short_messages.append(message)
            head = message[0] ^ 0x80
            self.short.say(bytes([head, SHORT_ACK]))
            self.short.say(bytes([head, SHORT_DATA, 2, RELAY_ACK]) + reference)

    def gets_short_message(self, seconds=30):
        """Waits for a short message; it."""
        if not self.until(lambda: self.short_messages, seconds):
            raise Unheard(f"{self}: no short message comes")
        return self.short_messages.pop(0)


def called_number(number):
    """A called party BCD number (TS 24.008, 10.5.4.7), of a type that isn't known."""
    digits = number + "f" * (len(number) % 2)
    octets = bytes.fromhex("".join(digits[at + 1] + digits[at] for at in range(0, len(digits), 2)))
    return bytes([0x5E, len(octets) + 1, 0x81]) + octets


def call(caller, called, causes=(TO_CALL, PAGED)):
    """One telephone calls another, which is taken; both speak from then on."""
    caller.dial(called.number, causes[0])
    called.answer_paging(causes[1])
    called.ring()
    caller.has_speech()
    caller.hears(ALERTING)
    called.take_call()
    caller.is_taken()
    for it in (caller, called):
        it.voice.start()


def hang_up(caller, called):
    """One ends the call of both."""
    caller.hang_up()
    called.is_hung_up()
