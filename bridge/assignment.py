"""Assignment (TS 48.008, 3.1.1): the centre asks for speech, or for signalling, on a call. The mobile keeps the channel that
it has, which was activated for speech: it is told the new mode there (CHANNEL MODE MODIFY, TS 44.018, 3.4.6), once the
station and the media gateway have the call's speech. Until the mobile has taken the mode all goes on as it was."""
import enum

import access
import bssmap
from bssmap import Cause, Type
from page import keeps
from rtp import codec_of
from speech_request import Kind, Unserved, codec_on, wanted_by

# Of the radio path (TS 44.018, 9.1.5 and 9.1.6) CHANNEL MODE MODIFY, and the type of its acknowledgement, which has the
# channel's description (three octets) and the mode.
MODE_MODIFY, MODE_MODIFY_ACKNOWLEDGE = b"\x06\x10", 0x17
DESCRIPTION = 3
# What is counted of an assignment: what became of it, and its kind where that wasn't read.
COMPLETE, FAILURE, GIVEN_UP, UNREAD = "complete", "failure", "given up", "unread"


@keeps()
class Mode(enum.IntEnum):
    """The modes of a channel (TS 44.018, 10.5.2.6): signalling alone, and speech of version 1 at the channel's rate."""

    SIGNALLING = 0x00
    SPEECH = 0x01


@keeps("wanted", "channel", "is_joining", "told")
class Assignment:
    """What the centre asked for, on which channel the call was then, and the mode that the mobile was told, if it was."""

    def __init__(self, wanted, channel):
        self.wanted, self.channel = wanted, channel
        self.is_joining = False
        self.told = None


class Assignments:
    """The assignments of all calls. `relay` has the centre, the air, and the calls' speech."""

    def __init__(self, relay, times, seconds):
        self.relay, self.times, self.seconds = relay, times, seconds

    def resume(self):
        """Goes on with the times that another bridge has set."""
        for call in self.relay.talks.by_number.values():
            if self.times.was_set(("t10", call.number)):
                self.run_t10(call)

    def requested(self, call, message):
        """ASSIGNMENT REQUEST came."""
        if call.is_over or call.is_clearing:
            self.relay.count("ASSIGNMENT REQUEST for a call that is over")
        elif call.assignment:
            self.refuse(call, Cause.PROTOCOL_ERROR)
        else:
            try:
                call.assignment = Assignment(wanted_by(message), self.relay.talks.serving(call))
            except Unserved as unserved:
                self.refuse(call, unserved.cause)
                return
            self.go_on(call)

    def refuse(self, call, cause):
        """What was asked for isn't begun."""
        self.relay.tallies.assigned(self.relay.talks.serving(call), UNREAD, FAILURE, cause)
        self.relay.a_side.send(call, failure(cause))

    def go_on(self, call):
        """Begins what was asked for, or tells the mobile on the channel that it has now. While the call moves it waits."""
        place = self.relay.talks.place(call)
        if place is None or place.stage or place.serving is None:
            return
        assignment = call.assignment
        if assignment.is_joining:
            return
        if assignment.wanted.kind is Kind.SIGNALLING:
            self.tell(call, Mode.SIGNALLING)
        elif assignment.told is not None:
            self.tell(call, Mode.SPEECH)
        else:
            self.join(call, place.serving)

    def join(self, call, channel):
        """Has the gateway and the station have the call's speech."""
        wanted = call.assignment.wanted
        try:
            codec_on(wanted, channel.number)
        except Unserved as unserved:
            self.fail(call, unserved.cause)
            return
        call.assignment.is_joining = True
        self.relay.media.begin(call, wanted.address, self)

    def joined(self, call):
        """They have it. Where the call moves meanwhile, the mobile is told where it is then."""
        call.assignment.is_joining = False
        call.assignment.told = Mode.SPEECH
        self.go_on(call)

    def tell(self, call, mode):
        """Tells the mobile the mode of the channel that it has, and waits for its acknowledgement; where it has that mode
        already, nothing is to be told."""
        call.assignment.told = mode
        if call.mode == mode:
            self.complete(call)
            return
        channel = self.relay.talks.serving(call)
        cell = self.relay.config.cells[channel.cell]
        description = access.described(channel, cell.carriers[channel.trx], cell.colours & 7)
        self.relay.air.send(call, MODE_MODIFY + description + bytes([mode]))
        self.run_t10(call)

    def run_t10(self, call):
        """The acknowledgement is waited for."""
        self.times.set(("t10", call.number), self.seconds["t10"], lambda: self.expired(call), self.relay.once_read)

    def expired(self, call):
        """The mobile doesn't acknowledge. One that was sent away is told again where it comes to."""
        place = self.relay.talks.place(call)
        if place and not place.stage:
            self.relay.tallies.expired(place.serving.cell, "T10")
            self.fail(call, Cause.RADIO_MESSAGE_FAILURE)

    def acknowledged(self, station, call, said):
        """CHANNEL MODE MODIFY ACKNOWLEDGE came: it has the mode that the mobile is in now."""
        layer_3 = said.layer_3
        if call is None or call.assignment is None or call.assignment.told is None or len(layer_3) < 3 + DESCRIPTION:
            station.pass_over("CHANNEL MODE MODIFY ACKNOWLEDGE that isn't awaited, or cut")
        elif station.channel(said.channel) != self.relay.talks.serving(call):
            station.pass_over("CHANNEL MODE MODIFY ACKNOWLEDGE on another channel")
        elif layer_3[2 + DESCRIPTION] != call.assignment.told:
            self.fail(call, Cause.MOBILE_NOT_EQUIPPED)
        else:
            self.complete(call)

    def complete(self, call):
        """The mobile has the mode: the centre is told."""
        assignment = call.assignment
        self.end(call, COMPLETE)
        call.mode = assignment.told
        if call.mode == Mode.SPEECH:
            self.relay.a_side.send(call, bssmap.message(Type.ASSIGNMENT_COMPLETE, *speech_elements(self.relay, call)))
        else:
            if call.speech:
                self.relay.media.drop(call)
            codec = codec_of(self.relay.talks.serving(call).number)
            elements = bssmap.chosen_channel(bssmap.FOR_SIGNALLING, codec.channel), bssmap.NOT_CIPHERED
            self.relay.a_side.send(call, bssmap.message(Type.ASSIGNMENT_COMPLETE, *elements))

    def fail(self, call, cause):
        """What was asked for isn't to be had: the call goes on as it was."""
        self.end(call, FAILURE, cause)
        if call.speech and call.mode != Mode.SPEECH:
            self.relay.media.drop(call)
        self.relay.a_side.send(call, failure(cause))

    def settled(self, call):
        """It is known where the mobile is: what waited for that goes on."""
        if call.assignment and not call.is_over:
            self.go_on(call)

    def forget(self, call):
        """A call is over, or its mobile is elsewhere, and an assignment that it has, too."""
        if call.assignment:
            self.end(call, GIVEN_UP)

    def end(self, call, outcome, cause=None):
        """An assignment is over. It is counted where it was asked for."""
        if it := call.assignment:
            self.relay.tallies.assigned(it.channel, it.wanted.kind.name.lower(), outcome, cause)
        call.assignment = None
        self.times.forget(("t10", call.number))


def failure(cause):
    """ASSIGNMENT FAILURE (3.2.1.3)."""
    return bssmap.message(Type.ASSIGNMENT_FAILURE, bssmap.cause(cause))


def speech_elements(relay, call):
    """What the centre has to know of a call's speech: the chosen channel, that it isn't ciphered, the speech version; where the
    gateway has it for the centre, and the codec."""
    speech = call.speech
    codec = codec_of(speech.at.number)
    return (
        bssmap.chosen_channel(bssmap.FOR_SPEECH, codec.channel),
        bssmap.NOT_CIPHERED,
        bytes([bssmap.SPEECH_VERSION, codec.version]),
        bssmap.element(bssmap.ADDRESS, speech.centre.local.octets()),
        bssmap.element(bssmap.CODEC, bytes([codec.element])),
    )
