"""Calls that come from another controller (TS 48.008, 3.1.5.2), as far as they concern speech and ciphering: HANDOVER REQUEST
is looked at before the controller has it, and its acknowledgement waits until the call has speech here."""
import bssmap
from assignment import Mode, speech_elements
from bssmap import Cause, Type
from ciphering import was_in_clear
from elements import elements_in
from page import keeps
from speech_request import CHANNEL_TYPE, Unserved, codec_on, is_for_speech, wanted_by


@keeps("wanted", "held", "cause")
class Arrival:
    """A call that comes: what was asked for, the acknowledgement that waits, and why there is none, once that is known."""

    def __init__(self, wanted):
        self.wanted = wanted
        self.held = self.cause = None


class Arrivals:
    """All calls that come. `relay` has the centre, the controller, and the calls' speech."""

    def __init__(self, relay):
        self.relay = relay

    def requested(self, call, message):
        """HANDOVER REQUEST came. What can't be read, or isn't for speech, the controller answers."""
        elements = elements_in(message)
        if elements is not None and not was_in_clear(elements):
            self.refuse(call, Cause.NO_SUCH_CIPHER)
            return
        if elements is not None and is_for_speech(elements.get(CHANNEL_TYPE)):
            try:
                call.arrival = Arrival(wanted_by(message))
            except Unserved as unserved:
                self.refuse(call, unserved.cause)
                return
        self.relay.a_side.give(call, message)

    def refuse(self, call, cause):
        """Refuses a call of which the controller knows nothing."""
        self.relay.a_side.send(call, bssmap.handover_failure(cause))
        call.is_over = True
        self.relay.a_side.over(call, True)

    def said(self, call, message):
        """What the controller says of a call that comes, as the centre is to hear it; None where that waits."""
        arrival, kind = call.arrival, bssmap.kind_of(message)
        if arrival is None:
            return message
        if kind == Type.HANDOVER_REQUEST_ACKNOWLEDGE and not arrival.held:
            self.hold(call, message)
            return None
        if arrival.held and kind in (Type.HANDOVER_FAILURE, Type.CLEAR_REQUEST):
            # the centre has heard nothing of it yet
            call.arrival = None
            return bssmap.handover_failure(arrival.cause or Cause.EQUIPMENT_FAILURE)
        return message

    def hold(self, call, message):
        """The acknowledgement waits until the call has speech."""
        call.arrival.held = message
        target = self.relay.talks.place(call).target
        try:
            codec_on(call.arrival.wanted, target.number)
        except Unserved as unserved:
            self.fail(call, unserved.cause)
            return
        address = call.arrival.wanted.address
        self.relay.media.begin(call, address, self)

    def joined(self, call):
        """The call has speech: its acknowledgement goes, with what the centre has to know of it."""
        if call.arrival is None:
            return
        held, call.arrival, call.mode = call.arrival.held, None, Mode.SPEECH
        kind, *rest = held[2:]
        elements = speech_elements(self.relay, call)
        self.relay.a_side.send(call, bssmap.message(kind, bytes(rest), *elements))

    def fail(self, call, cause):
        """It can't have speech: its attempt is undone, of which the controller tells. Where the centre has heard already that the
        call doesn't come, nothing is to be done."""
        if call.arrival is None:
            return
        call.arrival.cause = cause
        self.relay.give(b"undo %d" % call.number)
