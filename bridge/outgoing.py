"""Calls that are to go to another controller (TS 48.008, 3.1.5): the centre's answer to a HANDOVER REQUIRED may come when the
attempt that asked for it is over, and the next one has begun. The controller takes an answer for that of the attempt which is
open; so the next HANDOVER REQUIRED waits here until that of the last is answered, or isn't to be expected any more."""
import enum

import bssmap
from bssmap import Cause, Type
from page import keeps


@keeps()
class State(enum.Enum):
    """How a call's last HANDOVER REQUIRED is."""

    # nothing is awaited
    NONE = enum.auto()
    # it awaits its answer
    ASKED = enum.auto()
    # its attempt is over, and it isn't answered
    STALE = enum.auto()
    # it was answered, and the centre was told HANDOVER FAILURE: osmo-msc answers that by another REJECT
    FAILED = enum.auto()


@keeps("state", "waiting")
class Outgoing:
    """What a call awaits of the centre, and the HANDOVER REQUIRED that waits for that."""

    def __init__(self):
        self.state = State.NONE
        self.waiting = None


class OutgoingCalls:
    """All calls, each with an Outgoing under `outgoing`. `relay` has the calls and the centre."""

    def __init__(self, relay, times, seconds):
        self.relay, self.times, self.seconds = relay, times, seconds

    def resume(self):
        """Goes on with the times that another bridge has set."""
        for call in self.relay.talks.by_number.values():
            if self.times.was_set(("outgoing", call.number)):
                self.run_late(call, 0)

    def keeps(self, call, kind, octets):
        """Whether a message that the controller says is kept back; what it says of handovers is followed."""
        outgoing = call.outgoing
        if kind == Type.HANDOVER_REQUIRED:
            if outgoing.state is not State.NONE:
                outgoing.waiting = octets
                return True
            self.asked(call)
        elif kind == Type.HANDOVER_FAILURE and self.relay.talks.serving(call):
            self.failed(call)
        return False

    def takes(self, call, kind):
        """Whether the controller is given an answer of the centre: not where its attempt is over."""
        state = call.outgoing.state
        if state is State.ASKED:
            self.be_free(call)
            return True
        if kind == Type.HANDOVER_COMMAND and state is State.STALE:
            # the new controller awaits a mobile that isn't sent any more
            self.relay.a_side.send(call, bssmap.handover_failure(Cause.OPERATOR))
            self.failed(call)
        elif kind == Type.HANDOVER_REQUIRED_REJECT:
            self.be_free(call)
        self.relay.count(f"{kind.name.replace('_', ' ')} for an attempt that is over")
        return False

    def over(self, call):
        """An attempt of a call has come to its end: where its question waits yet, it isn't asked any more."""
        if call.outgoing.waiting:
            call.outgoing.waiting = None
        elif call.outgoing.state is State.ASKED:
            call.outgoing.state = State.STALE

    def taken_back(self, call):
        """An operator has taken back an attempt whose mobile was sent away already: the other controller needn't await it."""
        if call.connection and not call.is_clearing:
            self.relay.a_side.send(call, bssmap.handover_failure(Cause.OPERATOR))
            self.failed(call)

    def asked(self, call):
        """The centre is asked: its answer may come up to T7, and a little later."""
        self.await_answer(call, State.ASKED, self.seconds["t7"] + self.seconds["settle"])

    def failed(self, call):
        """The centre was told HANDOVER FAILURE."""
        self.await_answer(call, State.FAILED, self.seconds["settle"])

    def await_answer(self, call, state, seconds):
        """An answer may come for so long."""
        call.outgoing.state = state
        self.run_late(call, seconds)

    def run_late(self, call, seconds):
        """Behind that time no answer is awaited."""
        self.times.set(("outgoing", call.number), seconds, lambda: self.be_free(call), self.relay.once_read)

    def be_free(self, call):
        """No answer is awaited any more: what waits for that is asked."""
        self.times.forget(("outgoing", call.number))
        call.outgoing.state = State.NONE
        waiting, call.outgoing.waiting = call.outgoing.waiting, None
        if waiting:
            self.asked(call)
            self.relay.a_side.send(call, waiting)

    def forget(self, call):
        """The call is over."""
        self.times.forget(("outgoing", call.number))
        call.outgoing.state, call.outgoing.waiting = State.NONE, None
