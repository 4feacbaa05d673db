"""A: the switching centre's side of all calls (TS 48.008, 3.1). A connection is a call; what the controller says of it goes
there, and what comes is given to the controller, but for what is between mobile and centre, which the controller doesn't
read."""
from __future__ import annotations

import typing

import bssmap
from bssmap import Cause, Type
from elements import IMSI, elements_in, imsi_in
from link_layer import LONGEST, MAIN_SAPI, SHORT_SAPI
from outgoing import OutgoingCalls
from page import keeps
from rtp import codec_of
from tell import Level, Since, say

if typing.TYPE_CHECKING:
    from connections import Connections
    from m3ua import M3ua

# After how many connections in a row that aren't answered the centre is taken for gone, and after how many RESET that aren't
# acknowledged it is told why that may be.
MOST_UNANSWERED, MOST_RESETS = 3, 3
WRONG_NAMES = "where the centre runs, centre.own or centre.peer may be wrong, or with IPA centre.name, or a route of osmo-stp"
# Of a DLCI the bits that have the service access point (TS 48.006, 9.3.2).
SAPI = 0x07


@keeps(
    *("is_there", "since", "is_up", "counts", "sign", "unanswered_in_a_row", "resets_in_vain"),
    wired=("relay", "times", "seconds", "connections", "outgoing"),
)
class ASide:
    """The centre, as the bridge knows it. `connections` is the end of SCCP, which tells what comes; `relay` has the
    controller, the calls, and the air."""

    def __init__(self, relay, times, seconds):
        self.relay, self.times, self.seconds = relay, times, seconds
        self.connections: Connections | M3ua
        self.outgoing = OutgoingCalls(relay, times, seconds)
        # whether both sides have begun anew: nothing begins before that; and since when that isn't so
        self.is_there = False
        self.since = Since()
        self.is_up = False
        self.counts = {"connections": 0, "handovers": 0, "resets": 0, "doubts": 0, "cleared": 0}
        # how often something was heard of the centre; how many connections in a row it didn't answer, while nothing was; and how
        # often RESET was said in vain
        self.sign = self.unanswered_in_a_row = self.resets_in_vain = 0

    def resume(self):
        """Goes on with the times that another bridge has set."""
        if self.times.was_set("t4"):
            self.run_t4()
        if self.times.was_set("t13"):
            self.run_t13()
        for call in self.relay.talks.by_number.values():
            if self.times.was_set(("clearing", call.number)):
                self.await_release(call)
        self.outgoing.resume()

    # The link

    def up(self):
        """The link is there: both sides begin anew (3.1.4.1)."""
        say("A: the link is there")
        self.is_up = True
        self.reset()

    def down(self):
        """The link is lost: all calls end."""
        say("A: the link is lost, and all calls end", Level.ERROR)
        self.is_up = False
        self.times.forget("t4")
        self.times.forget("t13")
        self.leave()
        self.connections.lost()

    def heard(self, octets):
        """A message of SCCP came."""
        self.show_sign()
        self.connections.heard(octets)

    def reset(self):
        """Says RESET until it is acknowledged."""
        self.connections.unit_data(bssmap.reset())
        self.run_t4()

    def run_t4(self):
        """The acknowledgement of RESET is waited for."""
        self.times.set("t4", self.seconds["t4"], self.reset_again)

    def reset_again(self):
        """RESET isn't acknowledged."""
        self.resets_in_vain += 1
        if self.resets_in_vain == MOST_RESETS:
            say(f"A: RESET isn't acknowledged, {MOST_RESETS} times: {WRONG_NAMES}", Level.WARNING)
        self.reset()

    # Whether the centre is there

    def leave(self):
        """The centre isn't there any more: all calls end."""
        if self.is_there:
            self.is_there, self.since = False, Since()
        self.end_calls(Cause.EQUIPMENT_FAILURE)

    def show_sign(self):
        """Something was heard of the centre."""
        self.sign += 1
        self.unanswered_in_a_row = 0

    def unanswered(self, connection):
        """The centre didn't answer a connection in time. One that is only slow says something else meanwhile; of one that says
        nothing, several in a row are a sign that it has gone."""
        if connection.sign != self.sign:
            return
        self.unanswered_in_a_row += 1
        if self.unanswered_in_a_row >= MOST_UNANSWERED:
            self.doubt(f"{MOST_UNANSWERED} connections in a row aren't answered, and nothing else is heard of it")

    def doubt(self, why):
        """The centre may have gone, though its link is there: both sides begin anew."""
        if not self.is_there:
            return
        self.counts["doubts"] += 1
        self.counts["cleared"] += (count := len(self.relay.talks.by_number))
        say(f"A: the centre is away: {why}; calls that end: {count}", Level.ERROR)
        self.unanswered_in_a_row = 0
        self.leave()
        self.reset()

    def away(self):
        """The network says that the centre can't be reached (N-PCSTATE, N-STATE: Q.711, 6.3)."""
        self.doubt("the network says that it can't be reached")

    def back(self):
        """The network says that the centre can be reached again."""
        if not self.is_there and self.is_up:
            self.reset()

    def end_calls(self, value):
        """All calls end, those of operators too, and nobody is looked for."""
        self.relay.paging.end_all()
        for call in list(self.relay.talks.by_number.values()):
            if call.connection:
                connection, call.connection = call.connection, None
                self.connections.release(connection)
            self.clear(call, value)

    # Messages without a connection

    def unit_data(self, octets):
        """A message of no connection came."""
        self.show_sign()
        kind = bssmap.kind_of(octets)
        if kind == Type.RESET_ACKNOWLEDGE:
            self.resets_in_vain = 0
            self.times.forget("t4")
            self.look()
        elif kind == Type.RESET:
            say("A: the centre begins anew, and all calls end", Level.WARNING)
            self.counts["resets"] += 1
            self.leave()
            self.run_t13()
        elif kind == Type.PAGING and self.is_there:
            self.relay.paging.asked(octets)
        else:
            self.relay.count(f"of no connection: {octets[:3].hex() or 'empty'}")

    def run_t13(self):
        """The centre's RESET is acknowledged after a while."""
        self.times.set("t13", self.seconds["t13"], self.acknowledge)

    def acknowledge(self):
        """Acknowledges the centre's RESET."""
        self.connections.unit_data(bssmap.message(Type.RESET_ACKNOWLEDGE))
        self.look()

    def look(self):
        """Both sides have begun anew, where neither RESET awaits its acknowledgement."""
        if self.times.is_set("t4") or self.times.is_set("t13"):
            return
        if not self.is_there:
            say("A: the centre is there")
        self.is_there = True

    # Connections

    def begin(self, call, cell, layer_3):
        """A mobile made itself known: the centre is told of it. Whether there is a connection for that."""
        codec = codec_of(self.relay.talks.serving(call).number)
        connection = self.connections.connect(bssmap.complete_layer_3(self.relay.plmn, cell, layer_3, codec))
        if connection is None:
            return False
        self.counts["connections"] += 1
        connection.sign = self.sign
        connection.call, call.connection = call, connection
        return True

    def asked(self, connection, octets):
        """The centre asks for a connection, as for a call that comes from another controller."""
        self.show_sign()
        connection.call = None
        if not self.is_there or octets and bssmap.kind_of(octets) != Type.HANDOVER_REQUEST:
            self.relay.count("a connection that the centre asked for is refused")
            self.connections.refuse(connection)
            return
        self.connections.accept(connection)
        if octets:
            self.come(connection, octets)

    def come(self, connection, octets):
        """A call comes from another controller."""
        if (call := self.relay.talks.begin()) is None:
            self.connections.release(connection)
            return
        self.counts["handovers"] += 1
        connection.call, call.connection = call, connection
        self.relay.arrivals.requested(call, octets)

    def confirmed(self, _connection):
        """The centre took a connection."""
        self.show_sign()

    def data(self, connection, octets):
        """A message on a connection came."""
        self.show_sign()
        call = connection.call
        if found := bssmap.dtap_in(octets):
            self.data_for_mobile(call, *found)
        elif (kind := bssmap.kind_of(octets)) is None:
            self.relay.count(f"no message: {octets[:3].hex() or 'empty'}")
        elif call is None and kind == Type.HANDOVER_REQUEST:
            self.come(connection, octets)
        elif call is None:
            self.relay.count("a message on a connection without a call")
            self.connections.release(connection)
        elif kind == Type.HANDOVER_REQUEST:
            self.relay.count("HANDOVER REQUEST on a connection that has a call")
        elif kind == Type.ASSIGNMENT_REQUEST:
            self.relay.assignments.requested(call, octets)
        elif kind == Type.CIPHER_MODE_COMMAND:
            self.relay.ciphering.commanded(call, octets)
        elif kind == Type.CLASSMARK_REQUEST:
            self.relay.air.tell(call, bssmap.CLASSMARK_ENQUIRY)
        elif call and kind == Type.COMMON_ID:
            self.named(call, octets)
        elif kind not in bssmap.TOLD and (kind not in bssmap.ANSWERS or self.outgoing.takes(call, Type(kind))):
            call.is_clearing = call.is_clearing or kind == Type.CLEAR_COMMAND
            self.give(call, octets)

    def named(self, call, octets):
        """The centre says whose a call is (COMMON ID, TS 48.008, 3.2.1.68)."""
        if imsi := imsi_in((elements_in(octets) or {}).get(IMSI)):
            call.identity = f"IMSI {imsi}"

    def data_for_mobile(self, call, link, layer_3):
        """A message for a mobile came."""
        if call is None:
            self.relay.count("DTAP on a connection without a call")
        elif layer_3[0] & 0x0F == bssmap.RADIO_RESOURCES:
            # these are the controller's: by one a mobile would leave its channel, of which the book wouldn't know
            self.relay.count("DTAP of radio resources")
        elif len(layer_3) > LONGEST:
            self.relay.count("DTAP that is longer than the air carries")
        elif link & SAPI == MAIN_SAPI:
            self.relay.air.tell(call, layer_3)
        elif link & SAPI == SHORT_SAPI:
            self.relay.air.short.tell(call, layer_3)
        else:
            self.send(call, bssmap.sapi_reject(link, Cause.NOT_EQUIPPED))

    def ended(self, connection, why):
        """A connection has ended. The controller is told to clear its call, where that goes on."""
        call = connection.call
        if call is None or call.connection is not connection:
            return
        call.connection = None
        if not call.is_over and not call.is_clearing:
            say(f"A: {call}: its connection {why}", Level.WARNING)
        self.clear(call, Cause.CALL_CONTROL)

    def clear(self, call, value):
        """Has the controller clear a call in the centre's place; one that is over already is forgotten."""
        if call.is_over:
            self.relay.forget(call)
        elif not call.is_cut:
            call.is_cut = call.is_clearing = True
            self.relay.air.settle(call)
            self.give(call, bssmap.clear_command(value))

    # What the controller says

    def give(self, call, octets):
        """Gives the controller a message about a call."""
        self.relay.give(b"a %d %s" % (call.number, octets.hex().encode()), "switching centre")

    def hear(self, number, octets):
        """The controller says something about a call. One without a connection has nobody to say it to: what would clear it
        there clears it here."""
        call, kind = self.relay.talks.by_number.get(number), bssmap.kind_of(octets)
        if call is None:
            return
        if call.connection:
            said = self.relay.arrivals.said(call, octets)
            if said is not None and not self.outgoing.keeps(call, kind, said):
                self.send(call, said)
            self.relay.air.said(call)
        elif kind == Type.CLEAR_REQUEST and call.request:
            self.relay.air.drop(call)
        elif kind == Type.CLEAR_COMPLETE:
            self.relay.forget(call)

    def send(self, call, octets):
        """Says something to the centre about a call."""
        if call.connection:
            self.connections.data(call.connection, octets)

    def ask_to_clear(self, call, value):
        """A call can't go on: the centre is asked to clear it, again where it doesn't (lost.py)."""
        if call.connection and not call.is_over and not call.is_clearing and not call.is_lost:
            call.is_lost = True
            request = bssmap.clear_request(value)
            self.send(call, request)
            if self.relay.talks.serving(call):
                self.relay.lost.request(str(call.number), request)

    def over(self, call, is_told):
        """The book has ended a call. Where that wasn't the centre's wish, and the controller doesn't tell it, it is asked
        to clear the call; where it doesn't release the connection in time, that is done here."""
        if call.connection:
            if not call.is_clearing and not is_told:
                self.send(call, bssmap.clear_request(Cause.OPERATOR))
            self.await_release(call)
        elif not call.is_cut:
            self.relay.forget(call)

    def await_release(self, call):
        """The centre has to release the connection of a call in time."""
        self.times.set(("clearing", call.number), self.seconds["clearing"], lambda: self.finish(call))

    def finish(self, call):
        """The centre doesn't release a connection whose call is over."""
        connection, call.connection = call.connection, None
        if connection:
            self.connections.release(connection)
        self.relay.forget(call)
