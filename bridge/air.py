"""Calls that begin on the air (TS 44.018, 3.3.1): a mobile asks for a channel, gets one for signalling and speech at once
(very early assignment), and makes itself known; then its messages go to the centre, and the centre's to it."""
import access
import bssmap
import link_layer
import rsl
from admission import HALF, Admission, Rejected, Rejections
from assignment import MODE_MODIFY_ACKNOWLEDGE, Mode
from ciphering import COMPLETE
from operators import Operator
from page import keeps
from short_messages import ShortLinks

# For how many seconds a request is known again: that of the same mobile comes with the next bursts.
KNOWN_AGAIN = 5.0
# How many requests are known at once.
MOST_KNOWN = 10_000
# How many messages of either side may wait for a mobile that moves; more are left out.
MOST_WAITING = 64
# A station's message that a mobile's radio link failed.
LINK_FAILURE = b"\x1a\x01\x01"


@keeps("air", "call", "may_be_half")
class Seizing(Operator):
    """Who asks the controller for some channel of a cell, as operators ask it: hears what it answers, line by line."""

    is_served = False

    def __init__(self, air, call, may_be_half):
        super().__init__(air.relay, "bridge, for a mobile")
        self.air, self.call, self.may_be_half = air, call, may_be_half

    def hear(self, line):
        """A line of the answer. Where nothing is free, half a channel is asked for, if that will do. A controller that
        can't read the question refuses it."""
        if line.startswith(b"none free ") and self.may_be_half and not self.call.is_clearing:
            self.air.seize(self.call, HALF, False)
        elif line.startswith((b"none free ", b"refused: ")) or line.startswith(b"event open ") and b" -> refused" in line:
            self.air.reject(self.call)
        elif line.startswith(b"event open "):
            self.air.given(self.call)


@keeps("requests", wired=("relay", "times", "seconds", "cells", "short", "admission", "rejections"))
class Air:
    """What goes between mobiles and the centre. `relay` has stations, calls and the centre."""

    def __init__(self, relay, times, seconds, config):
        self.relay, self.times, self.seconds = relay, times, seconds
        self.cells = config.cells
        self.short = ShortLinks(relay, times, seconds)
        self.admission = Admission(self, times, config)
        self.rejections = Rejections(times, self.send_common, seconds)
        self.requests = set()

    def resume(self):
        """Goes on with the times that another bridge has set."""
        for cell, reference in self.requests:
            if self.times.was_set(("request", cell, reference)):
                self.forget_later(cell, reference)
        for call in self.relay.talks.by_number.values():
            if self.times.was_set(("t3101", call.number)):
                self.run_t3101(call)
        for it in (self.short, self.admission, self.rejections):
            it.resume()

    def renumber(self, numbers):
        """Cells are about to have other numbers, or go."""
        self.rejections.tell_all()
        self.admission.renumber(numbers)
        self.requests = {(cell, it) for cell, it in self.requests if numbers.get(cell, cell) == cell}

    # A mobile asks for a channel

    def required(self, station, message):
        """CHANNEL REQUIRED came."""
        request = access.request_in(message)
        if request is None:
            station.pass_over("CHANNEL REQUIRED that is cut")
        elif not request.cause.is_answered:
            station.pass_over(f"CHANNEL REQUIRED for {request.cause}")
        elif request.delay > access.FARTHEST:
            station.pass_over("CHANNEL REQUIRED from too far away")
        elif (station.cell, request.reference) in self.requests:
            station.pass_over("CHANNEL REQUIRED again")
        else:
            self.remember(station.cell, request.reference)
            self.relay.tallies.requested(station.cell, request.cause)
            self.admission.add(station, request)

    def remember(self, cell, reference):
        """A request that comes again is the same, for a while."""
        if len(self.requests) >= MOST_KNOWN:
            return
        self.requests.add((cell, reference))
        self.forget_later(cell, reference)

    def forget_later(self, cell, reference):
        """Behind a while it is another one."""
        self.times.set(("request", cell, reference), KNOWN_AGAIN, lambda: self.requests.discard((cell, reference)))

    def begin(self, station, request):
        """A call begins, whose mobile may be served."""
        if (call := self.relay.talks.begin()) is None:
            self.refuse(station, request, Rejected.NO_NUMBER)
            return
        call.station, call.request, call.is_awaited = station, request, True
        first, *others = self.admission.rates(station.cell, request.cause)
        self.seize(call, first, HALF in others)

    def seize(self, call, rate, may_be_half):
        """Asks the controller for some channel."""
        self.admission.asked(call.station.cell)
        line = b"seize %d %d %s" % (call.number, call.station.cell, rate)
        self.relay.give(line, Seizing(self, call, may_be_half))

    def given(self, call):
        """A call gets a channel."""
        self.admission.answered(call.station.cell)

    def reject(self, call):
        """A call gets no channel."""
        self.admission.answered(call.station.cell)
        self.refuse(call.station, call.request, Rejected.NONE_FREE)
        self.relay.forget(call)

    def refuse(self, station, request, reason):
        """Tells a mobile that it gets no channel, and for how long it is not to ask again."""
        station.pass_over("CHANNEL REQUIRED that was rejected")
        self.relay.tallies.reject(station.cell, reason.value)
        self.rejections.add(station, request)

    def activated(self, call):
        """The channel of a call is on: where a mobile asked for it, that is told, and awaited (T3101)."""
        if not call.is_awaited or self.times.is_set(("t3101", call.number)):
            return
        channel = self.relay.talks.serving(call)
        cell = self.cells[channel.cell]
        description = access.described(channel, cell.carriers[channel.trx], cell.colours & 7)
        self.send_common(call.station, access.assignment(call.request, description))
        self.run_t3101(call)

    def run_t3101(self, call):
        """The mobile is awaited."""
        self.times.set(("t3101", call.number), self.seconds["t3101"], lambda: self.missed(call), self.relay.once_read)

    def missed(self, call):
        """The mobile that asked didn't make itself known in time."""
        self.relay.tallies.expired(call.station.cell, "T3101")
        if (channel := self.relay.talks.serving(call)) and (station := self.relay.places.get(channel[:2])):
            self.relay.notices.missed(station, self.cells[station.cell].carriers[station.trx])
        self.drop(call)

    def drop(self, call):
        """A call of which the centre knows nothing ends."""
        self.settle(call)
        if not call.is_clearing:
            call.is_clearing = True
            self.relay.give(b"clear %d" % call.number)

    def refused(self, call):
        """The station refused the channel of a call: the mobile is told."""
        if call.is_awaited:
            self.refuse(call.station, call.request, Rejected.STATION)
            self.drop(call)

    def settle(self, call):
        """A mobile isn't awaited any more."""
        call.is_awaited = False
        self.times.forget(("t3101", call.number))

    def send_common(self, station, message):
        """Sends a message for the channels that all mobiles of a cell hear, which are the first TRX's."""
        first = self.relay.places.get((station.cell, 0), station)
        self.relay.pass_on(first, message)

    # A mobile makes itself known, and speaks

    def established(self, station, said):
        """ESTABLISH INDICATION came: on a target it shows that the mobile is there, on a new call's channel it begins the
        call."""
        channel = station.channel(said.channel)
        call = self.relay.talks.on(channel)
        if call is None or said.link != rsl.MAIN_LINK:
            station.pass_over("ESTABLISH INDICATION of no call")
        elif channel != self.relay.talks.serving(call):
            self.detect(station, call, said.channel)
        elif not call.is_awaited or not 0 < len(said.layer_3) <= link_layer.LONGEST_FIRST:
            station.pass_over("ESTABLISH INDICATION that begins no call")
        else:
            self.relay.notices.arrived(station)
            self.settle(call)
            call.identity = self.relay.paging.hear(said.layer_3)
            if not self.relay.a_side.begin(call, self.cells[station.cell], said.layer_3):
                self.drop(call)

    def detect(self, station, call, number):
        """A mobile is on its target: not all stations say so themselves (HANDOVER DETECTION)."""
        stage = self.relay.talks.place(call).stage
        if stage == "commanded":
            self.relay.say_for(station, rsl.HANDOVER_DETECTION, number)
        elif stage != "detected":
            station.pass_over("ESTABLISH INDICATION where nobody was sent")

    def heard(self, station, said, message):
        """DATA INDICATION came: radio resources are the controller's, all else is the centre's."""
        channel = station.channel(said.channel)
        call, sapi = self.relay.talks.on(channel), link_layer.SAPIS.get(said.link)
        kind = said.layer_3[0] & 0x0F if said.layer_3 else None
        if sapi is None or kind is None or len(said.layer_3) > link_layer.LONGEST:
            station.pass_over("DATA INDICATION of another link, empty or too long")
        elif kind == bssmap.RADIO_RESOURCES and sapi == link_layer.MAIN_SAPI:
            self.heard_radio(station, call, said, message)
        elif call is None or call.connection is None:
            station.pass_over("DATA INDICATION of no call")
        elif channel != self.relay.talks.serving(call) and not self.relay.talks.is_moving(call):
            station.pass_over("DATA INDICATION where nobody was sent")
        elif channel != self.relay.talks.serving(call) or call.up:
            # it goes behind HANDOVER COMPLETE, which the controller has first
            wait(call.up, (said.layer_3, sapi))
        else:
            self.relay.a_side.send(call, bssmap.dtap(said.layer_3, sapi))

    def heard_radio(self, station, call, said, message):
        """A mobile's message about radio resources: what it is able to do is the centre's business, its channel's mode and
        ciphering are the bridge's, all else is the controller's."""
        layer_3 = said.layer_3
        kind = layer_3[1] if len(layer_3) > 1 else None
        if kind == MODE_MODIFY_ACKNOWLEDGE:
            self.relay.assignments.acknowledged(station, call, said)
        elif kind == COMPLETE:
            self.relay.ciphering.completed(station, call, layer_3)
        elif kind != bssmap.CLASSMARK_CHANGE:
            self.relay.hand_on(station, message)
        elif call and call.connection and (update := bssmap.classmark_update(layer_3)):
            self.relay.a_side.send(call, update)
        else:
            station.pass_over("CLASSMARK CHANGE that is cut or of no call")

    def left(self, station, said):
        """RELEASE INDICATION came: where the mobile wasn't told to leave, its link has failed."""
        channel = station.channel(said.channel)
        call = self.relay.talks.on(channel)
        if call is None or said.link != rsl.MAIN_LINK or call.is_clearing or channel != self.relay.talks.serving(call):
            return
        if not (call.request or call.connection) or self.relay.talks.is_moving(call):
            return
        if call.connection:
            self.relay.hand_on(station, rsl.channel_message(rsl.CONNECTION_FAILURE, said.channel, LINK_FAILURE))
        else:
            self.drop(call)

    def takes_report(self, station, number):
        """Whether a report on a channel is the controller's: not before the call has its channel for speech, or it would be
        handed over while it registers."""
        call = self.relay.talks.on(station.channel(number))
        return call is None or call.request is None or call.mode == Mode.SPEECH

    # The centre speaks to a mobile

    def tell(self, call, layer_3):
        """Sends a mobile a message of the centre; it waits while it isn't known where the mobile is."""
        if call.is_over:
            self.relay.count("DTAP for a call that is over")
        elif self.relay.talks.is_moving(call) or self.relay.talks.serving(call) is None:
            wait(call.down, layer_3)
        else:
            self.send(call, layer_3)

    def send(self, call, layer_3):
        """Sends a mobile a message on the channel that it has."""
        channel = self.relay.talks.serving(call)
        self.relay.send(channel.cell, channel.trx, link_layer.data_request(channel.number, layer_3))

    def settled(self, call):
        """It is known where the mobile is: what waited goes there. Where the call is over, it is left out."""
        down, call.down = call.down, []
        for layer_3 in () if call.is_over else down:
            self.send(call, layer_3)

    def undone(self, call):
        """An attempt is undone: what came from its target is left out."""
        call.up = []
        self.settled(call)
        self.short.came_back(call)

    def said(self, call):
        """The controller has told the centre that the mobile is there: what came from it goes behind that."""
        if call.up and not self.relay.talks.is_moving(call):
            up, call.up = call.up, []
            for layer_3, sapi in up:
                self.relay.a_side.send(call, bssmap.dtap(layer_3, sapi))


def wait(messages, it):
    """A message waits."""
    if len(messages) < MOST_WAITING:
        messages.append(it)
