"""Short messages (TS 24.011) go on a link of their own, that of SAPI 3, beside speech on the slow channel (TS 44.006, 2.3).
Either side establishes it; a handover ends it, and it is established anew on the channel that the mobile has then."""
import bssmap
import link_layer
import rsl
from bssmap import Cause
from page import keeps

# How many messages of a call may wait for the link; more are rejected.
MOST_WAITING = 16


@keeps("is_open", "is_asked", "is_left", "waiting")
class ShortLink:
    """The link of a call: whether it is there, whether the station was asked for it, whether the mobile left it behind
    there, and what waits for it."""

    def __init__(self):
        self.is_open = self.is_asked = self.is_left = False
        self.waiting = []


class ShortLinks:
    """The links of all calls, each under `short` of its call. `relay` has stations, calls and the centre."""

    def __init__(self, relay, times, seconds):
        self.relay, self.times, self.seconds = relay, times, seconds

    def resume(self):
        """Goes on with the times that another bridge has set."""
        for call in self.relay.talks.by_number.values():
            if self.times.was_set(("short", call.number)):
                self.await_link(call)

    def tell(self, call, layer_3):
        """The centre says something to a mobile on this link."""
        if call.is_over:
            self.relay.count("DTAP for a call that is over")
        elif len(call.short.waiting) >= MOST_WAITING:
            self.reject(call, Cause.PROCESSOR_OVERLOAD)
        else:
            call.short.waiting.append(layer_3)
            self.go_on(call)

    def go_on(self, call):
        """Does what can be done about what waits: it isn't sent while it isn't known where the mobile is."""
        link, channel = call.short, self.relay.talks.serving(call)
        if not link.waiting or call.is_over or channel is None or self.relay.talks.is_moving(call):
            return
        if link.is_open:
            waiting, link.waiting = link.waiting, []
            for layer_3 in waiting:
                self.send(channel, link_layer.data_request(channel.number, layer_3, link_layer.SHORT_LINK))
        elif not link.is_asked:
            link.is_asked = True
            self.send(channel, link_layer.establish_request(channel.number, link_layer.SHORT_LINK))
            self.await_link(call)

    def await_link(self, call):
        """The link has to come in time."""
        seconds = self.seconds["establish"]
        self.times.set(("short", call.number), seconds, lambda: self.fail(call, Cause.NOT_EQUIPPED), self.relay.once_read)

    def send(self, channel, message):
        """Sends the station of a channel a message."""
        self.relay.send(channel.cell, channel.trx, message)

    def hear(self, station, call, said):
        """A message about the link came from the station, which isn't DATA INDICATION."""
        if call is None or station.channel(said.channel) != self.relay.talks.serving(call) or self.relay.talks.is_moving(call):
            station.pass_over(f"{rsl.NAMES[rsl.RADIO_LINK, said.type]} of SAPI 3 on no call's channel")
        elif said.type in (rsl.ESTABLISH_INDICATION, rsl.ESTABLISH_CONFIRM):
            self.opened(call)
        elif said.type == rsl.RELEASE_CONFIRM:
            # the station let go of what the mobile left behind
            pass
        elif said.type == rsl.ERROR_INDICATION and said.cause in link_layer.GOES_ON:
            station.pass_over("ERROR INDICATION of SAPI 3 by which the link goes on")
        elif call.short.is_asked:
            # a mobile that refuses the link lets go of it; all else is the station's fault
            is_refused = said.type == rsl.RELEASE_INDICATION
            self.fail(call, Cause.MOBILE_NOT_EQUIPPED if is_refused else Cause.NOT_EQUIPPED)
        elif call.short.is_open:
            # where the mobile hasn't let go of it, the station has it yet
            call.short.is_left = said.type == rsl.ERROR_INDICATION
            self.end(call)
            self.let_go(call)
        else:
            station.pass_over(f"{rsl.NAMES[rsl.RADIO_LINK, said.type]} of SAPI 3 where there is no link")

    def opened(self, call):
        """The link is there."""
        self.end(call)
        call.short.is_open = True
        self.go_on(call)

    def fail(self, call, cause):
        """The link can't be established: the centre is told of what waited for it."""
        self.end(call)
        call.short.waiting = []
        self.reject(call, cause)

    def reject(self, call, cause):
        """Tells the centre that a message didn't go."""
        self.relay.a_side.send(call, bssmap.sapi_reject(link_layer.SHORT_SAPI, cause))

    def end(self, call):
        """The link isn't there any more. What waits for it waits on."""
        call.short.is_open = call.short.is_asked = False
        self.times.forget(("short", call.number))

    def sent_away(self, call):
        """The mobile was sent to another channel, which ends the link at its end alone."""
        call.short.is_left = call.short.is_left or call.short.is_open or call.short.is_asked
        self.end(call)

    def arrived(self, call):
        """The mobile has another channel, whose station knows of no link yet."""
        call.short.is_left = False
        self.go_on(call)

    def came_back(self, call):
        """The mobile is where it was."""
        self.let_go(call)
        self.arrived(call)

    def let_go(self, call):
        """A station that has a link yet which was left behind wouldn't establish it anew: it lets go of it."""
        channel = self.relay.talks.serving(call)
        if call.short.is_left and channel:
            self.send(channel, link_layer.local_release(channel.number, link_layer.SHORT_LINK))
        call.short.is_left = False

    def forget(self, call):
        """The call is over."""
        self.end(call)
        call.short.is_left, call.short.waiting = False, []
