"""What operators are shown of channels: how the controller's book has each, and how its station does."""
from calls import HELD, OFF, ON, PENDING
from stations import ACTIVATING, CLOSING, LEAVING, RELEASING
from stations import ON as STATION_ON

# How a station has a channel, for each state that the book has it in; None where the channel is at rest. In a station's place the
# controller is answered, which the book may not have yet: then the channel is closing.
AGREEING = {
    HELD: (None, CLOSING),
    PENDING: (ACTIVATING, CLOSING),
    ON: (STATION_ON,),
    OFF: (LEAVING, RELEASING, CLOSING),
    None: (None, CLOSING),
}


class Views:
    """What is shown."""

    def __init__(self, relay):
        self.relay = relay

    def channels(self):
        """A line for each channel that the book or its station has in use, and one for each call whose channel is lost."""
        calls, stations = self.relay.calls, self.relay.places
        known = set(calls.channels)
        for station in stations.values():
            known |= {station.channel(number) for number in station.channels}
        lines = [*(self.channel(channel) for channel in sorted(known)), *self.relay.lost.known()]
        return [*self.relay.again.away(), *(lines or ["no channel is in use"])]

    def channel(self, channel):
        """What is known of a channel, in one line."""
        used, station = self.relay.calls.channels.get(channel), self.relay.places.get(channel[:2])
        here = f"{used.state}{self.of_call(used.call)} since {used.since}" if used else "free"
        use = station and station.channels.get(channel.number)
        if station is None or station.link is None:
            there = station.there() if station else "no unit is named"
        else:
            there = f"{use.state} since {use.since}" if use else "at rest"
        agrees = (use and use.state) in AGREEING[used and used.state]
        report = f"; {use.report}" if use and use.report else ""
        frames = f"; {it}" if (it := self.relay.of_speech(channel)) else ""
        return f"channel {channel}: {here}; station: {there}{'' if agrees else '; THEY DIFFER'}{report}{frames}"

    def of_call(self, number):
        """A channel's call in words, with its attempt at handover."""
        call = self.relay.calls.calls.get(number)
        if call is None:
            return ""
        to = f" to {call.target}" if call.target else ""
        attempt = f" ({call.kind} {call.stage}{to})" if call.kind else ""
        return f" for call {number}{self.relay.of_mobile(int(number))}{attempt}"
