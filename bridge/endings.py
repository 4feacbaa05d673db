"""The end of a call at its station (TS 44.018 clause 3.4.13.1).

The controller sends CHANNEL RELEASE to the mobile, and at once RF CHANNEL RELEASE to the station, which would switch the
channel off before the mobile has heard the first. So the latter is kept back: behind CHANNEL RELEASE goes DEACTIVATE SACCH
(TS 48.058 clause 8.4.5), and T3109 runs. The mobile ends its main signalling link: RELEASE INDICATION (TS 48.058 clause 8.3.9)
ends T3109, and starts T3111, behind which RF CHANNEL RELEASE goes. Where T3109 runs out it goes at once. The book has the
channel `off` meanwhile. Every other release goes at once.
"""
import rsl
from page import keeps


@keeps("kept", "left", wired=("times", "seconds", "release", "gate", "expired"))
class Endings:
    """The channels whose mobiles are sent away."""

    def __init__(self, times, seconds, release, gate, expired):
        """`seconds` has how long T3109 and T3111 run. `release` is told a station and the number of a channel that the station
        is to release; `gate` lets a timer's end wait for what lies unread; `expired` is told the cell in which T3109 ran out."""
        self.times, self.seconds = times, seconds
        self.release, self.gate, self.expired = release, gate, expired
        # By station and number of a channel, whether its RF CHANNEL RELEASE is kept back; and on which the mobile has left.
        self.kept = {}
        self.left = set()

    def resume(self):
        """Goes on with the times that another bridge has set."""
        for station, number in self.kept:
            if self.times.was_set(("ending", station.unit, number)):
                self.start(station, number, "T3111" if (station, number) in self.left else "T3109")

    def begin(self, station, number):
        """CHANNEL RELEASE was sent on a channel."""
        self.kept[station, number] = False
        self.start(station, number, "T3109")

    def start(self, station, number, timer):
        """Starts a timer of the channel."""
        self.times.set(
            ("ending", station.unit, number), self.seconds[timer.lower()], lambda: self.run_out(station, number, timer), self.gate
        )

    def run_out(self, station, number, timer):
        """A timer of the channel has run out. That is the course of T3111, and not that of T3109."""
        if timer == "T3109":
            self.expired(station.cell, timer)
        self.end(station, number)

    def keeps(self, station, number):
        """Whether RF CHANNEL RELEASE, which the controller sends now, is kept back."""
        if (station, number) not in self.kept:
            return False
        self.kept[station, number] = True
        return True

    def hear(self, station, message):
        """Hears a message of a station: the first RELEASE INDICATION on a main link starts T3111."""
        message_type, number = rsl.on_main_link(message) or (None, None)
        channel = station, number
        if message_type == rsl.RELEASE_INDICATION and channel in self.kept and channel not in self.left:
            self.left.add(channel)
            self.start(station, number, "T3111")

    def end(self, station, number):
        """The mobile has left, or T3109 has run out."""
        if self.forget(station, number):
            self.release(station, number)

    def forget(self, station, number):
        """The channel isn't there any more; whether its release was kept back."""
        self.times.forget(("ending", station.unit, number))
        self.left.discard((station, number))
        return self.kept.pop((station, number), False)

    def finish(self):
        """Nobody waits any more: all that is kept back goes."""
        for station, number in list(self.kept):
            self.end(station, number)
