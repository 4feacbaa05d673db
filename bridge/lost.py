"""Calls whose channel is lost: their station says CONNECTION FAILURE INDICATION (TS 48.058 clause 8.4.4).

The controller answers it by CLEAR REQUEST (TS 48.008 clause 3.1.9.1), but by nothing while an attempt at handover is open:
the mobile may be on its way to another channel. Where the attempt is undone the call stays on the lost channel. So the
message is kept, and given again at the attempt's end. A CLEAR REQUEST that the switching centre doesn't answer is said
again: the message is given again. Where there is no centre, such calls can be cleared after a time.
"""
import dataclasses

import rsl
from page import keeps
from tell import Level, Since, say

# The type of CLEAR REQUEST (TS 48.008 clause 3.2.2.1), behind a discriminator, 00, and a length.
CLEAR_REQUEST = 0x22


@keeps()
@dataclasses.dataclass
class Lost:
    """A call whose channel is lost."""

    since: Since = dataclasses.field(default_factory=Since)
    # How often CLEAR REQUEST was sent; not yet while an attempt is open.
    asked: int = 0


@keeps("lost", wired=("relay", "times", "seconds", "calls"))
class LostCalls:
    """The calls whose channel is lost."""

    def __init__(self, relay):
        """The relay's `seconds` have under `repeat` after which time CLEAR REQUEST is said again, and under `clear-lost` after
        which one a call is cleared; None where it never is."""
        self.relay = relay
        self.times, self.seconds, self.calls = relay.times, relay.seconds, relay.calls
        self.lost = {}

    def resume(self):
        """Goes on with the times that another bridge has set."""
        for number in self.lost:
            if self.times.was_set(("clear request", number)):
                self.run_repeat(number)
            if self.times.was_set(("clear", number)):
                self.run_clear(number)

    def failed(self, channel):
        """The controller was given a channel's failure: where a call is on it that moves, that is kept."""
        number = self.calls.on(channel)
        call = self.calls.calls.get(number)
        if call and call.serving == channel and call.kind and number not in self.lost:
            self.lost[number] = Lost()
            told = "that is told again at the attempt's end"
            say(f"call {number}: its channel {channel} is lost while it moves: {told}", Level.WARNING)

    def follow(self, event):
        """An event was asked of the book, and followed by the calls."""
        number = event.about
        if event.reply == "refused" or event.name not in ("clear", "left", "complete", "undo"):
            return
        if event.name != "undo" or number not in self.calls.calls:
            # it has ended, also where it was to come from another controller and doesn't
            self.forget(number)
        elif number in self.lost and event.words[0] not in ("t3103", "t8"):
            # behind these two the controller itself sends CLEAR REQUEST
            self.tell_again(number)

    def request(self, number, message):
        """A message about a call goes to the switching centre: where it is CLEAR REQUEST, an answer is awaited."""
        if message[0:1] != b"\x00" or message[2:3] != bytes([CLEAR_REQUEST]) or number not in self.calls.calls:
            return
        lost = self.lost.setdefault(number, Lost())
        lost.asked += 1
        self.run_repeat(number)
        if self.seconds["clear-lost"] is not None and lost.asked == 1:
            self.run_clear(number)

    def run_repeat(self, number):
        """An answer to CLEAR REQUEST is waited for."""
        self.times.set(("clear request", number), self.seconds["repeat"], lambda: self.tell_again(number))

    def run_clear(self, number):
        """It is waited until somebody clears the call."""
        self.times.set(("clear", number), self.seconds["clear-lost"], lambda: self.clear(number))

    def tell_again(self, number):
        """Gives the controller the failure of a call's channel, by which it sends CLEAR REQUEST."""
        call = self.calls.calls.get(number)
        if call and call.serving and not call.kind:
            cell, trx, channel = call.serving
            failure = rsl.channel_message(rsl.CONNECTION_FAILURE, channel, rsl.FAILURE)
            self.relay.give_message(cell, trx, failure, "bridge")

    def clear(self, number):
        """Clears a call, since nobody else does."""
        seconds = self.seconds["clear-lost"]
        say(f"call {number}: its channel is lost, and nobody has cleared it in {seconds:g} seconds", Level.WARNING)
        self.relay.give(b"clear " + number.encode(), "bridge")

    def forget(self, number):
        """The call has ended, or has another channel."""
        self.lost.pop(number, None)
        self.times.forget(("clear request", number))
        self.times.forget(("clear", number))

    def known(self):
        """What is known of each, a line each."""
        return [
            f"call {number}: its channel is lost since {lost.since}; CLEAR REQUEST was sent {lost.asked} times"
            for number, lost in self.lost.items()
        ]
