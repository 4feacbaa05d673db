"""What the bridge knows of the TRX of base stations, and what it says in their place."""
from __future__ import annotations

import collections
import dataclasses
import typing

from page import keeps
from reports import Report
from rsl import Channel
from tell import Since

if typing.TYPE_CHECKING:
    from links import Link

# How many names of messages are told apart.
MOST_NAMES = 64
# What a station was last told of a channel, or said of it: it activates the channel; that is on; the mobile there is sent away
# before it is released; it releases it; it hasn't acknowledged a release, and the controller was answered in its place.
STATES = ACTIVATING, ON, LEAVING, RELEASING, CLOSING = "activating", "on", "leaving", "releasing", "closing"


@keeps()
@dataclasses.dataclass(eq=False)
class Use:
    """How a station has a channel, and since when."""

    state: str
    since: Since = dataclasses.field(default_factory=Since)
    # where it was asked for something: how many octets had come from it by then, none of which answers that
    asked: int = 0
    # the last report of the channel
    report: Report | None = None


@keeps(*("link", "since", "lost", "came", "sent", "passed", "unsent", "channels"), wired=("unit", "cell", "trx", "addresses"))
@dataclasses.dataclass(eq=False)
class Station:
    """What is known of a TRX of a base station, which has a link of its own."""

    unit: str
    cell: int
    trx: int
    # From where it may come; from anywhere, where that is empty.
    addresses: tuple = ()
    link: Link | None = None
    # When it came, or went; and how often a link of it was lost.
    since: Since | None = None
    lost: int = 0
    # How many messages it sent that were handed on, and how many were sent to it.
    came: int = 0
    sent: int = 0
    # What it sent that isn't handed on, by name, and how much was for it while it wasn't there.
    passed: collections.Counter = dataclasses.field(default_factory=collections.Counter)
    unsent: int = 0
    # Its channels that aren't at rest, by their number.
    channels: dict = dataclasses.field(default_factory=dict)

    def __str__(self):
        return f"station {self.unit} (cell {self.cell}, TRX {self.trx})"

    def place(self):
        """Which TRX it is, as a word of bridge/abis says it."""
        return f"{self.unit}={self.cell}/{self.trx}"

    def channel(self, number):
        """A channel of its, by its number."""
        return Channel(self.cell, self.trx, number)

    def state(self, number):
        """In which state a channel is; None where it is at rest."""
        return self.channels[number].state if number in self.channels else None

    def pass_over(self, name):
        """Counts a message that isn't handed on."""
        self.passed[name if name in self.passed or len(self.passed) < MOST_NAMES else "others"] += 1

    def there(self):
        """Whether it is there, and since when."""
        if self.link:
            return f"there since {self.since}"
        return f"not there since {self.since}" if self.since else "not there yet"

    def known(self):
        """What is known of it, in one line."""
        there = self.there()
        states = collections.Counter(use.state for use in self.channels.values())
        channels = ", ".join(f"{count} {state}" for state, count in sorted(states.items())) or "none in use"
        passed = sum(self.passed.values())
        return (
            f"{self}: {there}; channels: {channels}; messages: {self.came} came, {self.sent} sent, {passed} passed over,"
            f" {self.unsent} not sent; links lost: {self.lost}"
        )

    def passed_over(self):
        """What of its messages wasn't handed on, in one line; None where there is nothing."""
        if not self.passed:
            return None
        return f"{self}: passed over: {', '.join(f'{name} {count}' for name, count in sorted(self.passed.items()))}"
