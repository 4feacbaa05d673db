"""The calls and the channels of the radio book, as the controller's lines `event` tell them (docs/BOOK.md)."""
import dataclasses
import re

from page import keeps
from rsl import Channel
from tell import Since

# An event, what it is about, and the book's reply.
EVENT = re.compile(r"event (\w+) (\S+)((?: \S+)*) -> (\w+)((?: \S+)*)")
# The states of a channel in the book (docs/BOOK.md); a channel that is free isn't there.
HELD, PENDING, ON, OFF = "held", "pending", "on", "off"
# The stage that an attempt is in behind each event of its call.
STAGES = {
    "take": "taken",
    "reserve": "reserved",
    "activate": "sent",
    "command": "commanded",
    "require": "required",
    "order": "ordered",
}


@dataclasses.dataclass
class Event:
    """An event that was asked of the book, and its reply."""

    name: str
    about: str
    words: list
    reply: str
    said: list

    @classmethod
    def of(cls, line):
        """The event that a line of the controller tells, if any."""
        found = EVENT.fullmatch(line)
        return found and cls(found[1], found[2], found[3].split(), found[4], found[5].split())


@keeps()
@dataclasses.dataclass
class InUse:
    """A channel that is in use: its state, of which call, and since when."""

    state: str
    call: str | None = None
    since: Since = dataclasses.field(default_factory=Since)


@keeps()
@dataclasses.dataclass
class Call:
    """A call: the channel that it is on, and its attempt at handover."""

    serving: Channel | None = None
    kind: str | None = None
    stage: str | None = None
    target: Channel | None = None


@keeps("calls", "channels")
class Calls:
    """All calls and all channels in use."""

    def __init__(self):
        self.calls = {}
        self.channels = {}

    def follow(self, event):
        """An event was asked of the book."""
        if event.reply == "refused":
            return
        if event.name in ("confirm", "refuse", "released", "detect", "owner"):
            self.follow_channel(event.name, Channel.of(event.about))
        else:
            self.follow_call(event)

    def follow_channel(self, name, channel):
        """A station said something of a channel."""
        if name == "released":
            self.channels.pop(channel, None)
        elif name in ("confirm", "refuse"):
            known = self.channels.get(channel)
            self.use(channel, ON if name == "confirm" else HELD, known and known.call)
        stage = {"confirm": "confirmed", "refuse": "refused", "detect": "detected"}.get(name)
        for call in self.calls.values():
            if stage and call.target == channel:
                call.stage = stage

    def follow_call(self, event):
        """Something became of a call."""
        number, call = event.about, self.calls.setdefault(event.about, Call())
        call.stage = STAGES.get(event.name, call.stage)
        if event.name == "open":
            call.serving = Channel.of(event.words[0])
            self.use(call.serving, PENDING, number)
        elif event.name == "take":
            call.kind, call.target = event.words[0], Channel.of(event.words[1])
            self.use(call.target, HELD, number)
        elif event.name == "activate":
            self.use(call.target, PENDING, number)
        elif event.name == "require":
            call.kind = "outgoing"
        elif event.name == "complete":
            self.give_up(call.serving)
            call.serving = call.target
            call.kind = call.stage = call.target = None
        elif event.name == "undo":
            self.give_up(call.target)
            call.kind = call.stage = call.target = None
        elif event.name in ("clear", "left"):
            self.give_up(call.serving)
            call.serving = None
        if call.serving is None and call.target is None:
            del self.calls[number]

    def use(self, channel, state, call):
        """A channel is used so from now on."""
        self.channels[channel] = InUse(state, call)

    def give_up(self, channel):
        """A call gives up a channel: it is free where its station doesn't have it, else it waits for that one's release."""
        used = channel and self.channels.pop(channel, None)
        if used and used.state != HELD:
            self.use(channel, OFF, None)

    def on(self, channel):
        """The call of a channel; None where it has none."""
        used = self.channels.get(channel)
        return used and used.call
