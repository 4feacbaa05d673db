"""What the events of a trace make of a book (docs/BOOK.md), and what a controller says by them to stations
(docs/PROCEDURE.md).
"""
from dataclasses import dataclass

ARMED = {"command": "T3103", "require": "T7", "order": "T8"}


@dataclass
class Call:
    """A call: where it is served, its attempt at handover, and its timer."""

    serving: str | None = None
    kind: str | None = None
    target: str | None = None
    timer: str | None = None

    def moved(self):
        """The call behind its attempt."""
        self.kind = self.target = self.timer = None


@dataclass(frozen=True)
class Moves:
    """What the events of a turn did that isn't seen from the book alone."""

    # the calls whose attempt was taken back, and those that have moved
    undone: tuple = ()
    completed: tuple = ()
    # what the controller said to stations: ACT or REL, and the channel
    said: tuple = ()


class Differs(Exception):
    """What was printed isn't what has to come."""


class Book:
    """Channels that are in use with their state and call, and calls."""

    def __init__(self):
        self.channels, self.calls = {}, {}

    def state(self, channel):
        return self.channels.get(channel, ("free", None))[0]

    def owner(self, channel):
        return self.channels.get(channel, ("free", None))[1]

    def turn(self, events):
        """Plays the events of a turn, as a trace has them."""
        undone, completed, said = [], [], []
        for line in events:
            words, _, reply = line.removeprefix("event ").partition(" -> ")
            name, what, *more = words.split(" ")
            if reply.startswith("record "):
                self.compare(what, reply.removeprefix("record ").split(" "), line)
            if name in ("look", "owner", "detect", "reserve") or reply.startswith("refused "):
                continue
            said += getattr(self, f"play_{name}")(what, *more)
            undone += [what] * (name == "undo")
            completed += [what] * (name == "complete")
        return Moves(tuple(undone), tuple(completed), tuple(said))

    def compare(self, number, record, line):
        """The record of a call is what the events before have made of it."""
        serving, state, kind, _stage, target = [*record, *[None] * 3][:5]
        it = self.calls.get(number, Call())
        mine = (it.serving or "-", self.state(it.serving) if it.serving else "-", it.kind, it.kind and (it.target or "-"))
        if (serving, state, kind, target) != mine:
            raise Differs(f"the book has {line}, and by its events {mine}")

    def switch_off(self, channel):
        """A channel that isn't used any more; the release that is said for it."""
        state = self.state(channel)
        if state in ("pending", "on"):
            self.channels[channel] = ("off", None)
            return [("REL", channel)]
        if state == "held":
            del self.channels[channel]
        return []

    def play_open(self, number, channel):
        self.channels[channel] = ("pending", number)
        self.calls[number] = Call(serving=channel)
        return [("ACT", channel)]

    def play_clear(self, number):
        return self.switch_off(self.calls.pop(number).serving)

    def play_take(self, number, kind, channel):
        it = self.calls.setdefault(number, Call())
        it.kind, it.target = kind, channel
        self.channels[channel] = ("held", number)
        return []

    def play_activate(self, number):
        target = self.calls[number].target
        self.channels[target] = ("pending", number)
        return [("ACT", target)]

    def play_require(self, number):
        self.calls[number].kind = "outgoing"
        return self.play_command(number, "require")

    def play_order(self, number):
        return self.play_command(number, "order")

    def play_command(self, number, name="command"):
        self.calls[number].timer = ARMED[name]
        return []

    def play_complete(self, number):
        it = self.calls[number]
        said = self.switch_off(it.serving) if it.serving else []
        it.serving = it.target
        it.moved()
        return said

    def play_undo(self, number, _why):
        it = self.calls[number]
        said = self.switch_off(it.target) if it.target else []
        if it.kind == "incoming":
            del self.calls[number]
        it.moved()
        return said

    def play_left(self, number):
        return self.play_clear(number)

    def play_confirm(self, channel):
        self.channels[channel] = ("on", self.owner(channel))
        return []

    def play_refuse(self, channel):
        self.channels[channel] = ("held", self.owner(channel))
        return []

    def play_released(self, channel):
        del self.channels[channel]
        return []
