"""What mobiles and the centre say to one another: of each call what the radio book doesn't know."""
from access import Cause
from outgoing import Outgoing
from page import keeps
from short_messages import ShortLink

# How many numbers of calls there are.
NUMBERS = 1 << 16
# The stages of an attempt in which the mobile was sent away, and isn't known to be anywhere (docs/BOOK.md).
MOVING = ("commanded", "detected", "ordered")


@keeps(
    *("number", "is_over", "is_clearing", "is_lost", "station", "request", "is_awaited", "identity", "connection", "is_cut"),
    *("mode", "assignment", "arrival", "speech", "is_ciphering", "down", "up", "short", "outgoing"),
)
class Talk:
    """A call: the book has its channels, under the same number."""

    def __init__(self, number):
        self.number = number
        # whether the book has ended it, and whether the controller was told to end it
        self.is_over = self.is_clearing = False
        # whether the centre was asked to clear it, since its speech is lost
        self.is_lost = False
        # how it began on the air: the station, the request, and whether its mobile is awaited
        self.station = self.request = None
        self.is_awaited = False
        # whose it is, as the centre named him
        self.identity = ""
        # its connection to the centre, and whether that ended before the call did
        self.connection = None
        self.is_cut = False
        # the mode that its mobile was told of its channel (TS 44.018, 10.5.2.6); what is under way of assignment, ciphering,
        # and of its coming by handover; and its speech
        self.mode = 0
        self.assignment = self.arrival = self.speech = None
        self.is_ciphering = False
        # what waits until it is known where the mobile is: for the mobile, and from it, with its service access point
        self.down, self.up = [], []
        # its link for short messages, and what it awaits of the centre to go to another controller
        self.short, self.outgoing = ShortLink(), Outgoing()

    def __str__(self):
        return f"call {self.number}"


@keeps("by_number", "reserved", "next", wired=("calls",))
class Talks:
    """All calls that the bridge knows, by their numbers; `calls` are those of the book."""

    def __init__(self, calls):
        self.calls = calls
        self.by_number = {}
        # numbers that operators gave, which are never given again; and the one that is tried next
        self.reserved = set()
        self.next = 1

    def begin(self):
        """A call of a fresh number; None where all are in use."""
        for _ in range(NUMBERS):
            number, self.next = self.next, (self.next + 1) % NUMBERS
            if number not in self.by_number and number not in self.reserved:
                return self.of(number)
        return None

    def of(self, number):
        """The call of a number; where nothing was known of it, it begins here."""
        return self.by_number.setdefault(number, Talk(number))

    def on(self, channel):
        """The call that has a channel; None where none has."""
        number = self.calls.on(channel)
        return self.by_number.get(int(number)) if number else None

    def forget(self, talk):
        """A call is at its end on all sides."""
        if self.by_number.get(talk.number) is talk:
            del self.by_number[talk.number]

    def awaited(self, cell, is_emergency=False):
        """How many calls of a cell haven't heard of their mobile yet; emergency calls alone, where those are asked for."""
        awaited = [it for it in self.by_number.values() if it.is_awaited and it.station.cell == cell]
        return sum(it.request.cause == Cause.EMERGENCY for it in awaited) if is_emergency else len(awaited)

    def place(self, talk):
        """What the book has of a call: its channel, and its attempt at handover; None where it has nothing."""
        return self.calls.calls.get(str(talk.number))

    def serving(self, talk):
        """The channel that a call is on; None where it has none."""
        place = self.place(talk)
        return place and place.serving

    def is_moving(self, talk):
        """Whether a call's mobile was sent away, and isn't known to be anywhere."""
        place = self.place(talk)
        return bool(place) and place.stage in MOVING
