"""Which mobile that asks for a channel comes first, and which is rejected. The controller is asked for one channel of a cell at a
time; the other requests of that cell wait, and emergency calls come in front of them. Channels may be kept for emergency calls.
Requests that are rejected are answered together."""
import collections
import dataclasses
import enum
import time

import access
from access import Cause
from page import keeps
from sites import TIMESLOT, free_in
from stations import Station

# How many requests of a cell may wait, and for how many seconds: behind that their mobiles have given up (T3126, TS 44.018,
# clause 11.1.1).
MOST_WAITING, LONGEST_WAIT = 64, 5.0
# For how many seconds a request that is rejected waits for others, which are told by the same message.
TOGETHER = 0.05
# The rates of channels, as the controller is asked for them.
FULL, HALF = b"full", b"half"


class Rejected(enum.Enum):
    """Why a mobile that asks for a channel is rejected."""

    NONE_FREE = "no channel is free"
    KEPT = "what is free is kept for emergency calls"
    STATION = "the station refuses the channel"
    AWAITED = "too many mobiles are awaited"
    WAITING = "too many requests wait"
    LATE = "the request has waited too long"
    NO_CENTRE = "the centre isn't there"
    NO_NUMBER = "no number of a call is free"


@keeps()
@dataclasses.dataclass(frozen=True)
class Waiting:
    """A request that waits: of which station, and since when."""

    station: Station
    request: access.Request
    since: float = dataclasses.field(default_factory=time.monotonic)


@keeps("emergencies", "others", "is_asked")
class Queue:
    """The requests of a cell that wait."""

    def __init__(self):
        self.emergencies: collections.deque = collections.deque()
        self.others: collections.deque = collections.deque()
        # whether the controller is asked for a channel of the cell, and hasn't answered
        self.is_asked = False

    def __len__(self):
        return len(self.emergencies) + len(self.others)

    def add(self, waiting):
        """Adds a request; the one that has no room then, if any. An emergency call takes the room of another that came last."""
        is_emergency = waiting.request.cause == Cause.EMERGENCY
        if len(self) < MOST_WAITING:
            left_out = None
        elif is_emergency and self.others:
            left_out = self.others.pop()
        else:
            return waiting
        (self.emergencies if is_emergency else self.others).append(waiting)
        return left_out

    def next(self):
        """The request whose turn it is; None where none has a turn now."""
        if self.is_asked:
            return None
        waiting = self.emergencies or self.others
        return waiting.popleft() if waiting else None

    def late(self, now):
        """Takes away the requests that have waited too long."""
        for waiting in (self.emergencies, self.others):
            while waiting and now >= waiting[0].since + LONGEST_WAIT:
                yield waiting.popleft()


@keeps("queues", wired=("air", "relay", "times", "config"))
class Admission:
    """The requests of all cells. `air` has a request begin a call, or refuses it."""

    def __init__(self, air, times, config):
        self.air, self.relay, self.times, self.config = air, air.relay, times, config
        self.queues: collections.defaultdict = collections.defaultdict(Queue)

    def resume(self):
        """Goes on with the times that another bridge has set."""
        for cell in self.queues:
            if self.times.was_set(("late", cell)):
                self.await_late(cell)
            if self.times.was_set(("requests", cell)):
                self.await_turn(cell)

    def renumber(self, numbers):
        """Cells have other numbers. Requests for those that go are dropped."""
        before = dict(self.queues)
        self.queues.clear()
        for cell, queue in before.items():
            for name in ("late", "requests"):
                self.times.forget((name, cell))
            if (number := numbers.get(cell, cell)) is not None:
                self.queues[number] = queue
        for cell in [it for it, queue in self.queues.items() if queue]:
            self.await_late(cell)
            self.await_turn(cell)

    def add(self, station, request):
        """A mobile asks for a channel. Its turn comes behind all that is read now, so that an emergency call among that is first.
        """
        left_out = self.queues[station.cell].add(Waiting(station, request))
        if left_out:
            self.air.refuse(left_out.station, left_out.request, Rejected.WAITING)
        self.await_turn(station.cell)
        self.await_late(station.cell)

    def await_late(self, cell):
        """It is looked again and again whether requests of a cell wait too long."""
        if not self.times.is_set(("late", cell)):
            self.times.set(("late", cell), LONGEST_WAIT / 4, lambda: self.reject_late(cell))

    def reject_late(self, cell):
        """Rejects those that have waited too long by now."""
        for it in self.queues[cell].late(time.monotonic()):
            self.air.refuse(it.station, it.request, Rejected.LATE)
        if self.queues[cell]:
            self.await_late(cell)

    def await_turn(self, cell):
        """The requests of a cell have their turn soon."""
        if not self.times.is_set(("requests", cell)):
            self.times.set(("requests", cell), 0.0, lambda: self.take_turn(cell))

    def take_turn(self, cell):
        """Requests of a cell are taken, until the controller is asked for a channel."""
        while waiting := self.queues[cell].next():
            if reason := self.objection(waiting):
                self.air.refuse(waiting.station, waiting.request, reason)
            else:
                self.air.begin(waiting.station, waiting.request)

    def objection(self, waiting):
        """Why a request is rejected before the controller is asked; None where that is asked. Emergency calls aren't held up by
        others that await their mobiles."""
        cell, is_emergency = waiting.station.cell, waiting.request.cause == Cause.EMERGENCY
        if not self.relay.a_side.is_there:
            return Rejected.NO_CENTRE
        if self.relay.talks.awaited(cell, is_emergency) >= self.config.awaited:
            return Rejected.AWAITED
        return None if self.rates(cell, waiting.request.cause) else Rejected.KEPT

    def rates(self, cell, cause):
        """The rates that will do for a request, the first one first; none where each channel that it would get is kept for
        emergency calls."""
        rates = [FULL, HALF] if self.config.broadcast.neci == 1 and cause.takes_half else [FULL]
        return [it for it in rates if cause == Cause.EMERGENCY or not self.is_kept(cell, it)]

    def is_kept(self, cell, rate):
        """Whether the channel of a rate that the controller would give now, the lowest that is free, is kept for emergency calls,
        which take full channels. Where none is free, that is for the controller to say."""
        reserve = self.config.emergency_reserve
        if not (reserve and self.relay.site):
            return False
        channels = self.relay.site[cell]
        used = [it for it in self.relay.calls.channels if it.cell == cell]
        if not (free := free_in(channels[rate.decode()], used)):
            return False
        lowest = min(free, key=lambda it: (it.trx, it.number & TIMESLOT, it.number))
        before, after = (len(free_in(channels["full"], it)) for it in (used, [*used, lowest]))
        return after < min(before, reserve)

    def asked(self, cell):
        """The controller is asked for a channel of a cell: the others wait."""
        self.queues[cell].is_asked = True

    def answered(self, cell):
        """The controller has answered, of which the book's calls know at once: then the next has its turn."""
        self.queues[cell].is_asked = False
        self.await_turn(cell)

    def waiting(self, cell):
        """How many requests of a cell wait."""
        return len(self.queues[cell]) if cell in self.queues else 0


@keeps("waiting", wired=("times", "send", "seconds"))
class Rejections:
    """Requests that are rejected, of which one message tells up to four."""

    def __init__(self, times, send, seconds):
        """`send` is given a station and a message for the mobiles of its cell; `seconds` has how long a mobile isn't to ask again.
        """
        self.times, self.send, self.seconds = times, send, seconds
        # by cell the station of the first, and all requests
        self.waiting: dict[int, tuple] = {}

    def resume(self):
        """Goes on with the times that another bridge has set."""
        for station, _ in list(self.waiting.values()):
            if self.times.was_set(("rejections", station.cell)):
                self.await_others(station)

    def add(self, station, request):
        """A request is rejected."""
        _, requests = self.waiting.setdefault(station.cell, (station, []))
        requests.append(request)
        if len(requests) == access.MOST_REJECTED:
            self.tell(station)
        elif len(requests) == 1:
            self.await_others(station)

    def tell_all(self):
        """All mobiles are told at once."""
        for station, _ in list(self.waiting.values()):
            self.tell(station)

    def await_others(self, station):
        """Others may be told with the first."""
        self.times.set(("rejections", station.cell), TOGETHER, lambda: self.tell(station))

    def tell(self, station):
        """Mobiles of a cell are told."""
        self.times.forget(("rejections", station.cell))
        _, requests = self.waiting.pop(station.cell)
        self.send(station, access.rejection(requests, round(min(self.seconds["t3122"], 255))))
