"""The checks of what the bridge remembers of others, and how much of it: mobiles' requests, and the gateway's transactions. They
are given more than may be remembered, and a clock that goes as fast as is wanted."""
import selectors
import socket
import types

import access
from admission import TOGETHER
from air import Air
from faults import Faults
from gateway import Gateway
from harness import must
from mgcp import Answer, Command, Verb
from stations import Station
from tallies import Tallies

# How many requests are known again, and for how many seconds; for how many transactions that are over are (docs/NETWORK.md).
REQUESTS, REQUESTS_FOR, TRANSACTIONS_FOR = 10_000, 5.0, 30.0


class Clock:
    """Things to be done later, as in stream.py; time goes on where a check says so."""

    def __init__(self):
        self.now, self.later = 0.0, {}

    def set(self, name, seconds, action, _gate=None):
        """Does something in so many seconds."""
        self.later[name] = self.now + seconds, action

    def forget(self, name):
        """Doesn't do it."""
        self.later.pop(name, None)

    def is_set(self, name):
        """Whether something is to be done under this name."""
        return name in self.later

    def go_on(self, seconds):
        """So many seconds pass."""
        self.now += seconds
        due = sorted((when, name) for name, (when, _) in self.later.items() if when <= self.now)
        for _, name in due:
            self.later.pop(name)[1]()


class Told:
    """A relay without a centre: each request is rejected. Those that are told so are counted."""

    def __init__(self):
        self.a_side = types.SimpleNamespace(is_there=False)
        self.tallies = Tallies(calls={})
        self.places, self.sent = {}, 0

    def pass_on(self, _station, message):
        """Takes IMMEDIATE ASSIGNMENT REJECT (TS 44.018, 9.1.20), behind the head of Abis and of layer 3: four requests, or the same
        again, each with how long it isn't to ask."""
        self.sent += len({message[10 + at : 13 + at] for at in range(0, 16, 4)})


def required(place):
    """CHANNEL REQUIRED of a mobile that asks for a location update, at one of many times."""
    return bytes.fromhex(f"0c1301881300{place:04x}1100")


# Each gets a function that starts a bridge, which these don't need, a folder, and the program.


def requests_are_bounded(_start, _room, _program):
    """So many requests of mobiles are known again, and no more, however many come; each for so many seconds."""
    clock, relay, station = Clock(), Told(), Station("6969/0/0", 0, 0, ())
    config = types.SimpleNamespace(cells=[], broadcast=types.SimpleNamespace(neci=1), awaited=4, emergency_reserve=0)
    air = Air(relay, clock, {"t3122": 10.0}, config)
    for place in range(2 * REQUESTS):
        air.required(station, required(place))
    clock.go_on(TOGETHER)
    clock.go_on(TOGETHER)
    must(len(air.requests) == REQUESTS, f"{len(air.requests)} requests are known")
    must(relay.sent == 2 * REQUESTS, f"{relay.sent} mobiles are answered")
    # the first is known, and isn't answered again; the last is as a new one
    for place, more in ((0, 0), (2 * REQUESTS - 1, 1)):
        before = relay.sent
        air.required(station, required(place))
        clock.go_on(TOGETHER)
        clock.go_on(TOGETHER)
        must(relay.sent == before + more, f"request {place} is answered {relay.sent - before} times more")
    must(station.passed["CHANNEL REQUIRED again"] == 1, f"it is counted otherwise: {station.passed}")
    clock.go_on(REQUESTS_FOR - 0.1 - clock.now)
    must(len(air.requests) == REQUESTS, f"{len(air.requests)} requests are known for as long as they are to be")
    clock.go_on(REQUESTS_FOR - clock.now)
    must(not air.requests and not clock.later, f"{len(air.requests)} requests are known for longer")


def transactions_are_bounded(_start, _room, _program):
    """A transaction with the gateway that is over, whether it was answered or given up, is known for so many seconds, and then
    nothing of it is left."""
    clock, told = Clock(), []
    with selectors.DefaultSelector() as selector, socket.socket(socket.AF_INET, socket.SOCK_DGRAM) as other:
        other.bind(("127.0.0.1", 0))
        settings = types.SimpleNamespace(address="127.0.0.1", port=other.getsockname()[1], domain="mgw")
        gateway = Gateway(selector, clock, settings, {"gateway": 3.0, "gateway-repeat": 0.5}, Faults(clock))
        # what it says of a gateway that is silent is no matter of this
        gateway.say = lambda _text: None
        for _ in range(20):
            gateway.ask(Command(Verb.DELETE, "rtpbridge/1@mgw", "1"), told.append)
            gateway.take(Answer(250, gateway.number))
            gateway.ask(Command(Verb.DELETE, "rtpbridge/1@mgw", "1"), told.append)
            gateway.give_up(gateway.number)
        must(len(told) == 40 and len(gateway.over) == 40 and not gateway.asked, f"{len(gateway.over)} of {len(told)} are known")
        clock.go_on(TRANSACTIONS_FOR - 0.1)
        must(len(gateway.over) == 40, f"{len(gateway.over)} transactions are known for as long as they are to be")
        clock.go_on(0.1)
        left = len(gateway.over), sum(name[0].startswith("gateway") for name in clock.later)
        must(left == (0, 0), f"{left[0]} transactions are known for longer, and {left[1]} are to be forgotten later")
        gateway.socket.close()


CHECKS = [requests_are_bounded, transactions_are_bounded]
