"""A bridge of a network in this process, for tools/fuzz-bridge: its clock is moved on by hand, and what it says is kept."""
import importlib.machinery
import importlib.util
import pathlib
import re
import selectors
import socket
import sys
import types

import tell


class Kept:
    """What is said and printed last, in the place of standard error and standard output."""

    left_out = 0

    def __init__(self):
        self.lines = []

    def put(self, octets):
        """Keeps a line."""
        self.lines = [*self.lines[-400:], octets.decode(errors="replace").rstrip("\n")]

    def finish(self, _seconds):
        """All is kept."""


# Before others know them by name.
tell.ERRORS, tell.OUTPUT = Kept(), Kept()

import bridge
import config
import page
import stream
from fuzz_peers import Centre, Gateway, Operators, Stations
from network_harness import CONFIG, KEYS, SITE
from page import keeps
from stream import Selector
from succession import take_over

# The network, a program without a suffix.
PATH = pathlib.Path(bridge.__file__).parent / "network"
SPEC = importlib.util.spec_from_loader("network", importlib.machinery.SourceFileLoader("network", str(PATH)))
NETWORK = importlib.util.module_from_spec(SPEC)
SPEC.loader.exec_module(NETWORK)
# How many steps a life has.
STEPS = 300
# How often the bridge may go round until all is done that came: more would be a course without an end.
MOST_ROUNDS = 20_000
# For how long the controller may not answer, in seconds.
PATIENCE = 300.0
# How much time goes by at a step, in seconds; 0 for none.
PAUSES = (0,) * 12 + (0.01, 0.3, 0.6, 1, 2.6, 4.1, 11)
# One of so many steps is followed by a page, which another bridge would take (succession.py).
PAGES = 10
# An object in a page, by its place there, which hangs on the order of sets.
OBJECT = re.compile(r"(?<='object': )\d+")
# And at the end: longer than anything waits.
LAST = 2_000


class Clock:
    """The time, which goes on where it is told to."""

    def __init__(self):
        self.now = 0.0

    def monotonic(self):
        """The time."""
        return self.now


class Now(Selector):
    """What waits for nothing."""

    def select(self, _timeout=None):
        """What can be done now."""
        return super().select(0)


@keeps(wired=("ears", "INPUT"))
class Fuzzed(NETWORK.Network):
    """The bridge. No signal comes to it, and its standard input is a socket."""

    def watch_signals(self):
        """No signal comes."""
        self.signals = socket.socketpair()

    def begin(self):
        """Standard input is a socket, whose other end says nothing."""
        self.ears = socket.socketpair()
        self.INPUT = self.ears[0].fileno()
        super().begin()

    def rest(self):
        """Does all that is to be done now, and waits for the controller's answers."""
        for _ in range(MOST_ROUNDS):
            came = self.selector.select() or self.times.seconds_left() == 0.0
            if not (came or self.links.behind or self.selector.failed or self.turns.next() or self.links.due):
                if not self.relay.core or not self.relay.given:
                    return
                self.wait()
            self.take_turn()
        raise RuntimeError(f"it doesn't come to rest: {came}, {self.links.behind}, {self.turns.waiting}, {self.relay.given}")

    def wait(self):
        """Waits for the controller."""
        with selectors.SelectSelector() as selector:
            selector.register(self.relay.core.reads, selectors.EVENT_READ)
            if not selector.select(PATIENCE):
                raise RuntimeError(f"the controller answers nothing in {PATIENCE:g} seconds")


class Life:
    """A bridge and all that are around it."""

    def __init__(self, program, room, seed, chance):
        self.program, self.room, self.seed, self.chance = program, room, seed, chance
        self.steps, self.done = 0, []
        self.clock = Clock()
        for kept in (tell.ERRORS, tell.OUTPUT):
            kept.lines = []

    def begin(self):
        """Begins the bridge, and its peers."""
        stream.time = types.SimpleNamespace(monotonic=self.clock.monotonic)
        bridge.Selector = Now
        self.centre, self.gateway = Centre(self.chance, self.seed), Gateway(self.chance, self.seed)
        ports = {"port": self.centre.port, "gateway": self.gateway.port}
        keys = {**KEYS, "more": "", "neci": self.chance.randrange(2)}
        timers = "t4 = 3\nsettle = 1\ngateway-audit = 7\nestablish = 3\nsilence = 60\nalive = 20\nconnect = 6\nclear-lost = 100"
        (self.room / "site.toml").write_text(SITE)
        path = self.room / "config.toml"
        path.write_text(CONFIG.format(controller=f'["{self.program}", "live"]', timers=timers, **ports, **keys))
        control = self.room / "control"
        words = NETWORK.words_of([str(path), "--control", str(control), "--log", str(self.room / "log"), "--hang", "100000"])
        self.make = lambda: Fuzzed(NETWORK.with_config(words, found := config.read(path)), found)
        self.bridge = self.make()
        self.bridge.start()
        self.stations = Stations(self.chance, self.seed, self.bridge.listeners[bridge.STATIONS].getsockname()[1])
        self.operators = Operators(self.chance, control)
        self.peers = [self.stations] * 6 + [self.centre] * 4 + [self.gateway, self.operators]

    def run(self):
        """Lives; what is wrong, None where nothing is."""
        try:
            self.begin()
            self.live()
            return self.end()
        except Exception as error:
            return f"{type(error).__name__}: {error}, at {faults_of(error)}"
        finally:
            self.stop()

    def live(self):
        """Takes some hundred steps."""
        for _ in range(STEPS):
            self.steps += 1
            peer = self.chance.choice(self.peers)
            self.done.append(peer.step())
            self.go_on(self.chance.choice(PAUSES))
            if self.bridge.is_ending or self.wrong():
                return
            if self.chance.randrange(PAGES) == 0:
                self.take_page()

    def take_page(self):
        """A bridge that hasn't begun takes the page of this one: what it knows then makes the same page, but for its sockets and the
        order of sets."""
        states, it = [], self.bridge
        for _ in range(2):
            states.append(it.succession.state()[0])
            text, it = page.written(states[-1]), self.make()
            take_over(it, page.read(text))
        first, second = ([len(it["objects"]), *sorted(OBJECT.sub("", str(time)) for time in it["times"])] for it in states)
        if first != second:
            raise RuntimeError(f"the page of a bridge has {first}, that of the next one {second}")

    def go_on(self, seconds):
        """Lets time go by, and has all answer."""
        self.clock.now += seconds
        self.bridge.rest()
        while any([peer.answer() for peer in (self.stations, self.centre, self.gateway, self.operators)]):
            self.bridge.rest()

    def wrong(self):
        """What is wrong by now."""
        found = {place: count for place, count in self.bridge.relay.faults.counts.items() if count}
        if found:
            return f"faults: {found}"
        return "the bridge ends" if self.bridge.is_ending else None

    def end(self):
        """Ends all, and looks whether the book is empty then."""
        if wrong := self.wrong():
            return wrong
        for peer in (self.stations, self.operators, self.centre, self.gateway):
            peer.leave()
            self.go_on(0)
        for _ in range(20):
            # timers arm others
            self.go_on(LAST / 20)
        if wrong := self.wrong():
            return wrong
        self.bridge.end("all is done")
        self.bridge.run()
        left = [line for line in tell.OUTPUT.lines if line.startswith("end ")]
        if left != ["end channels=0 calls=0 references=0 timers=0"]:
            return f"something is left: {left}, {self.bridge.relay.calls.channels}"
        if self.bridge.relay.media.all or self.bridge.relay.talks.by_number:
            return f"the bridge knows calls yet: {[*self.bridge.relay.talks.by_number]}, {self.bridge.relay.media.all}"
        return self.wrong_at_the_end()

    def wrong_at_the_end(self):
        """What is wrong where the bridge has ended."""
        found = {place: count for place, count in self.bridge.relay.faults.counts.items() if count}
        return f"faults: {found}" if found else None

    def last_words(self):
        """What was done last, and what the bridge said then."""
        return [*self.done[-12:], "it said last:", *tell.ERRORS.lines[-15:], "it printed last:", *tell.OUTPUT.lines]

    def stop(self):
        """Ends what is there yet."""
        if not hasattr(self, "bridge"):
            return
        # (it has none where the program isn't there)
        if core := getattr(self.bridge, "core", None):
            core.kill()
            core.wait()
        for it in (*self.bridge.sockets.values(), *self.bridge.listeners.values()):
            it.close()
        for peer in (self.stations, self.operators, self.centre, self.gateway) if hasattr(self, "peers") else ():
            peer.stop()


def faults_of(error):
    """Where an exception was met."""
    import faults

    return faults.met_at(error)
