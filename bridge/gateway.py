"""Transactions with a media gateway, over UDP (RFC 3435, 3.5): each has a number, and is said again under it until it is
answered, or given up."""
import random
import selectors
import socket
import typing

import faults
import mgcp
from mgcp import Command, Verb
from page import keeps
from tell import Level, Sayings, Since

# For how many seconds the number of a transaction that is over is remembered: longer than an answer may be under way (T-HIST).
REMEMBERED = 30.0
# How long a datagram may be, and how many are taken before others have their turn.
LONGEST, MOST_AT_ONCE = 4096, 64


@keeps()
class Nobody(typing.NamedTuple):
    """Nobody is told an answer."""

    def __call__(self, answer):
        pass


@keeps()
class Asked(typing.NamedTuple):
    """A transaction that is under way: what is asked, in octets too, and who is told the answer, which another bridge tells where
    that takes this one's place."""

    command: Command
    octets: bytes
    told: object


@keeps(
    *("socket", "asked", "over", "number", "silent_since", "counts"),
    wired=("selector", "times", "settings", "seconds", "faults", "sayings"),
)
class Gateway:
    """A gateway, as who asks it knows it."""

    def __init__(self, selector, times, settings, seconds, met):
        """`settings` has its address, port and domain; `seconds` how long it may take to answer (`gateway`), and how long it
        is until it is asked again (`gateway-repeat`). `met` are the faults of the bridge that were met."""
        self.selector, self.times, self.settings, self.seconds, self.faults = selector, times, settings, seconds, met
        self.sayings = Sayings(times)
        self.asked = {}
        # transactions that are over: what was asked, and which connections of which endpoints were answered
        self.over = {}
        self.number = random.randrange(mgcp.MOST)
        # since when it doesn't answer; None where it does
        self.silent_since: Since | None = None
        self.counts = {"asked": 0, "asked again": 0, "not answered": 0, "refused": 0, "passed over": 0}
        family = socket.AF_INET6 if ":" in settings.address else socket.AF_INET
        self.socket = socket.socket(family, socket.SOCK_DGRAM)
        self.socket.setblocking(False)
        try:
            self.socket.connect((settings.address, settings.port))
        except OSError as error:
            raise OSError(f"{self}: {error.strerror}") from error

    def start(self):
        """Hears what comes."""
        self.selector.register(self.socket, selectors.EVENT_READ, lambda _mask: self.read())

    def resume(self):
        """Goes on with the times that another bridge has set."""
        for number in self.asked:
            if self.times.was_set(("gateway", number)):
                self.await_answer(number)
            if self.times.was_set(("gateway again", number)):
                self.await_repeat(number)
        for number in self.over:
            if self.times.was_set(("gateway over", number)):
                self.remember(number)

    def __str__(self):
        return f"the media gateway at {self.settings.address}, port {self.settings.port}"

    @property
    def any_endpoint(self):
        """The name that stands for an endpoint which the gateway chooses."""
        return f"rtpbridge/*@{self.settings.domain}"

    # What is asked

    def ask(self, command, told):
        """Asks something. `told` is given the answer, or None where none comes in time."""
        self.number = self.number % mgcp.MOST + 1
        number, octets = self.number, command.written(self.number)
        self.asked[number] = Asked(command, octets, told)
        self.counts["asked"] += 1
        self.await_answer(number)
        self.send(number)

    def await_answer(self, number):
        """The answer is waited for."""
        self.later("gateway", number, self.seconds["gateway"], self.give_up)

    def later(self, name, number, seconds, action):
        """Does something about a transaction later."""
        self.times.set((name, number), seconds, lambda: self.contain(number, lambda: action(number)))

    def contain(self, number, action):
        """Does something about a transaction. A fault of the bridge there ends this transaction alone, as if no answer came."""
        told = self.asked[number].told if number in self.asked else None
        try:
            action()
        except Exception as error:
            self.faults.tell(faults.GATEWAY, f"{self}, transaction {number}", error, "that one is given up")
            if number in self.asked:
                self.over_with(number, None)
            if told:
                told(None)

    def send(self, number):
        """Sends what is asked, and again after a while."""
        try:
            self.socket.send(self.asked[number].octets)
        except OSError:
            # nobody listens there now, or the system has no room: it is said again
            pass
        self.await_repeat(number)

    def await_repeat(self, number):
        """It is said again, unless it is answered before."""
        self.later("gateway again", number, self.seconds["gateway-repeat"], self.send_again)

    def send_again(self, number):
        """It isn't answered yet."""
        self.counts["asked again"] += 1
        self.send(number)

    def give_up(self, number):
        """It isn't answered in time."""
        self.counts["not answered"] += 1
        if not self.silent_since:
            self.say(f"doesn't answer in {self.seconds['gateway']:g} seconds")
            self.silent_since = Since()
        self.finish(number, None)

    def finish(self, number, answer):
        """A transaction is over, and who asked is told."""
        told = self.asked[number].told
        self.over_with(number, answer)
        told(answer)

    def over_with(self, number, answer):
        """A transaction is over."""
        asked = self.asked.pop(number)
        self.times.forget(("gateway", number))
        self.times.forget(("gateway again", number))
        self.over[number] = asked.command, {(answer.endpoint, answer.connection)} if answer else set()
        self.remember(number)

    def remember(self, number):
        """One that is over is remembered for a while."""
        self.times.set(("gateway over", number), REMEMBERED, lambda: self.over.pop(number, None))

    # What is answered

    def read(self):
        """Takes the datagrams that came."""
        for _ in range(MOST_AT_ONCE):
            try:
                octets = self.socket.recv(LONGEST)
            except OSError:
                # nothing more came, or nobody listens there
                return
            for answer in self.answers_in(octets):
                self.contain(answer.number, lambda answer=answer: self.take(answer))

    def answers_in(self, octets):
        """The answers of a datagram; none where it can't be read."""
        try:
            return mgcp.answers_in(octets)
        except mgcp.Unreadable as why:
            self.pass_over(str(why))
        except Exception as error:
            self.faults.tell(faults.GATEWAY, f"{self}, a datagram of {len(octets)} octets", error, "it is passed over")
        return []

    def take(self, answer):
        """Takes an answer."""
        if answer.number in self.over:
            self.take_late(answer)
        elif answer.number not in self.asked:
            self.pass_over(f"an answer to what wasn't asked, {answer.code} {answer.number}")
        elif answer.is_provisional:
            # it has it, and needn't be told again
            self.times.forget(("gateway again", answer.number))
        else:
            if self.silent_since:
                self.say("answers again")
            self.silent_since = None
            if not answer.is_done:
                self.counts["refused"] += 1
                self.say(f"answers {answer.code} to {self.asked[answer.number].command.verb.value}")
            self.finish(answer.number, answer)

    def take_late(self, answer):
        """Takes an answer to what is over. A gateway that was told the same twice may have made two connections; one that was
        given up has made one that nobody uses: these are deleted."""
        command, made = self.over[answer.number]
        if command.verb is not Verb.CREATE or not answer.is_done or (answer.endpoint, answer.connection) in made:
            return
        made.add((answer.endpoint, answer.connection))
        endpoint = answer.endpoint or command.endpoint
        if endpoint == self.any_endpoint or answer.connection is None:
            self.pass_over("a late answer without an endpoint or a connection")
            return
        self.say(f"made a connection that nobody uses, at {endpoint}: it is deleted")
        self.ask(Command(Verb.DELETE, endpoint, command.call, answer.connection), Nobody())

    def pass_over(self, what):
        """Something came that nobody takes."""
        self.counts["passed over"] += 1
        self.say(what)

    def say(self, text):
        """Says something of the gateway, unless too much was said of it."""
        self.sayings.say("gateway", f"{self}: {text}", Level.WARNING)

    def known(self):
        """What is known of it, in one line."""
        counts = ", ".join(f"{name} {count}" for name, count in self.counts.items())
        there = f"silent since {self.silent_since}" if self.silent_since else "not silent"
        return f"gateway: {there}; transactions: {len(self.asked)} open, {counts}"
