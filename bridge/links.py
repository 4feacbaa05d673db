"""Links of stations: who is at the other end, whether it is there still, and whose turn it is."""
import collections

import faults
import ipa
from page import keeps
from tell import Level, Sayings

# How many frames of a link are handled before others have their turn.
MOST_FRAMES = 64
# How many links may not have said yet who they are.
MOST_STRANGERS = 256
# In how many parts the patience with a silent link is divided: it is pinged in each. An older link of a unit has one of them
# to answer in.
PARTS = 4


@keeps("all", "behind", wired=("relay", "times", "close", "sayings", "unread", "due"))
class Links:
    """All links."""

    def __init__(self, relay, close):
        """`close` is told a link whose socket is to be closed."""
        self.relay, self.times, self.close = relay, relay.times, close
        self.sayings = Sayings(relay.times)
        self.all = {}
        # those that have frames left for their next turn
        self.behind = {}
        # what waits until all is handled that lay unread: by link up to which octet, and what is done then; and what is to be done
        # now
        self.unread = []
        self.due: collections.deque = collections.deque()

    @property
    def patience(self):
        """For how many seconds a link may be silent."""
        return self.relay.seconds["patience"]

    def begin(self, stream, address, peer):
        """A link begins. Where too many are strangers, the oldest of them ends."""
        link = Link(self, stream, address, peer)
        self.all[link] = None
        strangers = [it for it in self.all if it.station is None]
        if len(strangers) > MOST_STRANGERS:
            oldest = strangers[0]
            oldest.contain(lambda: oldest.refuse("too many links haven't said who they are"))
        link.contain(link.begin)
        return link

    def forget(self, link):
        """A link ends."""
        self.all.pop(link, None)
        self.behind.pop(link, None)
        for name in ("link", "ping", "rival"):
            self.times.forget((name, link))
        self.close(link)

    def take_turns(self):
        """Each link that has frames left has a turn."""
        for link in list(self.behind):
            link.contain(link.take_turn)

    def pause(self, is_busy):
        """Reads nothing of any link for a while, or goes on."""
        for link in self.all:
            link.stream.pause("busy", is_busy)

    def once_read(self, action, links=None):
        """Does something once all is handled that lies unread now, of some links, or else of all stations."""
        links = [it for it in self.all if it.station] if links is None else links
        ends = {link: link.reach() for link in links if link.is_unread()}
        if ends:
            self.unread.append((ends, action))
        else:
            action()

    def look(self):
        """Does what waited for what is handled now."""
        for ends, action in self.unread:
            for link in [it for it, end in ends.items() if it not in self.all or it.has_handled(end)]:
                del ends[link]
            if not ends:
                self.due.append(action)
        self.unread = [it for it in self.unread if it[0]]
        while self.due:
            self.due.popleft()()


@keeps(
    *("links", "relay", "times", "stream", "address", "peer", "frames", "station", "is_ending", "is_closed"),
    *("read", "taken", "taken_before", "silent", "asked"),
)
class Link:
    """A link of a TRX, which has to say who it is."""

    def __init__(self, links, stream, address, peer):
        """`address` is where it comes from, `peer` that with its port."""
        self.links, self.relay, self.times = links, links.relay, links.times
        self.stream, self.address, self.peer = stream, address, peer
        self.join()
        self.frames = ipa.Frames()
        self.station = None
        # whether it is at its end, and whether that is done with
        self.is_ending = self.is_closed = False
        # how many octets and how many frames came; how many frames when it was given a while last; and how many times in a row it
        # was pinged and nothing came
        self.read = self.taken = self.taken_before = 0
        self.silent = 0
        # another link that says it is this station, and waits for the answer to a ping
        self.asked: Link | None = None

    def join(self):
        """Is told what comes."""
        it = self.stream
        it.heard, it.ended, it.faulty = self.heard, self.ended, self.faulty
        it.watch()

    def resume(self):
        """Goes on with the times that another bridge has set."""
        if self.times.was_set(("link", self)):
            self.await_frame()
        if self.times.was_set(("ping", self)):
            self.await_ping()
        if self.times.was_set(("rival", self)):
            self.await_answer()

    def begin(self):
        """Asks the other side who it is."""
        self.be_patient()
        self.send(ipa.OWN, ipa.identity_request())

    def say(self, text, level=Level.NOTICE):
        """Says something of it."""
        self.links.sayings.say(self.station.unit if self.station else self.address, f"{self.station or self.peer}: {text}", level)

    def contain(self, action):
        """Does something of it. A fault of the bridge there ends this link alone."""
        try:
            action()
        except Exception as error:
            self.faulty(error)

    def faulty(self, error):
        """A fault was met. One that is met at the link's end isn't of the link alone: calls on it may be left open."""
        if self.is_ending:
            raise error
        self.relay.faults.tell(faults.STATION, self.station or self.peer, error, "the link is closed")
        self.ended()

    def later(self, name, seconds, action, gate=None):
        """Does something of it later."""
        self.times.set((name, self), seconds, lambda: self.contain(action), gate)

    def close(self):
        """Closes it. What it sent behind that isn't heard."""
        if not self.is_closed:
            self.is_ending = self.is_closed = True
            self.links.forget(self)

    def refuse(self, why):
        """Closes the link of a stranger."""
        self.say(f"{why}, the link is closed", Level.WARNING)
        self.close()

    def send(self, stream, message):
        """Sends a message."""
        self.stream.send(ipa.frame(stream, message))

    # What lies unread

    def reach(self):
        """How many octets have come by now, those that wait in the socket too."""
        return self.read + self.stream.readable()

    def handled(self):
        """Up to which octet its frames are taken."""
        return self.read - len(self.frames.octets)

    def is_unread(self):
        """Whether something of it isn't handled yet."""
        return self.frames.has_whole() or self.stream.readable() > 0

    def has_handled(self, end):
        """Whether all is handled that came up to an octet, half a frame aside."""
        return self.read >= end and not self.frames.has_whole()

    # What comes

    def heard(self, octets):
        """Takes octets that came."""
        self.frames.add(octets)
        self.read += len(octets)
        self.silent = 0
        self.take_turn()

    def take_turn(self):
        """Handles as many frames as a turn has. Nothing more is read while there are more."""
        turns = MOST_FRAMES
        while turns and "rival" not in self.stream.pauses and (frame := self.frames.next()):
            self.taken += 1
            self.take(*frame)
            turns -= 1
            if self.is_closed:
                return
        # one that waits until another link was asked has no turn before
        is_behind = self.frames.has_whole() and "rival" not in self.stream.pauses
        self.stream.pause("behind", is_behind)
        if is_behind:
            self.links.behind[self] = None
        else:
            self.links.behind.pop(self, None)
        if self.station:
            self.watch_frame()

    def watch_frame(self):
        """A frame that has begun has to end in time."""
        name = ("link", self)
        if not self.frames.is_torn():
            self.times.forget(name)
        elif not self.times.is_set(name):
            self.be_patient()

    def take(self, stream, message):
        """Takes a frame. A stranger's first has to say who it is."""
        if self.station:
            if stream == ipa.OWN:
                self.take_own(message)
            else:
                self.relay.receive(self.station, stream, message)
        elif stream == ipa.OWN and message[:1] == ipa.IDENTITY:
            self.identify(ipa.unit_in(message))
        else:
            self.refuse(f"a message before it said who it is: stream {stream:02x}, {message.hex() or 'empty'}")

    def take_own(self, message):
        """Takes a message of IPA's own, of a station that is known."""
        if message[:1] == ipa.PING:
            self.send(ipa.OWN, ipa.PONG)
        elif message[:1] == ipa.PONG:
            self.answer_ask(True)
        elif message[:1] == ipa.IDENTITY:
            self.say(f"says again who it is, as {ipa.unit_in(message)}")
        elif message[:1] != ipa.ACKNOWLEDGEMENT:
            self.say(f"no message of IPA that is known: {message.hex() or 'empty'}")

    # Who it is

    def identify(self, unit):
        """The other side says which unit it is."""
        station = self.relay.stations.get(unit)
        if station is None:
            self.refuse(f"unit {unit} isn't known")
        elif station.addresses and self.address not in station.addresses:
            self.refuse(f"unit {unit} may not come from {self.address}")
        elif station.link is None:
            self.become(station)
        elif station.link.asked:
            self.refuse(f"unit {unit}: another link says that too, and the first is asked just now")
        else:
            self.rival(station)

    def rival(self, station):
        """Another link is this station already: it is asked whether it is there still."""
        self.stream.pause("rival", True)
        self.times.forget(("link", self))
        station.link.ask(self)

    def decide(self, station, is_there):
        """Another link that is this station has answered, or hasn't."""
        if self.is_closed:
            return
        if is_there:
            self.refuse(f"unit {station.unit}: another link is this unit, and is there")
            return
        self.stream.pause("rival", False)
        if station.link:
            station.link.fail("another link says that it is this unit, and this one doesn't answer")
        self.become(station)
        # what it said behind that has its turn
        self.links.behind[self] = None

    def ask(self, rival):
        """Asks the other side whether it is there; another link that decides by that is told before long."""
        self.asked = rival
        self.send(ipa.OWN, ipa.PING)
        self.await_answer()

    def await_answer(self):
        """The other side has a while to answer."""
        self.later("rival", self.links.patience / PARTS, lambda: self.answer_ask(False), self.links.once_read)

    def answer_ask(self, is_there):
        """The other side has answered, or hasn't in time."""
        self.times.forget(("rival", self))
        rival, self.asked = self.asked, None
        if rival:
            rival.contain(lambda: rival.decide(self.station, is_there))

    def become(self, station):
        """It is the link of a station from now on."""
        self.times.forget(("link", self))
        self.station = station
        self.relay.come(station, self)
        self.send(ipa.OWN, ipa.ACKNOWLEDGEMENT)
        self.await_ping()

    # Whether it is there

    def await_ping(self):
        """It is pinged before long."""
        self.later("ping", self.links.patience / PARTS, self.ping)

    def ping(self):
        """Nothing may have come for a while: the other side is asked whether it is there. Where that was in vain for as long as
        there is patience, it isn't."""
        if self.stream.pauses:
            self.silent = 0
        elif self.silent < PARTS:
            self.send(ipa.OWN, ipa.PING)
            self.silent += 1
        elif not self.is_unread():
            self.fail(f"nothing came for {self.links.patience:g} seconds, no answer to a ping either")
        if not self.is_closed:
            self.await_ping()

    def be_patient(self):
        """The other side has a while to end a frame, its first in which it says who it is. What lies unread then counts."""
        self.taken_before = self.taken
        self.await_frame()

    def await_frame(self):
        """That while ends."""

        def once_read(action):
            self.links.once_read(action, [self])

        self.later("link", self.links.patience, self.lose_patience, once_read)

    def lose_patience(self):
        """The other side took too long. Where nothing was read from it meanwhile, or it is another frame that isn't whole, it
        has as long again."""
        if self.stream.pauses or self.taken > self.taken_before:
            self.be_patient()
        elif self.station:
            self.fail(f"a frame isn't whole after {self.links.patience:g} seconds")
        else:
            self.refuse(f"didn't say who it is in {self.links.patience:g} seconds")

    def fail(self, why):
        """The link of a station is closed."""
        self.say(f"{why}, the link is closed", Level.WARNING)
        self.ended()

    def ended(self):
        """No more comes."""
        if self.is_closed:
            return
        self.is_ending = True
        if self.station and self.station.link is self:
            self.relay.lose(self.station)
        elif not self.station:
            self.say("the link ended")
        self.close()
        self.answer_ask(False)
