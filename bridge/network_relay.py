"""The bridge of a network: that of stations, joined by the switching centre and by calls that begin on the air."""
from __future__ import annotations

import collections
import dataclasses
import re
import typing

import access
import barring
import figures
import ipacc
import link_layer
import rsl
from a_side import ASide
from air import Air
from arrivals import Arrivals
from assignment import Assignments
from barring import BAR, UNBAR, Barring
from ciphering import Ciphering
from information import Information
from link_layer import SHORT_LINK
from media import Media
from operators import HELP, Operator
from page import keeps
from paging import Paging
from relay import Relay
from reports import report_in
from rsl import Channel
from stations import MOST_NAMES
from talks import Talks
from tell import Level, say

if typing.TYPE_CHECKING:
    from frames import Frames

# A message to the centre about a call.
SAID = re.compile(rb"out a (\d+) ([0-9a-f]*)")
# Lines of operators that name a call; and what they ask of the network.
NAMING = (b"open", b"seize", b"handover", b"undo", b"clear", b"a", b"expire")
NETWORK = [b"network"]
HELP_OF_NETWORK = "network: the controller and its journal, the centre, what became of calls, speech and the media gateway"
# Events of a call by which something changes here.
FOLLOWED = ("open", "take", "command", "order", "complete", "undo", "left", "clear")
# What a station says of a link.
OF_LINKS = (
    rsl.ESTABLISH_INDICATION,
    rsl.ESTABLISH_CONFIRM,
    rsl.RELEASE_INDICATION,
    rsl.RELEASE_CONFIRM,
    rsl.ERROR_INDICATION,
)
# Events behind which a call's speech may be elsewhere.
SPEECH_MOVES = ("confirm", "command", "detect", "complete", "undo", "clear", "left")
# The number of a call, which has five digits at most.
NUMBER = re.compile(rb"0*(\d{1,5})")


@keeps(
    "passed",
    wired=(
        *("config", "plmn", "talks", "information", "barring", "a_side", "air", "paging", "media", "assignments", "ciphering"),
        *("arrivals", "frames"),
    ),
)
class NetworkRelay(Relay):
    """Stations on one side, the centre on the other, and the controller between them."""

    def __init__(self, config, times, seconds):
        super().__init__(config.stations, times, seconds)
        self.config, self.plmn = config, config.plmn
        self.talks = Talks(self.calls)
        self.information = Information(config.plmn, config.broadcast)
        self.barring = Barring(self.information, self.broadcast)
        self.a_side = ASide(self, times, seconds)
        self.air = Air(self, times, seconds, config)
        self.paging = Paging(self, times, seconds, config)
        self.media = Media(self, times, seconds)
        self.assignments = Assignments(self, times, seconds)
        self.ciphering, self.arrivals = Ciphering(self), Arrivals(self)
        # whoever makes it gives it what counts frames of speech
        self.frames: Frames
        # what the centre sent that nobody takes
        self.passed: collections.Counter = collections.Counter()

    def parts(self):
        """Its parts that another bridge takes over."""
        own = ("talks", "information", "a_side", "air", "paging", "media", "assignments", "arrivals")
        air = {name: getattr(self.air, name) for name in ("short", "admission", "rejections")}
        return {**super().parts(), **{name: getattr(self, name) for name in own}, **air, "gateway": self.media.gateway}

    def resume(self):
        """Goes on with the times that another bridge has set."""
        super().resume()
        for it in (self.a_side, self.air, self.paging, self.media, self.media.gateway, self.assignments):
            it.resume()

    def count(self, what):
        """Counts something of the centre that nobody takes; the first of a kind is told."""
        if what not in self.passed and len(self.passed) >= MOST_NAMES:
            what = "others"
        if what not in self.passed:
            say(f"A: {what}", Level.WARNING)
        self.passed[what] += 1

    def forget(self, talk):
        """A call is at its end on all sides."""
        self.air.settle(talk)
        self.air.short.forget(talk)
        self.a_side.outgoing.forget(talk)
        self.media.end(talk)
        self.assignments.forget(talk)
        self.times.forget(("clearing", talk.number))
        self.talks.forget(talk)

    # Other settings

    def take_settings(self, settings, numbers):
        """Takes other settings: stations are sent what differs in what their mobiles are told."""
        before = {station.unit: self.messages_of(station) for station in self.stations.values() if station.link}
        self.air.renumber(numbers)
        self.paging.renumber(numbers)
        super().take_settings(settings, numbers)
        new, was_barred = settings.config, self.information.barred_by(self.config.broadcast)
        self.config.take(new)
        self.seconds.update(new.timers)
        self.plmn = self.information.plmn = new.plmn
        self.information.broadcast = new.broadcast
        if (barred := self.information.barred_by(new.broadcast)) != was_barred:
            self.information.barred = barred
        for station in self.stations.values():
            for message in self.messages_of(station) if station.link else ():
                if message not in before.get(station.unit, ()):
                    self.pass_on(station, message)
        return dataclasses.replace(settings, config=dataclasses.replace(self.config, cells=list(self.config.cells)))

    def messages_of(self, station):
        """What a station's mobiles are told."""
        return list(self.information.messages(self.config.cells[station.cell], station.trx))

    # Operators

    def give(self, line, giver="bridge", answered=None):
        """Gives the controller a line. Numbers of calls in lines of operators aren't given to others."""
        if isinstance(giver, Operator) and giver.is_served:
            words = line.split()
            if words == NETWORK:
                giver.tell(*self.again.known(), self.known(), self.access_known(), f"{self.media.known()}; {self.frames.known()}")
                return
            if words and words[0] in (BAR, UNBAR):
                self.barring.take(giver, line)
                return
            if len(words) > 1 and words[0] in NAMING and (number := NUMBER.fullmatch(words[1])):
                self.talks.reserved.add(int(number[1]))
        super().give(line, giver, answered)

    def known(self):
        """What is known of the network, in one line."""
        counts, talks = self.a_side.counts, self.talks.by_number.values()
        there = "there" if self.a_side.is_there else f"not there since {self.a_side.since}"
        awaited = sum(talk.is_awaited for talk in talks)
        return (
            f"centre: {there}; calls: {len(talks)}, of which {awaited} await a mobile;"
            f" began on the air: {counts['connections']}; came by handover: {counts['handovers']};"
            f" the centre began anew: {counts['resets']};"
            f" {self.paging.known()}; passed over: {sum(self.passed.values())}"
        )

    def access_known(self):
        """What is known of who may ask for a channel, in one line."""
        admission = self.air.admission
        waiting = sum(admission.waiting(it.number) for it in self.config.cells)
        kept = f"kept for emergency calls in each cell: {self.config.emergency_reserve}"
        return f"access: {self.barring.known()}; {kept}; requests that wait: {waiting}"

    def help(self):
        """The lines that operators may give."""
        return [*HELP[:-1], HELP_OF_NETWORK, *barring.HELP, HELP[-1]]

    def of_mobile(self, number):
        """Whose a call is, as the centre named him, and how far away he asked, in words."""
        talk = self.talks.by_number.get(number)
        identity = f", {talk.identity}" if talk and talk.identity else ""
        return identity + (f", timing advance {talk.request.delay}" if talk and talk.request else "")

    def of_speech(self, channel):
        """How many frames of speech were counted on a channel, in words."""
        speech = self.media.legs.get(channel)
        return self.frames.of(speech) if speech and speech.at == channel else ""

    def note_report(self, station, message):
        """A report of a channel came. A mobile that hears its own cell as another's is told."""
        super().note_report(station, message)
        cell = self.config.cells[station.cell]
        carriers = sorted(cell.neighbours, key=lambda it: (it == 0, it))
        for place, colours in report_in(message).neighbours:
            if place < len(carriers) and (carriers[place], colours) == (cell.bcch, cell.colours):
                self.notices.swapped(station, carriers[place], colours)

    # The controller

    def reserve(self, number):
        """A number of a call isn't to be given to another."""
        self.talks.reserved.add(number)

    def act(self, line):
        """Does what a line of the controller says."""
        super().act(line)
        if said := SAID.fullmatch(line):
            self.a_side.hear(int(said[1]), bytes.fromhex(said[2].decode()))

    def follow(self, event):
        """An event was asked of the book."""
        super().follow(event)
        if event.name in SPEECH_MOVES and event.reply != "refused":
            number = event.said[0] if event.reply == "owned" else event.about
            if number.isdecimal() and (talk := self.talks.by_number.get(int(number))):
                self.media.follow(talk)
        if event.name in ("confirm", "refuse") and event.reply == "owned":
            number = int(event.said[0])
            # a target's answer is no matter of who began on the air
            if Channel.of(event.about) == self.talks.serving(self.talks.of(number)):
                self.followed(event.name, number)
        elif event.name in FOLLOWED and event.reply != "refused":
            self.followed(event.name, int(event.about))
            if event.name == "undo" and event.said[2:4] == ["outgoing", "ordered"] and isinstance(self.giver, Operator):
                self.a_side.outgoing.taken_back(self.talks.of(int(event.about)))

    def followed(self, event, number):
        """An event has changed something of a call."""
        talk = self.talks.of(number)
        talk.is_over = self.talks.place(talk) is None
        if event == "confirm":
            self.air.activated(talk)
        elif event == "refuse":
            self.air.refused(talk)
        elif event in ("command", "order"):
            self.air.short.sent_away(talk)
        elif event == "undo":
            self.a_side.outgoing.over(talk)
            self.air.undone(talk)
            self.assignments.settled(talk)
        elif event in ("complete", "left", "clear"):
            self.air.settled(talk)
            self.air.short.arrived(talk)
            self.assignments.settled(talk)
        if talk.is_over:
            self.air.settle(talk)
            self.air.short.forget(talk)
            self.assignments.forget(talk)
            self.a_side.over(talk, event != "clear")

    # Stations

    def send(self, cell, trx, message):
        """Sends a station a message of the controller. Where a mobile is awaited, its channel has a timing advance from the
        first burst on, or a distant one would be ordered to none. A mobile that speaks isn't sent where there is no speech yet.
        """
        if self.media.holds(cell, trx, message):
            return
        about = rsl.about_channel(message)
        if about and about[0] == rsl.ACTIVATION:
            talk = self.talks.on(Channel(cell, trx, about[1]))
            if talk and talk.is_awaited:
                message = access.with_advance(message, talk.request.delay)
        super().send(cell, trx, message)

    def receive(self, station, stream, message):
        """Takes a message of a station: what begins a call, or goes between mobile and centre, isn't the controller's."""
        message_type, number = rsl.about_channel(message) or (None, None)
        if stream != station.trx:
            super().receive(station, stream, message)
        elif access.is_required(message):
            station.came += 1
            self.air.required(station, message)
        elif ipacc.is_of_speech(message):
            self.media.heard(station, message)
        elif said := link_layer.said_in(message):
            self.receive_said(station, said, message)
        elif message_type == rsl.MEASUREMENT_RESULT and not self.air.takes_report(station, number):
            self.note_report(station, message)
            station.pass_over("MEASUREMENT RESULT before its call has speech")
        else:
            super().receive(station, stream, message)

    def receive_said(self, station, said, message):
        """Takes a message of the radio link layer."""
        if said.type == rsl.DATA_INDICATION:
            self.air.heard(station, said, message)
        elif said.link == SHORT_LINK and said.type in OF_LINKS:
            self.air.short.hear(station, self.talks.on(station.channel(said.channel)), said)
        elif said.type == rsl.ESTABLISH_INDICATION:
            self.air.established(station, said)
        else:
            self.hand_on(station, message)
            if said.type == rsl.RELEASE_INDICATION:
                self.air.left(station, said)

    def hand_on(self, station, message):
        """Does with a message what the bridge of stations does."""
        super().receive(station, station.trx, message)

    def come(self, station, link):
        """A station is there: it is told what its cell's mobiles are to know."""
        super().come(station, link)
        for message in self.messages_of(station):
            self.pass_on(station, message)

    def broadcast(self):
        """All stations are told anew what they broadcast."""
        for station in self.stations.values():
            if station.trx == 0:
                for message in self.information.broadcast_messages(self.config.cells[station.cell]):
                    self.pass_on(station, message)

    def figures(self):
        """The figures of all that is known (figures.py)."""
        return [*super().figures(), *figures.of_network(self), self.barring.figures()]

    def tell_all(self):
        """Says what is known of each station and of the centre."""
        super().tell_all()
        say(self.known(), Level.INFO)
        say(self.media.known(), Level.INFO)
        for what, count in sorted(self.passed.items()):
            say(f"A: {what}: {count}", Level.INFO)
