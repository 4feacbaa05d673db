"""The speech of calls. A call that speaks has an endpoint of the media gateway, with a connection to its station and one to
the centre: the centre doesn't see on which station the call is. While the call moves, the station of its target has a
connection too, and the gateway is told to speak with that one once the mobile is there (HANDOVER DETECTION).

What is to be and what the gateway was told are compared after each step; of an endpoint one thing is asked at a time. So
nothing is in the wrong order, however long an answer takes.
"""
from __future__ import annotations

import enum
import secrets
import typing

import ipacc
import rsl
from bssmap import Cause
from mgcp import Command, Verb
from page import keeps
from rtp import Address, codec_of
from tell import Level, say

if typing.TYPE_CHECKING:
    from arrivals import Arrivals
    from assignment import Assignments
    from gateway import Gateway

# The stages of an attempt in which its target is on (docs/BOOK.md).
TARGET_ON = ("confirmed", "commanded", "detected")
# HANDOVER COMMAND (TS 44.018, 9.1.15): protocol discriminator and type.
HANDOVER_COMMAND = b"\x06\x2b"


@keeps()
class Stage(enum.Enum):
    """How far a station is with a channel's speech: asked where it has it, has said so, was told where the gateway has it, and
    has taken that."""

    ASKED = enum.auto()
    KNOWN = enum.auto()
    TOLD = enum.auto()
    JOINED = enum.auto()


# What a station may say at each stage; one that is asked may end the connection before that one.
AWAITED = {
    Stage.ASKED: (ipacc.Type.CREATED, ipacc.Type.NOT_CREATED),
    Stage.KNOWN: (ipacc.Type.ENDED,),
    Stage.TOLD: (ipacc.Type.MODIFIED, ipacc.Type.NOT_MODIFIED, ipacc.Type.ENDED),
    Stage.JOINED: (ipacc.Type.ENDED,),
}


@keeps("channel", "codec", "stage", "connection", "local")
class Leg:
    """A channel's speech at its station: the connection's number, and where the station has it."""

    def __init__(self, channel):
        self.channel, self.codec = channel, codec_of(channel.number)
        self.stage = Stage.ASKED
        self.connection = self.local = None


@keeps("connection", "local", "told", "wanted")
class Side:
    """A connection of an endpoint: where the gateway has it, where the gateway was told that the other side has it, and where
    that has it now."""

    def __init__(self):
        self.connection = self.local = self.told = self.wanted = None


@keeps(
    *("talk", "name", "endpoint", "station", "centre", "legs", "at", "is_asking", "is_there", "is_over", "waiter", "held"),
)
class Speech:
    """The speech of a call, under a name that no other has."""

    def __init__(self, talk, name):
        self.talk, self.name = talk, name
        self.endpoint = None
        self.station, self.centre = Side(), Side()
        # by channel; and the channel where the mobile is
        self.legs, self.at = {}, None
        # whether the gateway was asked something and hasn't answered; whether there has been speech; whether the call goes on
        # without, or has ended
        self.is_asking = self.is_there = self.is_over = False
        # who waits until there is speech: by `joined` he is told that there is, by `fail` with a cause that there can't be any
        self.waiter: Assignments | Arrivals | None = None
        # a HANDOVER COMMAND that waits until the target has speech
        self.held = None

    def who_waits(self):
        """Who waits, if anybody does; he is told once."""
        found, self.waiter = self.waiter, None
        return found


@keeps()
class SideTold(typing.NamedTuple):
    """Is told what the gateway answers about a side of a call's speech; `remote` is where that knows the other side then."""

    media: Media
    speech: Speech
    side: Side
    remote: Address | None

    def __call__(self, answer):
        self.media.answered(self.speech, self.side, self.remote, answer)


@keeps()
class DeletionTold(typing.NamedTuple):
    """Is told what the gateway answers where an endpoint is to be deleted."""

    media: Media
    endpoint: str

    def __call__(self, answer):
        self.media.deleted(self.endpoint, answer)


@keeps("run", "last", "all", "legs", wired=("relay", "times", "seconds", "gateway"))
class Media:
    """The speech of all calls. `relay` has stations and calls; whoever makes it gives it a `gateway`."""

    def __init__(self, relay, times, seconds):
        self.relay, self.times, self.seconds = relay, times, seconds
        self.gateway: Gateway
        # names: of this run of the bridge, and the last one of a call
        self.run, self.last = secrets.token_hex(6), 0
        self.all = set()
        self.legs = {}

    def resume(self):
        """Goes on with the times that another bridge has set."""
        for speech in self.all:
            if self.times.was_set(("audit", speech.name)):
                self.await_audit(speech)
        for channel, speech in self.legs.items():
            if self.times.was_set(("speech", channel)):
                self.await_answer(speech, speech.legs[channel])

    # What is asked

    def begin(self, talk, centre, waiter):
        """A call is to have speech, which the centre has there. `waiter` is told once there is, or that there can't be (Speech). A
        call that has speech already goes on with it, by the new address."""
        if talk.speech is None:
            self.last += 1
            talk.speech = Speech(talk, f"{self.run}{self.last:x}")
            self.all.add(talk.speech)
        speech = talk.speech
        speech.centre.wanted = centre
        speech.waiter = waiter
        self.follow(talk)

    def follow(self, talk):
        """Something became of a call's channels: its speech goes where it is."""
        speech, place = talk.speech, self.relay.talks.place(talk)
        if speech is None:
            return
        if place is None:
            self.end(talk)
            return
        has_target = place.stage in TARGET_ON
        channels = [it for it in (place.serving, place.target if has_target else None) if it]
        for channel in set(speech.legs) - set(channels):
            self.forget_leg(speech, channel)
        if not has_target:
            speech.held = None
        is_there = place.serving is None or place.stage == "detected"
        speech.at = place.target if is_there else place.serving
        for channel in channels:
            if channel not in speech.legs:
                self.create(speech, channel)
        self.go_on(speech)

    def end(self, talk):
        """A call has no speech any more, or isn't there any more: its endpoint is deleted."""
        speech, talk.speech = talk.speech, None
        if speech is None:
            return
        for channel in list(speech.legs):
            self.forget_leg(speech, channel)
        speech.is_over, speech.held = True, None
        self.times.forget(("audit", speech.name))
        speech.who_waits()
        self.go_on(speech)

    def drop(self, talk):
        """A call goes on without speech: its station is told too. A mobile that was to wait for speech is sent away now."""
        held = talk.speech.held
        for leg in talk.speech.legs.values():
            if leg.connection is not None:
                self.tell(leg.channel, ipacc.delete(leg.channel.number, leg.connection))
        self.end(talk)
        if held:
            self.relay.send(*held)

    def leave(self):
        """The bridge ends: all endpoints are deleted, and no answer is waited for."""
        for speech in list(self.all):
            if speech.endpoint and not speech.is_over:
                self.delete(speech)

    def known(self):
        """What is known of speech, in one line."""
        return f"speech: {len(self.all)} endpoints; {self.gateway.known()}"

    # Endpoints

    def go_on(self, speech):
        """Does the next thing for an endpoint, if there is one."""
        if speech.is_over:
            if not speech.is_asking:
                self.delete(speech)
            return
        leg = speech.legs.get(speech.at)
        if leg and leg.local:
            speech.station.wanted = leg.local
        self.tell_legs(speech)
        if speech.is_asking:
            return
        for side in (speech.centre, speech.station):
            if side.wanted != side.told:
                self.ask(speech, side)
                return
        if leg and leg.stage is Stage.JOINED:
            self.be_there(speech)

    def be_there(self, speech):
        """A call has the speech that it is to have. Now and then the gateway is asked about that: one that began anew doesn't
        know the connection, of which nobody would hear otherwise."""
        speech.is_there = True
        self.await_audit(speech)
        if waiter := speech.who_waits():
            waiter.joined(speech.talk)

    def await_audit(self, speech):
        """The gateway is asked after a while."""
        self.times.set(("audit", speech.name), self.seconds["gateway-audit"], lambda: self.audit(speech))

    def audit(self, speech):
        """Looks whether the gateway has a call's speech still, by a command that changes nothing."""
        side = speech.station
        if not speech.is_asking:
            self.put(speech, side, Command(Verb.MODIFY, speech.endpoint, speech.name, side.connection), side.told)

    def ask(self, speech, side):
        """Asks the gateway for a connection, or tells it where the other side has it now."""
        verb = Verb.MODIFY if side.connection else Verb.CREATE
        endpoint, remote = speech.endpoint or self.gateway.any_endpoint, side.wanted
        command = Command(verb, endpoint, speech.name, side.connection, codec_of(speech.at.number), remote)
        self.put(speech, side, command, remote)

    def put(self, speech, side, command, remote):
        """Asks the gateway something of a side; `remote` is where it knows the other side then."""
        speech.is_asking = True
        self.gateway.ask(command, SideTold(self, speech, side, remote))

    def answered(self, speech, side, remote, answer):
        """The gateway has answered, or hasn't."""
        speech.is_asking = False
        if answer and answer.is_done and not side.connection:
            speech.endpoint = speech.endpoint or answer.endpoint
            side.connection, side.local = answer.connection, answer.local
        if speech.is_over:
            self.go_on(speech)
        elif answer is None and side.told == remote:
            # it was asked nothing new: it is asked again later
            self.go_on(speech)
        elif answer is None:
            self.fail(speech, side, Cause.EQUIPMENT_FAILURE)
        elif not answer.is_done:
            self.fail(speech, side, Cause.NO_TERRESTRIAL_RESOURCE)
        elif not speech.endpoint or not side.connection or not side.local:
            say(f"{self.gateway}: makes a connection, and doesn't say which, or where", Level.WARNING)
            self.fail(speech, side, Cause.EQUIPMENT_FAILURE)
        else:
            side.told = remote
            self.go_on(speech)

    def fail(self, speech, side, cause):
        """A call can't have the speech that it is to have, for one side's sake. Where it had some, it goes on with that by the
        centre's old place; without its station's it has lost it."""
        is_lost = speech.is_there and side is speech.station
        for it in (speech.centre, speech.station):
            it.wanted = it.told
        if waiter := speech.who_waits():
            waiter.fail(speech.talk, cause)
        if is_lost and not speech.is_over:
            say(f"{speech.talk}: its speech is lost", Level.WARNING)
            self.relay.a_side.ask_to_clear(speech.talk, Cause.EQUIPMENT_FAILURE)

    def delete(self, speech):
        """Deletes an endpoint, where there is one."""
        self.all.discard(speech)
        if speech.endpoint:
            endpoint, speech.endpoint = speech.endpoint, None
            self.gateway.ask(Command(Verb.DELETE, endpoint, speech.name), DeletionTold(self, endpoint))

    def deleted(self, endpoint, answer):
        """The gateway has deleted an endpoint, or hasn't answered."""
        if answer is None:
            say(f"{self.gateway}: {endpoint} may be left there", Level.WARNING)

    # Stations

    def tell(self, channel, message):
        """Tells a station something of a channel's speech."""
        if station := self.relay.places.get((channel.cell, channel.trx)):
            self.relay.pass_on(station, message)

    def create(self, speech, channel):
        """Asks a station where it has a channel's speech."""
        leg = speech.legs[channel] = Leg(channel)
        self.legs[channel] = speech
        self.tell(channel, ipacc.create(channel.number, leg.codec))
        self.await_answer(speech, leg)

    def tell_legs(self, speech):
        """Tells stations where the gateway has the call, once that is known."""
        for leg in speech.legs.values():
            if leg.stage is Stage.KNOWN and speech.station.local:
                leg.stage = Stage.TOLD
                self.tell(leg.channel, ipacc.modify(leg.channel.number, leg.connection, leg.codec, speech.station.local))
                self.await_answer(speech, leg)

    def await_answer(self, speech, leg):
        """A station has to answer in time."""
        name, seconds = ("speech", leg.channel), self.seconds["answer"]
        self.times.set(name, seconds, lambda: self.leg_failed(speech, leg, f"doesn't answer in {seconds:g} seconds"))

    def heard(self, station, message):
        """A station says something of a channel's speech."""
        said = ipacc.said_in(message)
        channel = said and station.channel(said.channel)
        speech = self.legs.get(channel)
        if said is None:
            station.pass_over("a message of speech that is cut")
        elif speech is None:
            station.pass_over("a message of speech of no call")
            if said.type is ipacc.Type.CREATED:
                # it answers what was given up: it would refuse the next one
                self.tell(channel, ipacc.delete(said.channel, said.connection))
        elif said.type in AWAITED[speech.legs[channel].stage]:
            station.came += 1
            self.take(speech, speech.legs[channel], said)
        elif said.type not in (ipacc.Type.DELETED, ipacc.Type.NOT_DELETED):
            station.pass_over(f"a message of speech that isn't awaited, {said.type:02x}")

    def take(self, speech, leg, said):
        """Takes what is awaited of a station."""
        self.times.forget(("speech", leg.channel))
        if said.type is ipacc.Type.CREATED:
            leg.connection, leg.local, leg.stage = said.connection, said.local, Stage.KNOWN
            if leg.local:
                self.go_on(speech)
            else:
                self.leg_failed(speech, leg, "doesn't say where it has it")
        elif said.type is ipacc.Type.MODIFIED:
            leg.stage = Stage.JOINED
            self.joined(speech, leg)
        else:
            self.leg_failed(speech, leg, f"says {said.type.name.lower().replace('_', ' ')}, cause {said.cause or 'missing'}")

    def joined(self, speech, leg):
        """A station has taken where the gateway has the call."""
        place, held = self.relay.talks.place(speech.talk), speech.held
        if held and place.target == leg.channel:
            speech.held = None
            self.relay.send(*held)
        self.go_on(speech)

    def leg_failed(self, speech, leg, why):
        """A station can't have a channel's speech. A mobile isn't sent where there is none."""
        say(f"{speech.talk}: speech on channel {leg.channel}: its station {why}", Level.WARNING)
        self.times.forget(("speech", leg.channel))
        place = self.relay.talks.place(speech.talk)
        if leg.channel == speech.at:
            self.fail(speech, speech.station, Cause.EQUIPMENT_FAILURE)
        elif place and leg.channel == place.target:
            self.relay.give(b"undo %d" % speech.talk.number)
        else:
            # the mobile is on its target: should it come back, the station is asked again
            self.forget_leg(speech, leg.channel)

    def forget_leg(self, speech, channel):
        """A call has a channel no more."""
        del speech.legs[channel]
        if self.legs.get(channel) is speech:
            del self.legs[channel]
            self.times.forget(("speech", channel))

    # A mobile that is sent away

    def holds(self, cell, trx, message):
        """Whether a message to a station waits: a HANDOVER COMMAND of a call with speech whose target has none yet."""
        if not (on_link := rsl.on_main_link(message)) or on_link[0] != rsl.DATA_REQUEST or message[9:11] != HANDOVER_COMMAND:
            return False
        talk = self.relay.talks.on(rsl.Channel(cell, trx, on_link[1]))
        leg = talk and talk.speech and talk.speech.legs.get(self.relay.talks.place(talk).target)
        if not leg or leg.stage is Stage.JOINED:
            return False
        talk.speech.held = cell, trx, message
        return True
