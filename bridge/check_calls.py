"""Checks of the bridge: calls, their timers, and what stations leave open."""
import os
import re
import signal
import subprocess
import time

import rsl
from harness import CHANNEL, FIRST, LIMIT, SECOND, SITE, SLOW, child, is_kind, must
from station import TestStation


def a_call(start, room, program):
    """A call on the air is opened and cleared; the log is a script of which the same trace comes."""
    bridge = start("--log", "log")
    bridge.station(FIRST)
    bridge.ask("open 1 0 0 3")
    bridge.expect("^in open 1 0 0 3$", "^out abis 0 0 0821010b", "^in abis 0 0 0822010b080000$", "record 0/0/3 on$")
    bridge.ask("frobnicate")
    bridge.ask("# nothing")
    bridge.ask("clear 1")
    bridge.expect("^line 3$", "^out abis 0 0 082e010b$", "^in abis 0 0 0833010b$", "^event released 0/0/3 -> done$")
    bridge.end()
    bridge.said.expect("station 6969/0/0 .*messages: 2 came, 2 sent")
    log = room / "log"
    lines = [line for line in log.read_text().split("\n") if not line.startswith("#")]
    must(lines[0] == "open 1 0 0 3", "the log's first line")
    ran = subprocess.run([program, "run", SITE, log], capture_output=True, text=True, timeout=LIMIT)
    trace = [line for line in bridge.out.lines if not line.startswith("line ")]
    must(ran.stdout.split("\n")[:-1] == trace, f"run prints another trace:\n{ran.stdout}")


def a_handover(start, _room, _program):
    """A handover arrives: its timer is armed and disarmed, and it doesn't run out."""
    bridge = start("--t3103", SLOW)
    one, other = bridge.station(FIRST), bridge.station(SECOND, trx=1)
    bridge.ask("open 1 0 0 3")
    bridge.expect("record 0/0/3 on$")
    bridge.ask("handover 1 1")
    bridge.expect("^event command 1 -> done$", "^out abis 0 0 0301010b")
    must(one.await_message(lambda _s, message: message[:4] == bytes.fromhex("0301010b")), "no command at the station")
    other.say(bytes.fromhex("0302010b02000b0003062c00"))
    bridge.expect("^event complete 1 -> done$", "^event released 0/0/3 -> done$")
    time.sleep(SLOW + 1)
    bridge.end()
    must(not any("T3103" in line for line in bridge.out.lines), "the timer ran out")


def a_timer(start, _room, _program):
    """T3103 runs out: the handover is undone, and its channel released."""
    bridge = start("--t3103", "0.5")
    bridge.station(FIRST)
    bridge.station(SECOND, trx=1)
    bridge.ask("open 1 0 0 3")
    bridge.expect("record 0/0/3 on$")
    bridge.ask("handover 1 1")
    bridge.expect("^event command 1 -> done$", "^in expire 1 T3103$", "^event undo 1 t3103 -> record")
    bridge.expect("^event released 1/1/3 -> done$")
    bridge.end()


def a_timer_ends(start, _room, _program):
    """A handover is taken back: its timer doesn't run out any more."""
    bridge = start("--t3103", SLOW)
    bridge.station(FIRST)
    bridge.station(SECOND, trx=1)
    bridge.ask("open 1 0 0 3")
    bridge.expect("record 0/0/3 on$")
    bridge.ask("handover 1 1")
    bridge.expect("^event command 1 -> done$")
    bridge.ask("undo 1")
    bridge.expect("^event undo 1 asked -> record", "^event released 1/1/3 -> done$")
    time.sleep(SLOW + 1)
    bridge.ask("clear 1")
    bridge.expect("^event released 0/0/3 -> done$")
    bridge.end()
    must(not any("expire" in line for line in bridge.out.lines), "the timer ran out")


def timers_on_a(start, _room, _program):
    """T7 is armed where a call asks to leave, T8 in its place where it is ordered to, and that runs out."""
    bridge = start("--t7", "60", "--t8", "0.5")
    bridge.station(FIRST)
    bridge.ask("open 1 0 0 3")
    bridge.expect("record 0/0/3 on$")
    bridge.ask("handover 1 64")
    bridge.expect("^event require 1 -> done$", "^out a 1 ")
    bridge.ask("a 1 000c131709062bd5670ba36b2a05")
    bridge.expect("^event order 1 -> done$", "^in expire 1 T8$", "^event undo 1 t8 -> ")
    bridge.end()


def lost_activation(start, _room, _program):
    """A station doesn't answer an activation: it is refused in its place, the channel is released, and serves again."""
    bridge = start("--answer", SLOW)
    station = bridge.station(FIRST)
    station.unanswered = {rsl.ACTIVATION, rsl.RELEASE}
    bridge.ask("open 1 0 0 3")
    bridge.expect("^in abis 0 0 0823010b1a0120$", "^event refuse 0/0/3 -> owned 1$")
    must(station.await_message(is_kind(rsl.RELEASE)), "no release at the station")
    # what comes late isn't handed on
    station.say(rsl.channel_message(rsl.ACTIVATION_ACK, CHANNEL, b"\x08\x00\x00"))
    station.say(rsl.channel_message(rsl.RELEASE_ACK, CHANNEL))
    station.unanswered = set()
    bridge.ask("clear 1")
    bridge.expect("^event clear 1 -> done$")
    # both are taken, since what comes behind them is
    station.say(bytes.fromhex("0828010b"))
    bridge.expect("^in abis 0 0 0828010b$")
    bridge.ask("open 2 0 0 3")
    bridge.expect("^in abis 0 0 0822010b080000$", "record 0/0/3 on$")
    bridge.end()
    bridge.said.expect("passed over: late answer 2")
    must(not any("refused" in line for line in bridge.out.lines), "a late answer was handed on")


def unread_answer(start, _room, _program):
    """A station's answer to an activation is cut short, and the controller can't read it: it is refused in the station's place,
    once, and the channel is released."""
    bridge = start()
    station = bridge.station(FIRST)
    station.unanswered = {rsl.ACTIVATION, rsl.RELEASE}
    for call, answer in ((1, "0822010b"), (2, "0823010b")):
        bridge.ask(f"open {call} 0 0 3")
        bridge.expect(f"^event open {call} 0/0/3 -> done$", "^out abis 0 0 0821")
        must(station.await_message(is_kind(rsl.ACTIVATION), count=call), "no activation")
        station.say(bytes.fromhex(answer))
        bridge.expect("^fault abis", "^in abis 0 0 0823010b1a0120$", f"^event refuse 0/0/3 -> owned {call}$")
        must(station.await_message(is_kind(rsl.RELEASE), count=call), "no release at the station")
        station.say(rsl.channel_message(rsl.RELEASE_ACK, CHANNEL))
        for _ in range(2):
            station.say(bytes.fromhex(answer))
            bridge.expect("^fault abis")
        bridge.ask(f"clear {call}")
        bridge.expect(f"^event clear {call} -> done$")
    bridge.end()
    must(sum(line == "in abis 0 0 0823010b1a0120" for line in bridge.out.lines) == 2, "it is refused again")


def unread_and_released(start, _room, _program):
    """A station's answer to an activation can't be read, and the controller had the channel released before it came to that: the
    station is sent one release, and its one acknowledgement frees the channel."""
    bridge = start()
    station = bridge.station(FIRST)
    station.unanswered = {rsl.ACTIVATION, rsl.RELEASE}
    bridge.ask("open 1 0 0 3")
    must(station.await_message(is_kind(rsl.ACTIVATION)), "no activation")
    os.kill(child(bridge), signal.SIGSTOP)
    bridge.ask("clear 1")
    bridge.ask("stations")
    # the line in front of the view is given by then
    bridge.expect("^station 6969/0/0 ")
    station.say(bytes.fromhex("0822010b"))
    station.settle()
    os.kill(child(bridge), signal.SIGCONT)
    bridge.expect("^out abis 0 0 082e010b$", "^in abis 0 0 0822010b$", "^fault abis ")
    must(station.await_message(is_kind(rsl.RELEASE)), "no release at the station")
    station.say(rsl.channel_message(rsl.RELEASE_ACK, CHANNEL))
    bridge.expect("^event released 0/0/3 -> done$")
    bridge.ask("calls")
    bridge.expect("^no channel is in use$")
    bridge.end()
    must(station.count(is_kind(rsl.RELEASE)) == 1, "it is sent another release")


def lost_release(start, _room, _program):
    """A station doesn't acknowledge a release: that is done in its place, and nobody gets the channel before the station has, or
    its link has ended: an activation meanwhile is refused, nothing is sent, and `calls` says since when."""
    bridge = start("--answer", SLOW)
    station = bridge.station(FIRST)
    station.unanswered = {rsl.RELEASE}
    released, refused = "^event released 0/0/3 -> done$", "^in abis 0 0 0823010b1a0120$"
    for call in (1, 3):
        bridge.ask(f"open {call} 0 0 3")
        bridge.expect("record 0/0/3 on$")
        bridge.ask(f"clear {call}")
        bridge.expect("^in abis 0 0 0833010b$", released)
        bridge.said.expect(f"no answer about channel 0/0/3, which is releasing, in {SLOW} seconds$")
        bridge.ask("calls")
        bridge.expect("^channel 0/0/3: free; station: closing since [0-9:]+$")
        bridge.ask(f"open {call + 1} 0 0 3")
        bridge.expect(refused, f"^event refuse 0/0/3 -> owned {call + 1}$")
        bridge.said.expect("channel 0/0/3 isn't given: its release since [0-9:]+ isn't acknowledged$")
        bridge.ask(f"clear {call + 1}")
        bridge.expect(f"^event clear {call + 1} -> done$")
        station.settle()
        must(station.count(is_kind(rsl.ACTIVATION)) == 1, "it is sent an activation")
        if call == 1:
            station.leave()
            bridge.said.expect("its link is lost, with 1 channels$")
            station = bridge.station(FIRST)
            station.unanswered = {rsl.RELEASE}
    station.say(rsl.channel_message(rsl.RELEASE_ACK, CHANNEL))
    station.settle()
    bridge.ask("calls")
    bridge.expect("^no channel is in use$")
    station.unanswered = set()
    bridge.ask("open 5 0 0 3")
    bridge.expect("record 0/0/3 on$")
    bridge.ask("clear 5")
    bridge.expect(released)
    bridge.end()
    must("end channels=0 calls=0 references=0 timers=0" in bridge.out.lines, "something is left")


class LateStation(TestStation):
    """A station that keeps its answers about channels until it is let, and then refuses each second activation, and tells of each
    channel whether it has it on."""

    def __init__(self, *words):
        self.kept, self.asked, self.is_on = [], 0, False
        super().__init__(*words)
        self.unanswered = {rsl.ACTIVATION, rsl.RELEASE}

    def take(self, stream, message):
        """Keeps what it answers."""
        super().take(stream, message)
        kind = rsl.about_channel(message)
        if kind == (rsl.ACTIVATION, CHANNEL):
            self.asked += 1
            self.kept.append(rsl.ACTIVATION_ACK if self.asked == 1 else rsl.ACTIVATION_NACK)
        elif kind == (rsl.RELEASE, CHANNEL):
            self.kept.append(rsl.RELEASE_ACK)

    def answer(self):
        """Says all that it has kept, in its order."""
        elements = {rsl.ACTIVATION_ACK: b"\x08\x12\x34", rsl.ACTIVATION_NACK: b"\x1a\x01\x21", rsl.RELEASE_ACK: b""}
        kept, self.kept = self.kept, []
        for kind in kept:
            self.is_on = kind == rsl.ACTIVATION_ACK
            self.say(rsl.channel_message(kind, CHANNEL, elements[kind]))


def stale_answer(start, _room, _program):
    """A station doesn't answer an activation in time, so it is refused in its place, and released; the channel is opened again.
    Then come the answer to the first activation, that to the release, and a refusal of another, if there was one: station and book
    agree."""
    bridge = start("--answer", SLOW)
    station = LateStation(bridge.port, FIRST)
    must(station.known.wait(LIMIT), "it isn't acknowledged")
    bridge.ask("open 1 0 0 3")
    bridge.expect("^in abis 0 0 0823010b1a0120$", "^event refuse 0/0/3 -> owned 1$")
    must(station.await_message(is_kind(rsl.RELEASE)), "no release at the station")
    bridge.ask("clear 1")
    bridge.expect("^event clear 1 -> done$")
    bridge.ask("open 2 0 0 3")
    bridge.expect("^event open 2 0/0/3 -> done$", "^out abis 0 0 0821010b")
    # what is to be said in its place, or sent to it, is by then
    station.settle()
    station.answer()
    station.settle()
    # a line of which nothing comes: the controller has all by then
    bridge.ask("handover 65535 63")
    bridge.expect("^in handover 65535 63$")
    is_on = any(line == "event confirm 0/0/3 -> owned 2" for line in bridge.out.lines)
    must(not station.is_on and not is_on, f"the station has the channel on: {station.is_on}, the book: {is_on}")
    bridge.ask("clear 2")
    bridge.expect("^event clear 2 -> done$")
    bridge.ask("calls")
    bridge.expect("^no channel is in use$")
    station.unanswered = set()
    bridge.ask("open 3 0 0 3")
    bridge.expect("record 0/0/3 on$")
    bridge.end()


def lost_links(start, _room, _program):
    """A link is lost while a channel is activated, is on, is released: each is closed in the station's place."""
    bridge = start()
    station = bridge.station(FIRST)
    station.unanswered = {rsl.ACTIVATION, rsl.RELEASE}
    bridge.ask("open 1 0 0 3")
    must(station.await_message(is_kind(rsl.ACTIVATION)), "no activation")
    station.leave()
    bridge.said.expect("station 6969/0/0 .*its link is lost, with 1 channels")
    bridge.expect("^in abis 0 0 0823010b1a0120$", "^event refuse 0/0/3 -> owned 1$")
    bridge.ask("clear 1")
    bridge.expect("^event clear 1 -> done$")
    station = bridge.station(FIRST)
    station.unanswered = {rsl.RELEASE}
    bridge.ask("open 2 0 0 3")
    bridge.expect("record 0/0/3 on$")
    bridge.ask("clear 2")
    must(station.await_message(is_kind(rsl.RELEASE)), "no release")
    station.leave()
    bridge.expect("^in abis 0 0 0833010b$", "^event released 0/0/3 -> done$")
    station = bridge.station(FIRST)
    bridge.ask("open 3 0 0 3")
    bridge.expect("record 0/0/3 on$")
    station.leave()
    bridge.expect("^in abis 0 0 0824010b1a0120$")
    bridge.ask("clear 3")
    bridge.expect("^event clear 3 -> done$", "^event released 0/0/3 -> done$")
    bridge.end()
    must("end channels=0 calls=0 references=0 timers=0" in bridge.out.lines, "something is left")


def no_station(start, _room, _program):
    """A station that isn't there is answered for, and one of which no unit is named, too."""
    bridge = start(stations=(FIRST + "=0/0",))
    bridge.ask("open 2 1 1 3")
    bridge.expect("^in abis 1 1 0823010b1a0120$", "^event refuse 1/1/3 -> owned 2$")
    bridge.ask("open 1 0 0 3")
    bridge.expect("^in abis 0 0 0823010b1a0120$", "^event refuse 0/0/3 -> owned 1$")
    bridge.ask("stations")
    bridge.expect("^station 6969/0/0 .*not there")
    bridge.end()


# The end of a call at its station. CLEAR COMMAND with cause 09 (TS 48.008 clause 3.2.1.21); the messages are those that
# osmo-bsc sends a station at the end of a call, in its order.
CLEAR_COMMAND = "000420040109"
LEAVING = [bytes.fromhex(it) for it in ("0301010b02000b0003060d00", "0825010b", "082e010b")]
HAS_LEFT = bytes.fromhex("0209010b0200")


def sent_away(station):
    """Which messages a station was sent at the end of a call, in their order."""
    return [message for _, message in list(station.came) if message in LEAVING]


def mobile_leaves(start, _room, _program):
    """The mobile hears CHANNEL RELEASE, and has time to leave: RF CHANNEL RELEASE goes behind RELEASE INDICATION and T3111."""
    bridge = start("--t3109", "1000", "--t3111", "1")
    station = bridge.station(FIRST)
    bridge.ask("open 1 0 0 3")
    bridge.expect("record 0/0/3 on$")
    bridge.ask(f"a 1 {CLEAR_COMMAND}")
    bridge.expect("^out abis 0 0 0301010b02000b0003060d00$", "^out abis 0 0 082e010b$", "^out a 1 000121$")
    must(station.await_message(lambda _s, message: message == LEAVING[1]), "the slow channel goes on")
    time.sleep(0.5)
    bridge.ask("calls")
    bridge.expect("^channel 0/0/3: off since .*; station: leaving since [0-9:]*$")
    must(sent_away(station) == LEAVING[:2], "the channel is released before the mobile has left")
    begun = time.monotonic()
    station.say(HAS_LEFT)
    bridge.expect("^event released 0/0/3 -> done$")
    must(time.monotonic() - begun >= 1, "T3111 doesn't run")
    must(sent_away(station) == LEAVING, "the end of the call at the station")
    bridge.end()
    must("end channels=0 calls=0 references=0 timers=0" in bridge.out.lines, "something is left")


def mobile_leaves_again(start, _room, _program):
    """RELEASE INDICATION comes again and again: T3111 runs from the first."""
    bridge = start("--t3109", "1000", "--t3111", "1")
    station = bridge.station(FIRST)
    bridge.ask("open 1 0 0 3")
    bridge.expect("record 0/0/3 on$")
    bridge.ask(f"a 1 {CLEAR_COMMAND}")
    must(station.await_message(lambda _s, message: message == LEAVING[1]), "the slow channel goes on")
    for _ in range(200):
        station.say(HAS_LEFT)
        if station.await_message(is_kind(rsl.RELEASE), 0.2):
            break
    must(sent_away(station) == LEAVING, "T3111 runs anew each time")
    bridge.expect("^event released 0/0/3 -> done$")
    bridge.end()


def released_while_leaving(start, _room, _program):
    """The release is acknowledged before it was sent, by the station or by an operator: the next call keeps the channel."""
    bridge = start("--t3109", SLOW)
    station = bridge.station(FIRST)
    for call in (1, 2, 3):
        bridge.ask(f"open {call} 0 0 3")
        bridge.expect("record 0/0/3 on$")
        bridge.ask(f"a {call} {CLEAR_COMMAND}")
        bridge.expect(f"^out a {call} 000121$")
        if call == 1:
            station.say(rsl.channel_message(rsl.RELEASE_ACK, CHANNEL))
        elif call == 2:
            # the controller can't read what stands behind the channel
            station.say(rsl.channel_message(rsl.RELEASE_ACK, CHANNEL, b"\xdb\x50"))
        else:
            bridge.ask("abis 0 0 0833010b")
        bridge.expect("^event released 0/0/3 -> done$")
        bridge.ask("calls")
        bridge.expect("^no channel is in use$" if call < 3 else "^channel 0/0/3: free; station: leaving .*THEY DIFFER$")
    bridge.ask("open 4 0 0 3")
    bridge.expect("record 0/0/3 on$")
    time.sleep(SLOW + 1)
    bridge.ask("calls")
    bridge.expect("^channel 0/0/3: on for call 4 since [0-9:]+; station: on since [0-9:]+$")
    must(station.count(is_kind(rsl.RELEASE)) == 0, "the next call's channel is released")
    bridge.end()


def ended_while_leaving(start, _room, _program):
    """The bridge ends while a mobile has time to leave: its station is sent RF CHANNEL RELEASE yet."""
    bridge = start("--t3109", "1000")
    station = bridge.station(FIRST)
    bridge.ask("open 1 0 0 3")
    bridge.expect("record 0/0/3 on$")
    bridge.ask(f"a 1 {CLEAR_COMMAND}")
    bridge.expect("^out a 1 000121$")
    bridge.end()
    must(station.await_end(), "the link stays")
    must(sent_away(station) == LEAVING, "the channel isn't released")


def mobile_stays(start, _room, _program):
    """Nothing is heard of the mobile that is sent away: T3109 runs out."""
    bridge = start("--t3109", "1")
    station = bridge.station(FIRST)
    bridge.ask("open 1 0 0 3")
    bridge.expect("record 0/0/3 on$")
    begun = time.monotonic()
    bridge.ask(f"a 1 {CLEAR_COMMAND}")
    bridge.expect("^event released 0/0/3 -> done$")
    must(time.monotonic() - begun >= 1, "T3109 doesn't run")
    must(sent_away(station) == LEAVING, "the end of the call at the station")
    bridge.end()


def lost_while_leaving(start, _room, _program):
    """The link is lost while the mobile has time to leave: the release is acknowledged in the station's place, once."""
    bridge = start("--t3109", "1000")
    station = bridge.station(FIRST)
    bridge.ask("open 1 0 0 3")
    bridge.expect("record 0/0/3 on$")
    bridge.ask(f"a 1 {CLEAR_COMMAND}")
    must(station.await_message(lambda _s, message: message == LEAVING[1]), "the slow channel goes on")
    bridge.expect("^out abis 0 0 082e010b$")
    station.leave()
    bridge.expect("^in abis 0 0 0833010b$", "^event released 0/0/3 -> done$")
    bridge.end()
    must(sum("0833010b" in line for line in bridge.out.lines) == 1, "it is acknowledged again")


def released_at_once(start, _room, _program):
    """An operator's clear, a target that is undone and an old channel are released at once."""
    bridge = start("--t3109", "1000")
    one, other = bridge.station(FIRST), bridge.station(SECOND, trx=1)
    bridge.ask("open 1 0 0 3")
    bridge.expect("record 0/0/3 on$")
    bridge.ask("handover 1 1")
    bridge.expect("^event command 1 -> done$")
    bridge.ask("undo 1")
    bridge.expect("^event undo 1 asked -> record", "^event released 1/1/3 -> done$")
    bridge.ask("handover 1 1")
    bridge.expect("^event command 1 -> done$")
    other.say(bytes.fromhex("0302010b02000b0003062c00"))
    bridge.expect("^event complete 1 -> done$", "^event released 0/0/3 -> done$")
    bridge.ask("clear 1")
    bridge.expect("^event released 1/1/3 -> done$")
    bridge.end()
    must(not any(LEAVING[1] in (it for _, it in station.came) for station in (one, other)), "a mobile was sent away")


def lost_while_moving(start, _room, _program):
    """The serving channel is lost during an attempt: that is told again at its end, and CLEAR REQUEST said again until the call
    is cleared, here since there is no centre."""
    bridge = start("--t3103", "1000", "--repeat", "1", "--clear-lost", SLOW)
    one, _ = bridge.station(FIRST), bridge.station(SECOND, trx=1)
    bridge.ask("open 1 0 0 3")
    bridge.expect("record 0/0/3 on$")
    bridge.ask("handover 1 1")
    bridge.expect("^event command 1 -> done$")
    one.say(bytes.fromhex("0824010b1a0101"))
    bridge.expect("^in abis 0 0 0824010b1a0101$", "^event look 1 -> record 0/0/3 on internal commanded")
    bridge.said.expect("call 1: its channel 0/0/3 is lost while it moves")
    bridge.ask("undo 1")
    bridge.expect("^event undo 1 asked", "^in abis 0 0 0824010b1a0120$", "^out a 1 000422040101$")
    bridge.ask("calls")
    bridge.expect("^channel 0/0/3: on for call 1 since", "^call 1: its channel is lost since .* CLEAR REQUEST was sent")
    bridge.expect("^in abis 0 0 0824010b1a0120$", "^out a 1 000422040101$", "^in clear 1$", "^event released 0/0/3 -> done$")
    bridge.ask("calls")
    bridge.expect("^no channel is in use$")
    bridge.end()


def lost_and_expired(start, _room, _program):
    """The serving channel is lost during an attempt, over and over, and T3103 runs out: the controller itself sends CLEAR REQUEST,
    once. It is said again where it isn't answered, and no more once the call is cleared. What is said is bounded."""
    bridge = start("--t3103", SLOW, "--repeat", SLOW, "--t3109", "0.1")
    one, _ = bridge.station(FIRST), bridge.station(SECOND, trx=1)
    bridge.ask("open 1 0 0 3")
    bridge.expect("record 0/0/3 on$")
    bridge.ask("handover 1 1")
    bridge.expect("^event command 1 -> done$")
    for _ in range(300):
        one.say(bytes.fromhex("0824010b1a0101"))
    bridge.expect("^event undo 1 t3103 -> record", "^out a 1 000422040100$")
    begun = time.monotonic()
    bridge.expect("^in abis 0 0 0824010b1a0120$", "^out a 1 000422040101$")
    must(time.monotonic() - begun > 1.5, "it is told twice")
    bridge.ask(f"a 1 {CLEAR_COMMAND}")
    bridge.expect("^event clear 1 -> done$", "^event released 0/0/3 -> done$")
    bridge.ask("open 1 0 0 3")
    bridge.expect("record 0/0/3 on$")
    seen = len(bridge.out.lines)
    time.sleep(SLOW + 1)
    bridge.ask("calls")
    bridge.expect("^channel 0/0/3: on for call 1 since")
    bridge.end()
    must(not any("0824010b" in line for line in bridge.out.lines[seen:]), "another call is told to be lost")
    must(len(bridge.said.lines) < 150, f"{len(bridge.said.lines)} lines are said")


def lost_and_arrived(start, _room, _program):
    """The serving channel is lost during an attempt, and the mobile arrives: nothing is told again."""
    bridge = start("--t3103", "1000", "--repeat", "0.5")
    one, other = bridge.station(FIRST), bridge.station(SECOND, trx=1)
    bridge.ask("open 1 0 0 3")
    bridge.expect("record 0/0/3 on$")
    bridge.ask("handover 1 1")
    bridge.expect("^event command 1 -> done$")
    one.say(bytes.fromhex("0824010b1a0101"))
    bridge.said.expect("call 1: its channel 0/0/3 is lost while it moves")
    other.say(bytes.fromhex("0302010b02000b0003062c00"))
    bridge.expect("^event complete 1 -> done$", "^event released 0/0/3 -> done$")
    time.sleep(1)
    bridge.end()
    must(sum("0824" in line for line in bridge.out.lines) == 1, "the failure is told again")


def strays(start, _room, _program):
    """A station has a channel that is free in the book: it is sent RF CHANNEL RELEASE, once, and that is told."""
    bridge = start()
    station = bridge.station(FIRST)
    station.unanswered = {rsl.RELEASE}
    for _ in range(3):
        # HANDOVER FAILURE of a mobile there (TS 44.018 clause 9.1.17)
        station.say(bytes.fromhex("0302010b02000b0003062801"))
        bridge.expect("^event owner 0/0/3 -> refused 8 0/0/3$")
    bridge.said.expect("has channel 0/0/3, which is free here")
    must(station.await_message(is_kind(rsl.RELEASE)), "no release")
    station.say(rsl.channel_message(rsl.RELEASE_ACK, CHANNEL))
    station.unanswered = set()
    station.say(rsl.channel_message(rsl.ACTIVATION_ACK, 0x0A, b"\x08\x00\x00"))
    bridge.said.expect("has channel 0/0/2, which is free here")
    must(station.await_message(is_kind(rsl.RELEASE, 0x0A)), "no release of the other")
    must(station.count(is_kind(rsl.RELEASE)) == 1, "it was released again")
    # an operator's own line says nothing of the station
    bridge.ask("abis 0 0 0822010b080000")
    bridge.expect("^event confirm 0/0/3 -> refused 8 0/0/3$")
    bridge.ask("open 1 0 0 3")
    bridge.expect("record 0/0/3 on$")
    bridge.end()
    must(station.count(is_kind(rsl.RELEASE)) == 1, "it was released for an operator's line")
    must(not any("0833" in line for line in bridge.out.lines), "an acknowledgement was handed on")


def stray_while_activated(start, _room, _program):
    """A channel is free in the book by an operator's lines while its station is to activate it: what that says releases it, and
    its answer isn't awaited any more."""
    bridge = start("--answer", SLOW)
    station = bridge.station(FIRST)
    station.unanswered = {rsl.ACTIVATION}
    bridge.ask("open 1 0 0 3")
    must(station.await_message(is_kind(rsl.ACTIVATION)), "no activation")
    bridge.ask("abis 0 0 0823010b1a0120\nclear 1")
    bridge.expect("^event refuse 0/0/3 -> owned 1$", "^event clear 1 -> done$")
    station.say(bytes.fromhex("0302010b02000b0003062801"))
    bridge.expect("^event owner 0/0/3 -> refused 8 0/0/3$")
    must(station.await_message(is_kind(rsl.RELEASE)), "no release")
    time.sleep(SLOW + 1)
    bridge.ask("calls")
    bridge.expect("^no channel is in use$")
    bridge.end()
    must(not any("no answer" in line for line in bridge.said.lines), "its answer is awaited")


def names_of_causes(_start, room, program):
    """The bridge calls the causes on Abis (TS 48.058 clause 9.3.26) as the program does, and knows those that have a name there."""
    failures = [f"abis 0 0 0824010b1a01{number:02x}\n" for number in range(128)]
    (room / "script").write_text("open 7 0 0 3\n" + "".join(failures))
    words = [program, "run", SITE, room / "script", "--words"]
    ran = subprocess.run(words, capture_output=True, text=True, timeout=LIMIT)
    told = re.findall(r"^in abis 0 0 0824010b1a01(..) # call 7; .* cause=\d+; (.*)$", ran.stdout, re.M)
    names = {int(number, 16): name for number, name in told}
    must(list(names) == list(range(128)), f"the program tells {len(names)} causes: {ran.stdout[:300]} {ran.stderr}")
    wanted = {number: name for number, name in names.items() if name != "reserved"}
    must(rsl.CAUSES == wanted and len(wanted) == 33, f"the bridge has {rsl.CAUSES}, the program {wanted}")


CHECKS = [
    a_call,
    names_of_causes,
    a_handover,
    a_timer,
    a_timer_ends,
    timers_on_a,
    lost_activation,
    unread_answer,
    unread_and_released,
    lost_release,
    stale_answer,
    lost_links,
    no_station,
    mobile_leaves,
    mobile_leaves_again,
    released_while_leaving,
    ended_while_leaving,
    mobile_stays,
    lost_while_leaving,
    released_at_once,
    lost_while_moving,
    lost_and_expired,
    lost_and_arrived,
    strays,
    stray_while_activated,
]
