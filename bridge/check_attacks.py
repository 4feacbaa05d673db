"""Checks of the bridge: what peers do to end it (links that fail while they are used, the centre's identity requests, characters
that terminals obey). Each ends that peer's link alone, or nothing."""
import socket
import struct
import subprocess
import sys
import unicodedata

import ipa
import rsl
from centre import ACKNOWLEDGED, ASKED, TestCentre
from harness import CHANNEL, FIRST, FOLDER, LIMIT, SLOW, Asker, must
from network_harness import FIRST as FIRST_OF_NETWORK
from network_harness import clear, register
from speech_harness import ASSIGN, failed, start_call
from station import TestStation

# A refusal of a channel as one that the station isn't set up for: the bridge tells that.
REFUSAL = rsl.channel_message(rsl.ACTIVATION_NACK, CHANNEL, b"\x1a\x01\x64")
# What a terminal obeys: it turns red.
RED = "\x1b[31m"


def identity(unit):
    """What a station answers that is asked who it is."""
    text = unit.encode() + b"\0"
    return ipa.frame(ipa.OWN, ipa.IDENTITY + (len(text) + 1).to_bytes(2, "big") + bytes([ipa.UNIT]) + text)


def rival_that_leaves(bridge, first, unit, is_reset):
    """Another link says that it is a station which is asked just now, says something behind that, and is closed, or reset, while
    the station is asked, which doesn't answer."""
    first.answers_pings = False
    with socket.create_connection(("127.0.0.1", bridge.port), LIMIT) as rival:
        rival.sendall(identity(unit) + ipa.frame(0, REFUSAL))
        must(first.await_message(lambda stream, message: (stream, message) == (ipa.OWN, ipa.PING)), "the first isn't asked")
        if is_reset:
            rival.setsockopt(socket.SOL_SOCKET, socket.SO_LINGER, struct.pack("ii", 1, 0))
    bridge.said.expect(f"station {unit} .*: another link says that it is this unit, and this one doesn't answer")
    must(first.await_end(), "the link that doesn't answer stays")
    bridge.said.expect(f"station {unit} .*: there, from ")
    bridge.said.expect(f"station {unit} .*: its link is lost")


def dying_rival(start, _room, _program):
    """A link claims a unit, and answers no ping; another claims it, too, says something, and is closed or reset while the first is
    asked: its link ends, and calls go on."""
    for is_reset in (True, False):
        bridge = start("--patience", 4 * SLOW)
        other = bridge.station("6970/0/1", trx=1)
        bridge.ask("open 1 1 1 3")
        bridge.expect("record 1/1/3 on$")
        rival_that_leaves(bridge, bridge.station(FIRST), FIRST, is_reset)
        must(other.is_there and bridge.station(FIRST).is_there, "another link is closed")
        bridge.ask("open 2 0 0 3")
        bridge.expect("record 0/0/3 on$")
        bridge.end()


def dying_rival_of_a_network(start, _room, _program):
    """The same in a network, where a station that comes is told more."""
    for is_reset in (True, False):
        run = start(patience=4 * SLOW)
        rival_that_leaves(run, run.begin(), FIRST_OF_NETWORK, is_reset)
        run.stations.clear()
        station = run.station(FIRST_OF_NETWORK)
        clear(run, station, *register(run, station))
        run.end()


class LeavingCentre(TestCentre):
    """A centre whose first links ask who is there, acknowledge, and are closed."""

    def __init__(self):
        self.left = 20
        super().__init__()

    def frame(self, *frames):
        """What it asks first, it says with the acknowledgement, and closes."""
        if frames != (ASKED,) or not self.left:
            super().frame(*frames)
            return
        self.left -= 1
        super().frame(ASKED, ACKNOWLEDGED)
        self.socket.close()


def leaving_centre(start, _room, _program):
    """The centre's side asks who is there, acknowledges, and closes its link, again and again: each time the bridge opens another,
    and the first that stays is used."""
    run = start(centre=LeavingCentre(), patience=SLOW)
    station = run.begin()
    must(run.centre.left == 0, f"{run.centre.left} links were not opened")
    clear(run, station, *register(run, station))
    run.end()


class CuriousCentre(TestCentre):
    """A centre that asks for 32,000 things, of two kinds."""

    def frame(self, *frames):
        """What it asks first is more."""
        super().frame(*(b"\xfe\x04" + b"\x01\x08\x01\x01" * 16_000 if it == ASKED else it for it in frames))


def curious_centre(start, _room, _program):
    """The centre's side asks who is there for 32,000 things: each kind of them is answered once."""
    run = start(centre=CuriousCentre())
    station = run.begin()
    # each with its length in front: the unit (08), and the name (01)
    told = b"\xfe\x05" + b"\x00\x07\x080/0/0\0" + b"\x00\x09\x01as-bsc1\0"
    must(run.centre.names == [told], f"it is told {run.centre.names}")
    clear(run, station, *register(run, station))
    run.end()


def obeyed(lines):
    """Lines with characters that a terminal obeys, or that can't be seen."""
    return [line for line in lines if any(unicodedata.category(it)[0] == "C" for it in line)]


def red_gateway(start, _room, _program):
    """A gateway names endpoints by characters that a terminal obeys: in no line do these stand, be it of a late answer, or of an
    endpoint that may be left there."""
    run = start(gateway=SLOW, **{"gateway-repeat": 0.3})
    station = run.begin()
    run.gateway.changed_answer = lambda text: text.replace("Z: rtpbridge/", f"Z: {RED}rtpbridge/")
    call = start_call(run, station)
    run.gateway.unanswered = {"CRCX", "DLCX"}
    run.centre.data(call.connection, ASSIGN)
    failed(call, "20")
    # now it answers, too late, and doesn't answer that what it made is deleted
    run.gateway.unanswered = {"DLCX"}
    with run.gateway.changed:
        for _, text in list(run.gateway.came):
            run.gateway.take(text)
    run.said.expect(r"made a connection that nobody uses, at .*rtpbridge/1@mgw: it is deleted")
    # and it makes one that is used, of which the same holds
    run.centre.data(call.connection, ASSIGN)
    run.gateway.expect(r"CRCX \d+ \S*\x1b\S* .*")
    clear(run, station, call.number, call.connection)
    run.said.expect("rtpbridge/[0-9]+@mgw may be left there")
    run.end()
    must(not obeyed(run.said.lines), f"it is told {obeyed(run.said.lines)}")


def red_stations(start, room, _program):
    """A station says that it is a unit by such characters, as many as a frame has; an operator asks by them: in no line do they
    stand, and none is longer than a page."""
    odd = RED + "\a\b\r\x7f\x9b2J\u202e"
    bridge = start("--control", "control")
    for unit in (odd, odd * 3_000):
        stranger = TestStation(bridge.port, unit)
        must(stranger.await_end(), "the stranger's link stays")
        bridge.said.expect("isn't known")
    operator = Asker(room / "control")
    operator.ask(f"open {RED}1 0 0 3\nsim {RED}\n")
    operator.expect("^refused: sim ")
    lines = [*operator.leave(), *bridge.said.lines]
    must(any(line.startswith("refused: open ") for line in lines), "the operator isn't told")
    must(not obeyed(lines), f"it is told {obeyed(lines)}")
    must(max(map(len, lines)) < 5_000, "a line is longer")
    bridge.process.terminate()
    bridge.wait(0)


def all_characters(_start, _room, _program):
    """Whatever is told, in no line does a character stand that a terminal obeys, or that can't be seen, and it stays one line."""
    text = "".join(map(chr, [*range(0x20), *range(0x7F, 0xA0), 0x2028, 0x2029, 0x202E, 0x2066, 0xD800, 0xFEFF, 0xE0001]))
    words = f"import tell; tell.say({text!r} + 'end'); tell.ERRORS.finish(60)"
    ran = subprocess.run([sys.executable, "-c", words], cwd=FOLDER, capture_output=True, timeout=LIMIT)
    line = ran.stderr.decode()
    must(ran.returncode == 0 and line.count("\n") == 1 and line.endswith("end\n"), f"it says {line!r}")
    must(not obeyed([line[:-1]]), f"it says {line!r}")


CHECKS = [dying_rival, red_stations, all_characters]
OF_NETWORK = [dying_rival_of_a_network, leaving_centre, curious_centre, red_gateway]
