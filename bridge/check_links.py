"""Checks of the bridge: links, and what comes on them."""
import contextlib
import select
import signal
import socket
import statistics
import subprocess
import sys
import threading
import time

import ipa
import rsl
from harness import CHANNEL, FIRST, FOLDER, LIMIT, SECOND, SITE, SLOW, Unmet, is_kind, measured, must, namespaces
from station import TestStation

# How many calls show how long one waits alone; and how many seconds calls wait beside links that want much (docs/LIVE.md): the
# longest, and half of them.
FEW, LONGEST, USUAL = 9, 3.0, 0.3


def torn_frames(start, _room, _program):
    """Frames come octet by octet, and a thousand in one packet: none is lost."""
    bridge = start()
    station = bridge.station(FIRST)
    report = bytes.fromhex("0822010b")
    station.send(ipa.frame(0, report) * 3, piece=1)
    for _ in range(3):
        bridge.expect("^in abis 0 0 0822010b$")
    station.send(ipa.frame(0, report) * 1000)
    for _ in range(1000):
        bridge.expect("^in abis 0 0 0822010b$")
    bridge.end()


def other_units(start, _room, _program):
    """A unit that isn't known is refused, and a link that says nothing."""
    bridge = start("--patience", SLOW)
    stranger = TestStation(bridge.port, "1/2/3")
    must(stranger.await_end(), "the stranger's link stays")
    bridge.said.expect("unit 1/2/3 isn't known")
    silent = TestStation(bridge.port, None)
    must(silent.await_end(), "the silent link stays")
    bridge.said.expect("didn't say who it is")


def a_rival(start, _room, _program):
    """A second link of a unit takes its place where the first doesn't answer a ping, and not where it does."""
    bridge = start("--patience", 4 * SLOW)
    older = bridge.station(FIRST)
    rival = TestStation(bridge.port, FIRST)
    must(rival.await_end(), "the rival's link stays")
    bridge.said.expect("another link is this unit, and is there")
    bridge.ask("open 1 0 0 3")
    must(older.await_message(is_kind(rsl.ACTIVATION)), "the older link has no activation")
    bridge.expect("record 0/0/3 on$")
    older.answers_pings = False
    newer = bridge.station(FIRST)
    must(older.await_end(), "the older link stays")
    bridge.said.expect("this one doesn't answer")
    bridge.expect("^in abis 0 0 0824010b1a0120$")
    bridge.ask("clear 1")
    bridge.expect("^event released 0/0/3 -> done$")
    bridge.ask("open 2 0 0 3")
    must(newer.await_message(is_kind(rsl.ACTIVATION)), "the newer link has no activation")
    bridge.expect("record 0/0/3 on$")
    bridge.end()


def stalled_frames(start, _room, _program):
    """A station sends half a frame and stalls, or goes on so slowly that it comes to no end: its link is closed, and no other."""
    bridge = start("--patience", SLOW)
    one, other = bridge.station(FIRST), bridge.station(SECOND, trx=1)
    one.send(b"\x00\x20\x00\x02")
    must(one.await_end(), "the link stays")
    bridge.said.expect(f"a frame isn't whole after {SLOW} seconds")
    other.say(bytes.fromhex("0822010b"))
    bridge.expect("^in abis 1 1 0822010b$")
    one = bridge.station(FIRST)
    # a ping's answer would stand in the middle of a frame
    one.answers_pings = False
    one.send((2000).to_bytes(2, "big") + b"\x00")
    end = time.monotonic() + 5 * SLOW
    while one.is_there and time.monotonic() < end:
        with contextlib.suppress(OSError):
            one.send(b"\x08")
        time.sleep(0.2)
    must(not one.is_there, "the link stays as long as octets come")
    bridge.said.expect(f"a frame isn't whole after {SLOW} seconds")
    must(bridge.station(FIRST).is_there and other.is_there, "it can't come back, or another is gone")
    bridge.end()


def steady_frames(start, _room, _program):
    """What comes ends in the middle of a frame each time, but of another: the link stays, however long that goes on."""
    bridge = start("--patience", SLOW)
    station = bridge.station(FIRST)
    # a ping's answer would stand in the middle of a frame
    station.answers_pings = False
    report = ipa.frame(0, bytes.fromhex("0828010b"))
    begun = time.monotonic()
    station.send(report[:3])
    while time.monotonic() - begun < 2 * SLOW:
        station.send(report[3:] + report[:3])
        time.sleep(0.2)
    station.send(report[3:] + ipa.frame(0, bytes.fromhex("0828010c")))
    bridge.expect("^in abis 0 0 0828010c$")
    must(station.is_there, "the link is closed")
    bridge.end()


def bad_messages(start, _room, _program):
    """Octets that are no RSL, on other streams, of any length: named and counted, and nothing else is lost."""
    bridge = start()
    station = bridge.station(FIRST)
    for stream, message in [
        (0, b""),
        (0, b"\x02"),
        (0, bytes.fromhex("1019")),
        (0, bytes.fromhex("0c1200")),
        (0, bytes.fromhex("101c1a0161")),
        (0, b"\x08\x22" + bytes(65533)),
        (0, b"\x08\x22" + bytes(2000)),
        (0xFF, b"\x80\x80\x00\x00"),
        (3, b"\x08\x22\x01\x0b"),
        (ipa.OWN, b""),
        (ipa.OWN, b"\x77\x00"),
        (ipa.OWN, ipa.IDENTITY + b"\xff\xff\x08"),
        (ipa.OWN, ipa.PING),
        (0, bytes.fromhex("0822")),
        (0, bytes.fromhex("ff")),
    ]:
        station.frame(stream, message)
    must(station.await_message(lambda stream, message: (stream, message) == (ipa.OWN, ipa.PONG)), "no answer to a ping")
    bridge.expect("^in abis 0 0 08220000", "^fault abis 6$", "^in abis 0 0 0822$", "^fault abis")
    bridge.said.expect(r"ERROR REPORT, it took a message for wrong, cause 61 \(message type error\): 101c1a0161$")
    bridge.said.expect("a message of 65535 octets is passed over")
    bridge.end()
    named = "CCCH LOAD INDICATION 1, ERROR REPORT 1, RF RESOURCE INDICATION 1"
    bridge.said.expect(f"passed over: 02 1, {named}, empty 1, ff 1, stream 03 1, stream ff 1, too long 1")


def no_controller(start, _room, _program):
    """The controller stops: all links are closed, and its status is the bridge's."""
    bridge = start(core=("sh", "-c", "read line; exit 7"))
    station = bridge.station(FIRST)
    bridge.ask("open 1 0 0 3")
    must(station.await_end(), "the link stays")
    bridge.wait(7)
    bridge.said.expect("the controller ended with status 7")


def closed_output(start, _room, _program):
    """The controller closes its output, and goes on: it is killed in the end."""
    bridge = start(core=("sh", "-c", "exec >&-; sleep 1000"))
    bridge.said.expect("ends: the controller has ended")
    bridge.wait(1)
    bridge.said.expect("the controller doesn't end in 30 seconds, and is killed")


def two_signals(start, _room, _program):
    """The controller doesn't end where it should: a second signal kills it, and what it has begun."""
    bridge = start(core=("sh", "-c", "sleep 1000; echo never"))
    bridge.process.send_signal(signal.SIGTERM)
    bridge.said.expect("ends: signal 15")
    bridge.process.send_signal(signal.SIGINT)
    bridge.wait(1)
    bridge.said.expect("the controller ended with status -9")


def too_many_strangers(start, _room, _program):
    """Of over 256 links that haven't said who they are the oldest is closed, and no other."""
    bridge = start("--patience", "1000")
    strangers = [TestStation(bridge.port, None) for _ in range(257)]
    must(strangers[0].await_end(), "the oldest stays")
    bridge.said.expect("too many links haven't said who they are")
    bridge.station(FIRST)
    bridge.ask("stations")
    bridge.expect("^station 6969/0/0 .*there since")
    must(strangers[2].is_there and strangers[256].is_there, "another is closed")
    bridge.end()


def a_signal(start, _room, _program):
    """A signal ends the bridge, with the controller's last line."""
    bridge = start()
    station = bridge.station(FIRST)
    bridge.process.send_signal(signal.SIGTERM)
    bridge.expect("^end channels=0")
    must(station.await_end(), "the link stays")
    bridge.wait(0)


def many_messages(start, _room, _program):
    """Two stations send four thousand messages as fast as they can: none is lost."""
    bridge = start()
    one, other = bridge.station(FIRST), bridge.station(SECOND, trx=1)
    threads = [
        threading.Thread(target=station.send, args=(ipa.frame(station.trx, bytes.fromhex("0828010b")) * 2_000
            + ipa.frame(station.trx, bytes.fromhex("0828010c")),))
        for station in (one, other)
    ]
    for thread in threads:
        thread.start()
    for thread in threads:
        thread.join(LIMIT)
    bridge.ask("open 1 0 0 3")
    bridge.expect("record 0/0/3 on$")
    # the last of each station, in either order: what comes behind the end isn't given to the controller
    for place in ("0 0", "1 1"):
        bridge.out.find(f"^in abis {place} 0828010c$", 0)
    bridge.end()
    came = sum("in abis" in line and line.endswith(" 0828010b") for line in bridge.out.lines)
    must(came == 4_000, f"{came} messages came")


def early_answers(start, _room, _program):
    """A thousand answers that can't be read lie in front of the activation: none of them is taken for its answer."""
    bridge = start()
    station = bridge.station(FIRST)
    bridge.process.send_signal(signal.SIGSTOP)
    station.send(ipa.frame(0, bytes.fromhex("0822010b")) * 1_000)
    bridge.ask("open 1 0 0 3")
    bridge.process.send_signal(signal.SIGCONT)
    bridge.expect("^in abis 0 0 0822010b080000$", "record 0/0/3 on$")
    bridge.end()
    must(not any("can't be read" in line for line in bridge.said.lines), "one is taken for it")


def named_addresses(start, _room, _program):
    """A unit that is bound to an address comes from there alone."""
    bridge = start(stations=(FIRST + "@127.0.0.3,127.0.0.2=0/0",))
    stranger = TestStation(bridge.port, FIRST)
    must(stranger.await_end(), "the stranger's link stays")
    bridge.said.expect("unit 6969/0/0 may not come from 127.0.0.1")
    station = TestStation(bridge.port, FIRST, source="127.0.0.2")
    must(station.known.wait(LIMIT), "it isn't acknowledged")
    bridge.end()


def silent_station(start, _room, _program):
    """A station that is stopped answers no ping: its link is closed, and what stood open on it; another's stays."""
    bridge = start("--patience", SLOW)
    one, other = bridge.station(FIRST), bridge.station(SECOND, trx=1)
    bridge.ask("open 1 0 0 3")
    bridge.expect("record 0/0/3 on$")
    one.answers_pings = False
    begun = time.monotonic()
    bridge.said.expect(f"station 6969/0/0 .*nothing came for {SLOW} seconds")
    measured("a station that is silent is noticed", time.monotonic() - begun, f"with {SLOW} seconds of patience")
    must(one.await_end(), "the link stays")
    bridge.expect("^in abis 0 0 0824010b1a0120$", "^out a 1 000422040101$")
    other.say(bytes.fromhex("0822010b"))
    bridge.expect("^in abis 1 1 0822010b$")
    bridge.end()


def cut_cable(_start, room, program):
    """A station's cable is cut: that is noticed. It needs a namespace of networks."""
    script = [sys.executable, str(FOLDER / "cut_cable.py"), str(program), str(room)]
    ran = subprocess.run([*namespaces("--net"), *script], capture_output=True, text=True, timeout=LIMIT)
    must(ran.returncode == 0, f"it isn't noticed: {ran.stdout}{ran.stderr}")
    print(ran.stdout, end="")


def turns(start, _room, _program):
    """One station has sent a thousand messages, another one: that one is handled before all of the first are."""
    bridge = start()
    one, other = bridge.station(FIRST), bridge.station(SECOND, trx=1)
    for loud, quiet in ((one, other), (other, one)):
        bridge.process.send_signal(signal.SIGSTOP)
        loud.send(ipa.frame(loud.trx, bytes.fromhex("0822010b")) * 1_000)
        quiet.say(bytes.fromhex("0822010c"))
        bridge.process.send_signal(signal.SIGCONT)
        bridge.expect(f"^in abis {quiet.trx} {quiet.trx} 0822010c$", f"^in abis {loud.trx} {loud.trx} 0822010b$")
        bridge.ask(f"abis {loud.trx} {loud.trx} 0822010d")
        bridge.expect("^in abis . . 0822010d$")
    bridge.end()


def stuck_controller(start, _room, _program):
    """The controller reads nothing: nothing more is read from a station after a while, and its link stays."""
    bridge = start("--patience", "8", core=("sleep", "1000"))
    station = bridge.station(FIRST)
    message = ipa.frame(0, b"\x08\x22" + bytes(30_000))
    rest = b""
    for _ in range(5_000):
        if not select.select([], [station.socket], [], 5)[1]:
            break
        # of a message that was taken in part the rest goes first
        rest = rest or message
        with contextlib.suppress(BlockingIOError):
            rest = rest[station.socket.send(rest, socket.MSG_DONTWAIT) :]
    else:
        raise Unmet("150 MB are read")
    time.sleep(9)
    must(station.is_there, "the link is closed")
    bridge.process.send_signal(signal.SIGTERM)
    bridge.said.expect("ends: signal 15")
    bridge.process.send_signal(signal.SIGTERM)
    bridge.wait(1)


def late_answer(start, _room, _program):
    """An answer that lies in the socket counts, behind twenty thousand frames, though the time for it is over."""
    bridge = start("--answer", SLOW)
    station = bridge.station(FIRST)
    station.unanswered = {rsl.ACTIVATION}
    bridge.ask("open 1 0 0 3")
    must(station.await_message(is_kind(rsl.ACTIVATION)), "no activation")
    bridge.process.send_signal(signal.SIGSTOP)
    answer = rsl.channel_message(rsl.ACTIVATION_ACK, CHANNEL, b"\x08\x00\x00")
    station.send(ipa.frame(0, b"") * 20_000 + ipa.frame(0, answer))
    time.sleep(SLOW + 1)
    bridge.process.send_signal(signal.SIGCONT)
    bridge.expect("^in abis 0 0 0822010b080000$", "record 0/0/3 on$")
    bridge.end()
    must(not any("no answer" in line for line in bridge.said.lines), "its time was over")


def a_hundred_strangers(start, _room, _program):
    """A hundred strangers send empty frames as fast as they can, while calls go on: none waits long for its station, and little is
    said."""
    bridge = start()
    bridge.station(FIRST)
    alone = [a_call(bridge, 1000 + place) for place in range(FEW)]
    words = [sys.executable, FOLDER / "strangers.py", str(bridge.port), "100", "8"]
    with subprocess.Popen(words, stdout=subprocess.PIPE, text=True) as strangers:
        must(strangers.stdout.readline() == "there\n", "no strangers")
        there = time.monotonic()
        waits = []
        while strangers.poll() is None:
            waits.append(a_call(bridge, 1 + len(waits)))
        links = strangers.stdout.read().strip()
    measured(f"beside 100 strangers, {links}, the longest of {len(waits)} calls waits", max(waits), "for its station")
    bridge.end()
    must(not any("no answer" in line for line in bridge.said.lines), "a station seemed not to answer")
    not_longer(waits, alone)
    must(int(links.split()[0]) >= 200, f"strangers whose link is closed don't come again: {links}")
    bridge.said.find("a message before it said who it is: stream 00, empty, the link is closed$", 0)
    # of an address a hundred in ten seconds
    most = 200 + 10 * (time.monotonic() - there)
    must(len(bridge.said.lines) < most, f"{len(bridge.said.lines)} lines are said")


def a_call(bridge, number, place="0 0 3"):
    """A call begins and ends; how many seconds it waited for its station, at the longer of both."""
    channel, longest = place.replace(" ", "/"), 0.0
    for line, comes in ((f"open {number} {place}", f"record {channel} on$"), (f"clear {number}", f"released {channel} -> done$")):
        begun = time.monotonic()
        bridge.ask(line)
        bridge.expect(comes)
        longest = max(longest, time.monotonic() - begun)
    return longest


def not_longer(waits, alone):
    """Calls beside links that want much wait for their station no longer than LIVE says, half of them a good deal less; on a
    machine where they wait long alone, some times as long as that."""
    for what, found, most in (("the longest", max, LONGEST), ("the half of all", statistics.median, USUAL)):
        found, least = found(waits), statistics.median(alone)
        must(found < most + 10 * least, f"{what} calls wait {found:.2f} seconds for their station, alone {least:.2f}")


def stalled_strangers(start, _room, _program):
    """Strangers send a part of a frame and stall, or go on without end, an octet now and then: each link is closed once there is no
    patience any more, and calls notice nothing."""
    bridge = start("--patience", SLOW)
    station = bridge.station(FIRST)
    alone = [a_call(bridge, 1000 + place) for place in range(FEW)]
    begun, waits = time.monotonic(), []
    # a frame of so many octets that none of them comes to its end
    part = (2000).to_bytes(2, "big") + bytes([ipa.OWN]) + ipa.IDENTITY
    strangers = [TestStation(bridge.port, None) for _ in range(60)]
    for place, stranger in enumerate(strangers):
        stranger.send(part[: 1 + place % len(part)])
    while any(it.is_there for it in strangers) and time.monotonic() < begun + 5 * SLOW:
        waits.append(a_call(bridge, 1 + len(waits)))
        for stranger in strangers[::2]:
            with contextlib.suppress(OSError):
                stranger.send(b"\0")
        time.sleep(0.2)
    there = sum(it.is_there for it in strangers)
    must(there == 0, f"{there} links stay after {time.monotonic() - begun:.0f} seconds")
    measured("strangers that stall are gone after", time.monotonic() - begun, f"with {SLOW} seconds of patience")
    measured(f"beside 60 strangers that stall the longest of {len(waits)} calls waits", max(waits), "for its station")
    must(station.is_there, "the station's link is closed")
    bridge.end()
    not_longer(waits, alone)
    told = sum(f"didn't say who it is in {SLOW} seconds, the link is closed" in line for line in bridge.said.lines)
    must(told == len(strangers), f"{told} of {len(strangers)} are told to have said nothing")


def loud_station(start, _room, _program):
    """A station sends as fast as it can, while calls go on at another: links take turns."""
    bridge = start()
    loud, _ = bridge.station(FIRST), bridge.station(SECOND, trx=1)
    alone = [a_call(bridge, 1000 + place, "1 1 3") for place in range(FEW)]
    octets = ipa.frame(0, b"") * 500_000 + ipa.frame(0, bytes.fromhex("0822010b"))
    thread = threading.Thread(target=loud.send, args=(octets,))
    thread.start()
    waits = []
    while not any(line == "in abis 0 0 0822010b" for line in list(bridge.out.lines)):
        waits.append(a_call(bridge, 1 + len(waits), "1 1 3"))
    thread.join(LIMIT)
    measured(f"beside a loud station the longest of {len(waits)} calls waits", max(waits), "for its station")
    bridge.end()
    must(not any("no answer" in line for line in bridge.said.lines), "a station seemed not to answer")
    not_longer(waits, alone)
    bridge.said.expect("passed over: empty 500000")


def unheard_messages(start, _room, _program):
    """Messages for which the controller has no row are counted by name, and told where that is asked for."""
    bridge = start("--messages")
    station = bridge.station(FIRST)
    for message in ("0206010b0200", "0209010b0200", "0206010b0200", "0c1300", "0210"):
        station.say(bytes.fromhex(message))
    bridge.said.expect("ESTABLISH INDICATION, not for the controller: 0206010b0200$")
    bridge.said.expect("RELEASE INDICATION, not for the controller: 0209010b0200$")
    bridge.said.expect("CHANNEL REQUIRED, not for the controller: 0c1300$")
    bridge.said.expect(": 0210, not for the controller: 0210$")
    bridge.end()
    bridge.said.expect("passed over: 0210 1, CHANNEL REQUIRED 1, ESTABLISH INDICATION 2, RELEASE INDICATION 1$")
    must(bridge.out.lines == ["end channels=0 calls=0 references=0 timers=0"], "something was handed on")


def other_sites(start, room, program):
    """A unit whose cell or TRX the site lacks is refused at the start; a channel that a station refuses as wrong is told."""
    for place, why in (("2/0", "CELL is 0 to 1"), ("1/2", "TRX is 0 to 1 in cell 1")):
        words = [FOLDER / "abis", "--port", "0", f"{FIRST}={place}", "--", program, "live", SITE]
        ran = subprocess.run(words, cwd=room, stdin=subprocess.DEVNULL, capture_output=True, text=True, timeout=LIMIT)
        must(ran.returncode == 2 and why in ran.stderr, f"{place} is taken: {ran.stderr}")
    bridge = start()
    station = bridge.station(FIRST)
    station.unanswered = {rsl.ACTIVATION}
    bridge.ask("open 1 0 0 3")
    must(station.await_message(is_kind(rsl.ACTIVATION)), "no activation")
    station.say(bytes.fromhex("0823010b1a0164"))
    bridge.said.expect(r"refuses channel 0/0/3, cause 64 \(mandatory information element error\)")
    bridge.expect("^event refuse 0/0/3 -> owned 1$")
    bridge.end()


CHECKS = [
    torn_frames,
    other_units,
    a_rival,
    stalled_frames,
    steady_frames,
    bad_messages,
    no_controller,
    closed_output,
    two_signals,
    too_many_strangers,
    a_signal,
    many_messages,
    early_answers,
    named_addresses,
    silent_station,
    cut_cable,
    turns,
    stuck_controller,
    late_answer,
    unheard_messages,
    other_sites,
]
MEASURING = [a_hundred_strangers, stalled_strangers, loud_station]
