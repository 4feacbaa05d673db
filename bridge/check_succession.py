"""Checks of the bridge: another one takes its place, in the same process (succession.py), while calls begin, speak, move and end.
Neither stations, the centre, the gateway, operators nor the controller notice more than a wait."""
import json
import os
import re
import signal
import sys
import threading
import time

from check_again import OFTEN, bridge_with, compare, controller, journaled, played, program_that, told
from check_again_network import UNHURRIED, Script, a_call, a_registration
from check_m3ua import begun, started
from check_moves import begin_moving
from harness import FIRST, FOLDER, LIMIT, SECOND, SITE, Asker, Lines, child, children, must
from load import LoadStation, SpeakingCentre
from network_harness import ACCEPT, COMPLETE, NOTHING, UPDATE
from network_harness import SECOND as OTHER_CELL
from network_harness import assigned, burst, clear, down, emptied, leave, said, say, sent, up
from speech_harness import ASSIGN, SERVICE, Call, assigned_speech, deleted, take_mode, told_mode
from station import TestStation
from stream import Times

# What is said once another bridge goes on, and what is told where none does.
GOES_ON = "bridge upgrade: .* goes on in the bridge's place"
REFUSED = r"refused: bridge upgrade .*: "
# How often bridges follow one another under load, and with links that are looked at.
OFTEN_IN_A_ROW, TEN = 100, 10
# How long what is printed may wait there, in seconds, and how often it is asked for much of it.
SHORTLY, MANY = 3.0, 100
# A unit that says late who it is.
LATE = "6971/0/0"
# A controller that has half of a line printed, and the rest once there is a file `go`.
HALVED = """#!{python}
import os, subprocess, sys, time
run = subprocess.Popen(["{program}", *sys.argv[1:]], stdout=subprocess.PIPE)
while octets := os.read(run.stdout.fileno(), 1 << 16):
    at = octets.find(b"event open 1") + 8
    if at > 8:
        os.write(1, octets[:at])
        while not os.path.exists("go"):
            time.sleep(0.01)
        octets = octets[at:]
    os.write(1, octets)
sys.exit(run.wait())
"""
# A program that does something with the page which it is given, or with its state, and then is the bridge.
CHANGING = """#!{python}
import os, pathlib, sys
sys.dont_write_bytecode = True
sys.path.insert(0, "{folder}")
import page
path = pathlib.Path(sys.argv[sys.argv.index("--takes-over") + 1])
text = path.read_text()
state = page.read(text)
{change}
path.write_text(text)
os.execv("{folder}/abis", sys.argv)
"""
# What is done with a page, and why it isn't taken.
BROKEN = (
    ('text = text[: len(text) // 2]', "it is no page of a bridge"),
    ('text = "[]"', "it is no page of a bridge"),
    ('text = text.replace("gofnild bridge", "another bridge", 1)', "it is no page of a bridge"),
    ('text = text.replace(\'"version": 1\', \'"version": 2\', 1)', "it has version 2, and this bridge knows version 1"),
    ('text = text.replace(\'"is_garbled": false\', \'"is_garbled": true\', 1)', "it is damaged: its checksum isn't that of its state"),
    ('del state["parts"]["relay"]["line"]', "relay has other attributes than here: line"),
    ('state["parts"]["relay"]["newer"] = 1', "relay has other attributes than here: newer"),
    ('del state["parts"]["tallies"]', "it has other parts than this bridge: tallies"),
    ('state["objects"][0]["is"] = "station.Newer"', "station.Newer isn't known here"),
    ('state["times"].append(["newer", 1.0])', "a time that isn't known here: newer"),
    ('state["parts"]["bridge"]["clients"] = {"set": 5}', "it can't be understood: TypeError"),
    ('state["parts"]["bridge"]["core"] = {"object": 999}', "it can't be understood: IndexError"),
)


def upgrade(bridge, count=1):
    """Another bridge takes its place, so many times: the process and those that it has begun are the same."""
    for _ in range(count):
        before, at = children(bridge.process.pid), len(bridge.said.lines)
        bridge.ask("bridge upgrade")
        bridge.said.find(GOES_ON, at)
        must(children(bridge.process.pid) == before, f"its processes were {before}, and are {children(bridge.process.pid)}")


def refused(bridge, program, why):
    """A program doesn't take the bridge's place."""
    at = len(bridge.said.lines)
    bridge.ask(f"bridge upgrade {program}")
    bridge.said.find(REFUSED + re.escape(why), at)


def in_the_middle_of_a_script(start, room, program):
    """A call moves, comes back and ends, and another bridge takes the place once each line is given: the same comes of all."""
    results = []
    for name in ("whole", "upgraded"):
        inner = room / name
        inner.mkdir()
        words = [word for it in ("answer", "t3103", "t7", "t8", "repeat", "patience") for word in (f"--{it}", "10000")]
        bridge = start("--log", inner / "log", *words, core=(program, "live", SITE))
        if name == "upgraded":
            upgrade_once_asked(bridge)
        results.append(played(bridge, inner, program))
    compare(*results)


def upgrade_once_asked(bridge):
    """Another bridge takes its place behind each line that is asked of its controller."""
    ask = bridge.ask

    def asked(line):
        ask(line)
        if line.split()[0] in ("open", "handover", "undo", "clear", "nonsense") and line != NOTHING:
            upgrade(bridge)

    bridge.ask = asked


def by_a_signal(bridge):
    """Another bridge takes its place, in the same processes, by a signal."""
    before, at = (bridge.process.pid, children(bridge.process.pid)), len(bridge.said.lines)
    bridge.process.send_signal(signal.SIGUSR2)
    bridge.said.find(GOES_ON, at)
    must((bridge.process.pid, children(bridge.process.pid)) == before, "its processes are others")


def half_read(start, room, program):
    """Half a frame of a station, and half a line of the controller and of operators were read: the rest comes to the next bridge."""
    core = (program_that(room, "halved", HALVED.format(python=sys.executable, program=program)), "live", SITE)
    bridge = start("--control", "control", core=core)
    one, other, asker = bridge.station(FIRST), bridge.station(SECOND, trx=1), Asker(room / "control")
    bridge.ask("open 1 0 0 3")
    bridge.expect("^in open 1 0 0 3$")
    asker.ask("help\nstati")
    asker.expect("^help: this$")
    bridge.process.stdin.write("cal")
    bridge.process.stdin.flush()
    other.send(b"\x00\x01\xfe")
    one.settle()
    by_a_signal(bridge)
    (room / "go").touch()
    bridge.expect("^event open 1 0/0/3 -> done$", "record 0/0/3 on$")
    asker.ask("ons\n")
    asker.expect("^station 6969/0/0 .*: there since ", "^station 6970/0/1 .*: there since .* links lost: 0$")
    bridge.ask("ls")
    bridge.expect("^channel 0/0/3: on for call 1 since ")
    other.send(b"\x00")
    must(other.await_message(lambda stream, message: (stream, message) == (0xFE, b"\x01")), "no answer to a ping in two parts")
    bridge.process.send_signal(signal.SIGTERM)
    bridge.wait(0)


def operators_stay(start, room, _program):
    """The next bridge tells who watches, numbers operators from there, and hears the same sockets; one who hasn't said who he is says
    so to it. That somebody has left, whose line was answered last, is no matter."""
    bridge = start("--control", "control", "--log", "log", stations=(FIRST + "=0/0", LATE + "=1/0"))
    one, late, watcher, asker = bridge.station(FIRST), TestStation(bridge.port, None), *(Asker(room / "control") for _ in range(2))
    must(late.await_message(lambda _stream, message: message[:1] == b"\x04"), "it isn't asked who it is")
    watcher.ask("watch 1\nstations\n")
    watcher.expect("^station 6971/0/0")
    by_a_signal(bridge)
    asker.ask("open 1 0 0 3\n")
    watcher.expect("^event open 1 0/0/3 -> done$", "record 0/0/3 on$")
    late.unit = LATE
    late.take(0xFE, b"\x04")
    must(late.known.wait(LIMIT), "it isn't known that says late who it is")
    third = Asker(room / "control")
    third.ask("clear 1\n")
    third.expect("^event clear 1 ")
    for it in (asker, watcher, third):
        it.leave()
    by_a_signal(bridge)
    one.settle()
    bridge.process.send_signal(signal.SIGTERM)
    bridge.wait(0)
    must(re.search(r"# .* operator 3, user \d+\nclear 1\n", (room / "log").read_text()), "who cleared it")


def the_rest_of_times(_start, _room, _program):
    """A time that another bridge sets anew ends when it would have; what was given to a gate is due, and what was forgotten isn't
    there."""
    old, new, gates = Times(), Times(), []
    old.set("far", 50.0, lambda: None)
    old.set(("near", 1), 5.0, lambda: None)
    old.set("gone", 5.0, lambda: None)
    old.forget("gone")
    old.set("gated", 0.0, lambda: None, gates.append)
    old.run_due()
    new.left = dict(old.moments())
    must(set(new.left) == {"far", ("near", 1), "gated"} and len(gates) == 1, f"what is left: {new.left}")
    done = []
    for name, seconds in (("far", 1.0), (("near", 1), 1000.0), ("gated", 1000.0)):
        new.set(name, seconds, lambda name=name: done.append(name))
    new.run_due()
    must(done == ["gated"] and 0.0 < new.seconds_left() <= 5.0 and not new.left, f"done: {done}, next: {new.seconds_left()}")
    new.set("far", 1.0, lambda: None)
    must(new.seconds_left() <= 1.0, "one that was set anew is set as always from then on")


def broken_pages(start, room, program):
    """A program that can't take the page, of another version, damaged or otherwise, is refused by name, and the bridge goes on; one
    that can't be run, or ends otherwise, too."""
    bridge = start("--log", "log")
    one = bridge.station(FIRST)
    bridge.ask("open 1 0 0 3")
    bridge.expect("record 0/0/3 on$")
    for place, (change, why) in enumerate(BROKEN):
        if not change.startswith("text"):
            change += "\ntext = page.written(state)"
        text = CHANGING.format(python=sys.executable, folder=FOLDER, change=change)
        refused(bridge, program_that(room, f"changing{place}", text), f"the page of the bridge before can't be taken: {why}")
    refused(bridge, program_that(room, "failing", "#!/bin/sh\necho 'no such thing' >&2\nexit 3\n"), "no such thing; this one goes on")
    refused(bridge, "/nowhere", "no program that can be run")
    upgrade(bridge)
    one.settle()
    bridge.ask("clear 1")
    bridge.expect("^event released 0/0/3 -> done$")
    bridge.end()


def not_just_now(start, room, program):
    """Another bridge isn't begun while the controller is away, nor while one is tried already. Once one goes on, the controller is
    started again over its journal as always. Where the site's text isn't kept, as without a journal, none is begun once that has
    changed; where it is, that is no matter."""
    site = room / "site.toml"
    site.write_text(SITE.read_text())
    bridge = start(core=(program, "live", site))
    bridge.station(FIRST)
    site.write_text(SITE.read_text() + "# a comment\n")
    refused(bridge, "", f"{site} has changed since the bridge began")
    bridge.end()
    core = (controller(room, program), "live", site, "--journal", "journal")
    bridge = start(*OFTEN, core=core)
    one = bridge.station(FIRST)
    bridge.ask("open 1 0 0 3")
    bridge.expect("record 0/0/3 on$")
    one.settle()
    for _ in range(2):
        (room / "journal" / "hold").touch()
        os.kill(child(bridge), signal.SIGKILL)
        bridge.said.expect("is started again")
        refused(bridge, "", "the controller isn't there just now")
        (room / "journal" / "hold").unlink()
        bridge.said.expect("controller: resumed after line")
        at = len(bridge.said.lines)
        bridge.ask("bridge upgrade\nbridge upgrade")
        bridge.said.find(REFUSED + "another program is being tried", at)
        bridge.said.find(GOES_ON, at)
    bridge.ask("clear 1")
    bridge.expect("^event released 0/0/3 -> done$")
    site.write_text(SITE.read_text() + "# another comment\n")
    upgrade(bridge)
    bridge.end()


def unread(start, room, _program):
    """Where what is printed isn't read, another bridge, which would leave it out, doesn't take the place: that is refused, and the
    bridge goes on. Once all is read, and none of it is left out, one does."""
    os.mkfifo(room / "printed")
    reads = os.open(room / "printed", os.O_RDONLY | os.O_NONBLOCK)
    patched = bridge_with(room, "succession.UNWRITTEN", SHORTLY)
    bridge = start(abis=program_that(room, "unread", f'#!/bin/sh\nexec "{patched}" "$@" >"{room}/printed"\n'))
    station = bridge.station(FIRST)
    # a pipe has room for 64 KiB (pipe(7)), and that is more than 1,000 octets each time
    for _ in range(MANY):
        bridge.ask("help")
    refused(bridge, "", "standard output isn't read: ")
    must(station.is_there, "its link is lost")
    os.set_blocking(reads, True)
    with open(reads) as file:
        printed = Lines(file)
        for _ in range(MANY):
            printed.expect("^help: this$")
        upgrade(bridge)
        bridge.ask("open 1 0 0 3")
        printed.expect("^event open 1 0/0/3 -> done$")
        bridge.end()
        printed.thread.join(LIMIT)


def signals_wait(start, room, _program):
    """Signals that come while another bridge begins are heard by that: HUP opens the log anew, TERM ends it."""
    bridge = start("--log", "log")
    station, is_over = bridge.station(FIRST), threading.Event()

    def hang_up():
        while not is_over.wait(0.005):
            bridge.process.send_signal(signal.SIGHUP)

    sender = threading.Thread(target=hang_up)
    sender.start()
    try:
        upgrade(bridge, 3)
    finally:
        is_over.set()
        sender.join()
    (room / "log").rename(room / "log.1")
    bridge.process.send_signal(signal.SIGHUP)
    bridge.ask("clear 9")
    bridge.expect("^in clear 9$", " -> refused 1$")
    must((room / "log").read_text().endswith("\nclear 9\n"), "the log isn't opened anew")
    bridge.process.send_signal(signal.SIGTERM)
    bridge.wait(0)
    must(station.await_end(), "the station's link is there yet")


def a_rival_waits(start, _room, _program):
    """A link that says it is a station which has another one waits until that was asked: the next bridge goes on with this."""
    bridge = start("--patience", "20")
    one = bridge.station(FIRST)
    one.answers_pings = False
    rival = TestStation(bridge.port, FIRST)
    must(one.await_message(lambda stream, message: (stream, message) == (0xFE, b"\x00")), "the first link isn't asked")
    upgrade(bridge)
    must(rival.known.wait(LIMIT) and one.await_end(), "the other link doesn't take its place")
    bridge.ask("stations")
    bridge.expect("^station 6969/0/0 .*: there since .* links lost: 1$")
    bridge.end()


class Upgraded(Script):
    """A run in which another bridge takes the place whenever nothing is under way."""

    def look(self):
        """Looks before and behind."""
        super().look()
        upgrade(self.run)
        super().look()


class Whole(Script):
    """The same run, in which none does."""

    def look(self):
        """Looks twice."""
        super().look()
        super().look()


def in_a_network(play):
    """A check that plays something with the same bridge, and with others that take its place."""

    def check(start, room, program):
        results = []
        for kind in (Whole, Upgraded):
            inner = room / kind.__name__
            inner.mkdir()
            run = start(words=("--log", inner / "log"), folder=inner, **UNHURRIED)
            results.append(play(kind(run, inner, program)))
        compare(*results)

    check.__name__ = f"{play.__name__}_upgraded"
    check.__doc__ = f"{play.__doc__[:-1]}, and another bridge takes the place whenever nothing is under way: nobody notices."
    return check


def at_each_step_of_a_call(start, _room, _program):
    """Another bridge takes the place while a mobile is awaited, while the centre, the gateway and the station haven't answered, while
    the mobile has another mode or another cell to take, and while it leaves."""
    run = start(t3111=2, **{"gateway-repeat": 0.3})
    station, other = run.begin(), run.station(OTHER_CELL)
    other.ports, run.centre.confirms = 0x5000, False
    burst(station, "050a0d")
    number = assigned(station, "050a0d")
    upgrade(run)
    say(station, f"020601{number}02000b{len(SERVICE) // 2:04x}{SERVICE}")
    connection = run.centre.begun(SERVICE)
    call = Call(run, station, number, connection)
    upgrade(run)
    run.centre.confirm(connection)
    down(run, station, number, connection, ACCEPT)
    speech_comes(run, call)
    begin_moving(run, station, other, call)
    said(other, "09", "0517")
    upgrade(run)
    say(other, "08270109")
    call.speaks(call.at(other, "09"))
    said(other, "09", "062c00")
    run.expect("^event complete .* -> done$", "^event released 0/0/1 -> done$")
    # what waited for the mobile to be there
    run.centre.expect(f"06{connection}00010501" "00020517")
    run.centre.data(connection, "000420040109")
    sent(other, "030101" "0902000b0003060d00")
    upgrade(run)
    say(other, "020901" "090200")
    upgrade(run)
    sent(other, "082e01" "09")
    run.expect("^event released 1/0/1 -> done$")
    run.centre.expect(f"06{connection}000103000121")
    run.centre.release(connection)
    run.centre.expect(f"05{connection}{connection}")
    deleted(call)
    run.end()


def speech_comes(run, call):
    """The centre asks for speech; the gateway doesn't answer, then the station, then the mobile, before another bridge is there."""
    station, number = call.station, call.number
    run.gateway.unanswered, station.unanswered = {"CRCX"}, {0x70}
    run.centre.data(call.connection, ASSIGN)
    run.gateway.expect("CRCX .*")
    sent(station, f"7e7001{number}f410f203")
    upgrade(run)
    run.gateway.unanswered = set()
    say(station, f"7e7101{number}f80000f57f000001f3{call.at():04x}")
    call.station_port = int(sent(station, f"7e7301{number}f80000f07f000001f1(....)f400f203")[1], 16)
    told_mode(call)
    upgrade(run)
    take_mode(call)
    assigned_speech(call)
    call.endpoint = f"rtpbridge/{run.gateway.endpoint_count}@mgw"
    call.speaks()


def half_of_the_centre(start, _room, _program):
    """Half a frame of the centre was read, and half that of a station: the next bridge has the rest."""
    run = start()
    station = run.begin()
    burst(station, "050a0d")
    number = assigned(station, "050a0d")
    say(station, f"020601{number}02000b{len(UPDATE) // 2:04x}{UPDATE}")
    connection = run.centre.begun(UPDATE)
    message = bytes.fromhex(f"06{connection}0001{3 + len(ACCEPT) // 2:02x}0100{len(ACCEPT) // 2:02x}{ACCEPT}")
    frame = (len(message)).to_bytes(2, "big") + b"\xfd" + message
    run.centre.socket.sendall(frame[:9])
    octets = bytes.fromhex(f"030201{number}02000b0002{COMPLETE}")
    octets = len(octets).to_bytes(2, "big") + b"\0" + octets
    station.send(octets[:7])
    upgrade(run)
    run.centre.socket.sendall(frame[9:])
    sent(station, f"030101{number}02000b{len(ACCEPT) // 2:04x}{ACCEPT}")
    station.send(octets[7:])
    run.centre.expect(f"06{connection}000105010002{COMPLETE}")
    upgrade(run)
    clear(run, station, number, connection)
    must(run.centre.links == 1, f"{run.centre.links} links to the centre")
    run.end()


def over_m3ua(start, room, _program):
    """Over M3UA: the program that has the link goes on with its lines, half of one was read, and a connection that isn't confirmed is.
    """
    run, centre, station = started(start, room)
    number, connection = begun(station, centre, 0)
    upgrade(run)
    centre.say(f"confirmed {connection} -")
    line = f"data {connection} 0100{len(ACCEPT) // 2:02x}{ACCEPT}\n".encode()
    centre.socket.sendall(line[:20])
    upgrade(run)
    centre.socket.sendall(line[20:])
    sent(station, f"030101{number}02000b{len(ACCEPT) // 2:04x}{ACCEPT}")
    said(station, number, COMPLETE)
    centre.expect(f"data {connection} 010002{COMPLETE}")
    centre.say(f"data {connection} 000420040109")
    leave(run, station, number)
    centre.expect(f"data {connection} 000121")
    centre.say(f"ended {connection} 0")
    centre.lose()
    run.said.expect("A: no link to 127.0.0.1, port .*: the link ended")
    centre.come(run)
    run.end()


class EndlessStation(LoadStation):
    """A station in whose cell mobiles come one after another until it is told that this is all."""

    is_over = False

    def burst(self):
        """A mobile asks for a channel, unless all is over."""
        if not self.is_over:
            super().burst()


def a_hundred_in_a_row(start, _room, _program):
    """Calls get speech and are cleared, four at once in each of two cells, while a hundred bridges follow one another: all calls come
    to their end, no link is lost, and nothing is left."""
    site = (FOLDER / "network_site.toml").read_text()
    run = start(centre=SpeakingCentre(), site=site, awaited=6, t3111=0.01)
    run.said.expect("A: the centre is there")
    stations = [EndlessStation(run.port, unit, 100_000, 4) for unit in (FIRST, OTHER_CELL)]
    for station in stations:
        must(station.known.wait(LIMIT), f"{station.unit} isn't acknowledged")
        station.begin()
    for count in range(OFTEN_IN_A_ROW):
        upgrade(run)
    for station in stations:
        station.is_over = True
    emptied(run)
    run.gateway.emptied()
    calls = sum(len(station.took) for station in stations)
    cleared = [station.count - station.left - station.unreleased for station in stations]
    must(calls > OFTEN_IN_A_ROW, f"{calls} calls in {OFTEN_IN_A_ROW} bridges: {cleared}")
    must(all(station.is_there for station in stations) and run.centre.links == 1, "a link was lost")
    lines = told(run, "stations", "network")
    must(sum(line.endswith("links lost: 0") for line in lines) == 2, f"links were lost: {lines}")
    must(any(line.startswith("centre: there; calls: 0, ") for line in lines), f"calls are left: {lines}")
    run.end()


def ten_with_links(start, _room, _program):
    """Ten bridges follow one another while nothing is said on the links, whose patience is short: each link is asked in time."""
    bridge = start("--patience", "12")
    stations, begun = [bridge.station(FIRST), bridge.station(SECOND, trx=1)], time.monotonic()
    for _ in range(TEN):
        upgrade(bridge)
        time.sleep(max(0.0, 1.5 - (time.monotonic() - begun) / TEN))
    must(all(station.is_there for station in stations), "a link was lost")
    bridge.ask("stations")
    bridge.expect("^station 6969/0/0 .* links lost: 0$", "^station 6970/0/1 .* links lost: 0$")
    bridge.end()


def a_page(start, room, program):
    """The page of a bridge is JSON, for its user alone, and is taken away: its first lines say what it is."""
    keeping = f'#!/bin/sh\ncp -p "$3" "{room}/page"\nexec "{FOLDER}/abis" "$@"\n'
    bridge = start()
    bridge.station(FIRST)
    bridge.ask(f"bridge upgrade {program_that(room, 'keeping', keeping)}")
    bridge.said.expect(GOES_ON)
    found, status = json.loads((room / "page").read_text()), (room / "page").stat()
    must(list(found) == ["page", "version", "sum", "state"] and found["page"] == "gofnild bridge", f"it begins by {list(found)}")
    must(status.st_mode & 0o777 == 0o600, f"others may read it: {status.st_mode:o}")
    bridge.end()


CHECKS = [in_the_middle_of_a_script, half_read, operators_stay, the_rest_of_times, broken_pages, not_just_now, signals_wait]
CHECKS += [a_rival_waits, unread, a_page, ten_with_links]
OF_NETWORK = [at_each_step_of_a_call, half_of_the_centre, over_m3ua, a_hundred_in_a_row]
OF_NETWORK += [in_a_network(a_registration), in_a_network(a_call)]
