"""The checks of the link to the switching centre, and of what is between it, the controller and operators: a centre that is
silent, both sides that begin anew at once, what it asks for in vain."""
import re
import subprocess
import time

from centre import RESET, RESET_ACKNOWLEDGE, TestCentre
from harness import FOLDER, LIMIT, SLOW, must
from network_harness import (
    ACCEPT,
    COMPLETE,
    FIRST,
    REQUEST,
    SITE,
    begin,
    burst,
    clear,
    down,
    register,
    rejected,
    say,
    sent,
    up,
)
from station import TestStation

# The site, whose second cell has two carriers.
TWO_CARRIERS = SITE.replace("arfcn = 70, tch = [1, 2] }", "arfcn = 70, tch = [1, 2] }, { arfcn = 72, tch = [1] }")
# RESET ACKNOWLEDGE from 0.42.1 to 0.23.1.
ACKNOWLEDGED = "09000305090242fe04435101fe03000131"


def silent_centre(start, _room, _program):
    """A centre that takes the link and says nothing is left, and tried again; so is one that falls silent, whose calls end."""
    run = start(patience=SLOW)
    station = run.begin()
    number, connection = register(run, station)
    run.centre.speaks = False
    run.said.expect("A: no link to 127.0.0.1, port .*: the centre is silent")
    run.said.expect("A: the link is lost, and all calls end")
    run.expect("^event clear 1 -> ")
    run.said.expect("A: no link to 127.0.0.1, port .*: the centre's link doesn't come up")
    run.centre.speaks = True
    run.said.expect("A: the centre is there")
    run.end(is_empty=False)
    must(run.centre.links >= 2, "the link isn't opened again")


def open_connections_stay(start, _room, _program):
    """A connection that the centre took stays, however long that is (T(conn est) ends); so does one that it asked for."""
    run = start(connect=SLOW)
    station = run.begin()
    number, connection = begin(run, station)
    run.centre.ask("aaaaaa", REQUEST)
    own = run.centre.expect("02aaaaaa(......)0200")[1]
    time.sleep(SLOW + 1)
    down(run, station, number, connection, ACCEPT)
    up(run, station, number, connection, COMPLETE)
    clear(run, station, number, connection)
    run.centre.release(own, "aaaaaa")
    run.centre.expect(f"05aaaaaa{own}")
    run.expect("^event released 0/0/2 -> done$")
    run.end()
    must(not any("isn't answered" in line for line in run.said.lines), "it isn't taken for answered")


def resets_cross(start, _room, _program):
    """Both sides begin anew at once: until each RESET is acknowledged nothing begins."""
    run = start(acknowledges=False, t13=SLOW)
    station = run.station(FIRST)
    run.centre.expect("09000305090242fe04435101fe06000430040120")
    run.centre.send(RESET)
    run.said.expect("A: the centre begins anew")
    run.centre.send(RESET_ACKNOWLEDGE)
    burst(station, "050a0d")
    rejected(station, "050a0d")
    run.centre.expect(ACKNOWLEDGED)
    run.said.expect("A: the centre is there")
    clear(run, station, *register(run, station, reference="060a0d"))
    run.centre.send(RESET)
    run.said.expect("A: the centre begins anew")
    burst(station, "070a0d")
    rejected(station, "070a0d")
    run.centre.expect(ACKNOWLEDGED)
    run.said.expect("A: the centre is there")
    run.end()


def lost_before_a_channel_is_on(start, _room, _program):
    """The link is lost while a station activates a mobile's channel: the mobile isn't told of it, and the centre not of the
    mobile."""
    run = start()
    station = run.begin()
    station.unanswered = {0x21}
    burst(station, "050a0d")
    sent(station, "082101090300060400010801" + "1800")
    run.centre.lose()
    run.said.expect("A: the link is lost")
    run.expect("^event clear 1 -> done$")
    say(station, "08220109080000")
    say(station, "0206010902000b00020508")
    sent(station, "082e0109")
    run.expect("^event released 0/0/1 -> done$")
    run.said.expect("A: the centre is there")
    station.unanswered = set()
    clear(run, station, *register(run, station, reference="060a0d"))
    run.end()
    must(station.count(lambda _stream, message: message[:2] == b"\x0c\x16") == 1, "the mobile is told")
    must(sum(it.startswith("01") for it in run.centre.came) == 1, "the centre is told")


def asked_in_vain(start, _room, _program):
    """HANDOVER REQUEST where nothing is free, or that can't be read: nothing is left of it once the centre ends its
    connection."""
    run = start()
    station = run.begin()
    for place in (1, 2):
        run.ask(f"open {place} 0 0 {place}")
        run.expect(f"record 0/0/{place} on$")
    run.centre.ask("aaaaaa", REQUEST)
    own = run.centre.expect("02aaaaaa(......)0200")[1]
    run.centre.expect("06aaaaaa0001060004160401..")
    run.centre.release(own, "aaaaaa")
    run.centre.expect(f"05aaaaaa{own}")
    run.centre.ask("bbbbbb", "000110")
    own = run.centre.expect("02bbbbbb(......)0200")[1]
    run.expect("^fault a ")
    run.centre.release(own, "bbbbbb")
    run.centre.expect(f"05bbbbbb{own}")
    for place in (1, 2):
        run.ask(f"clear {place}")
        run.expect(f"^event released 0/0/{place} -> done$")
    run.ask("network")
    run.expect("^centre: there; calls: 0, of which 0 await a mobile; began on the air: 0; came by handover: 2;")
    must(station.is_there, "the station left")
    run.end()


def numbers_of_any_length(start, _room, _program):
    """Operators' lines with numbers that are too long are refused; how it stands with the network is told; a number with
    noughts in front is that without."""
    run = start(t3101=3)
    station = run.begin()
    run.ask("network")
    run.expect("^centre: there; calls: 0, of which 0 await a mobile; began on the air: 0; came by handover: 0;")
    for line in ("open {} 0 0 1", "seize {} 0 full", "a {} 000121", "watch {}"):
        run.ask(line.format("9" * 6000))
    run.ask("clear 0001")
    run.catch_up()
    burst(station, "050a0d")
    run.expect("^in seize 2 0 full$")
    burst(station, "060a0d")
    run.ask("network")
    run.expect("^centre: there; calls: ., of which . await a mobile; began on the air: 0; came by handover: 0;")
    run.expect("^event released 0/0/1 -> done$")
    run.end(is_empty=False)


def from_elsewhere(start, _room, _program):
    """A unit that may come from some addresses alone is refused from others."""
    run = start(more='[[station]]\nunit = "6970/0/1"\ncell = 1\ntrx = 1\naddresses = ["127.0.0.9"]', site=TWO_CARRIERS)
    stranger = TestStation(run.port, "6970/0/1", 1)
    must(stranger.await_end(), "a stranger's link stays")
    run.said.expect("unit 6970/0/1 may not come from 127.0.0.1")
    station = TestStation(run.port, "6970/0/1", 1, "127.0.0.9")
    sent(station, "101a1e050b001349061d.*")
    run.end()


def ends_at_once(start, room, _program):
    """Standard input has ended as the link to the centre comes up: the bridge ends, without a fault. A gateway that no way leads to
    is named."""
    start().stop()
    text = (room / "config.toml").read_text()
    for line, status in (("", 0), ('[gateway]\naddress = "255.255.255.255"', 2)):
        if line:
            text = re.sub(r'\[gateway\][^\[]*', f"{line}\n", text)
        listener = TestCentre()
        (room / "config.toml").write_text(re.sub(r"(transport = .*\nport = )\d+", rf"\g<1>{listener.port}", text))
        for _ in range(5):
            words = [str(FOLDER / "network"), str(room / "config.toml")]
            ran = subprocess.run(words, stdin=subprocess.DEVNULL, capture_output=True, text=True, timeout=LIMIT)
            must(ran.returncode == status and "Traceback" not in ran.stderr, f"the status is {ran.returncode}: {ran.stderr}")
        listener.stop()
    must("can't begin: the media gateway at 255.255.255.255, port 2427:" in ran.stderr, ran.stderr)


CHECKS = [
    ends_at_once,
    silent_centre,
    open_connections_stay,
    resets_cross,
    lost_before_a_channel_is_on,
    asked_in_vain,
    numbers_of_any_length,
    from_elsewhere,
]
