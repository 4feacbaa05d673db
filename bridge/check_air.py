"""The checks of calls that begin on the air: why mobiles ask, which of their requests are one, on which carriers they are told
of what, and what a station says twice or out of turn."""
import subprocess

import access
from air import Seizing
from harness import FOLDER, LIMIT, must
from network_harness import (
    CLEAR,
    CLEARED,
    COMPLETE,
    FIRST,
    MOVE,
    REQUEST,
    SECOND,
    SITE,
    TAKEN,
    UPDATE,
    assigned,
    begin,
    burst,
    clear,
    leave,
    register,
    rejected,
    said,
    say,
    sent,
    up,
)
from talks import Talk

# Of a request's octet (TS 44.018, tables 9.1.8.1 and 9.1.8.2, where NECI is 1) those that aren't answered, and those for which
# half a channel will do.
UNANSWERED = [*range(0x60, 0x68), *range(0x70, 0x80)]
HALF = [*range(0x30, 0x40), *range(0x40, 0x60), *range(0x68, 0x70)]
# An activation for speech at full rate of the channel 0/0/1 or 0/1/1.
ACTIVATION = "082101090300060400010801"


def causes(_start, _room, _program):
    """Each octet of a request is answered or not, and takes half a channel or not, as the standard's table has it."""
    found = [access.Request(bytes([octet, 0, 0]), 0).cause for octet in range(256)]
    unanswered = [octet for octet in range(256) if not found[octet].is_answered]
    must(unanswered == UNANSWERED, f"these aren't answered: {bytes(unanswered).hex()}")
    half = [octet for octet in range(256) if found[octet].takes_half]
    must(half == HALF, f"half a channel will do for {bytes(half).hex()}")


def carriers_of_1800(start, _room, _program):
    """In GSM 1800 lists of carriers are variable bitmaps (TS 44.018, 10.5.2.13.7): the first carrier, and the 111 behind it."""
    site = SITE.replace("60", "512").replace("ba = [70]", "ba = [623, 513]").replace("70", "623")
    run = start(site=site, band=1800)
    own, others = "8f0000" + "00" * 13, "8f0080" + "00" * 12 + "02"
    run.said.expect("A: the centre is there")
    station = run.station(FIRST)
    sent(station, f"0c1101801e012717550619{own}e504002b")
    sent(station, f"0c1101801e02271759061a{others}ffe50400")
    # telephones send as loud as they can, at level 0
    sent(station, "0c1101801e04271731061c00f11000174040e50400.*")
    sent(station, f"101a1e050b001349061d{others}")
    burst(station, "050a0d")
    sent(station, f"{ACTIVATION}1800")
    # the highest bits of the carrier stand behind the training sequence (10.5.2.5)
    sent(station, "0c1601902b172d063f03092200050a0d0000" + "2b" * 11)
    say(station, f"0206010902000b0012{UPDATE}")
    clear(run, station, "09", run.centre.begun(UPDATE))
    run.end()


def too_far_apart(start, room, _program):
    """Carriers of GSM 1800 that lie 112 from one another fit no list: the site is refused, with its key."""
    start().stop()
    text = (room / "config.toml").read_text().replace("900", "1800")
    (room / "config.toml").write_text(text)
    site = SITE.replace("60", "512").replace("ba = [70]", "ba = [{}, 600]").replace("70", "623")
    for last, status in ((711, 0), (712, 1)):
        (room / "site.toml").write_text(site.replace("{}", str(last)))
        ran = checked(room)
        must(ran.returncode == status, f"the status is {ran.returncode}: {ran.stderr}")
    fault = "site.toml: cell 0.ba: carriers that lie within 112 of one another are allowed, not [600, 712]"
    must(fault in ran.stderr, ran.stderr)


def two_carriers(start, _room, _program):
    """A cell with two TRX: the first alone is told what is broadcast, and mobiles are answered there, whichever has the
    channel."""
    site = SITE.replace("arfcn = 60, tch = [1, 2] }", "arfcn = 60, tch = [1] }, { arfcn = 62, tch = [1] }")
    run = start(site=site, more='[[station]]\nunit = "6969/0/1"\ncell = 0\ntrx = 1')
    first = run.begin()
    # telephones send as loud as they can, at level 5
    sent(first, "0c1101801e04271731061c00f11000174540e50400.*")
    second = run.station("6969/0/1", trx=1)
    sent(second, "101a1e050b001349061d.*")
    sent(second, "101a1e060b000d2d061e.*")
    run.ask("open 50 0 0 1")
    run.expect("record 0/0/1 on$")
    burst(first, "050a0d", "3f")
    sent(second, f"{ACTIVATION}183f")
    sent(first, "0c1601902b172d063f0309203e050a0d3f00" + "2b" * 11)
    say(second, f"0206010902000b0012{UPDATE}")
    clear(run, second, "09", run.centre.begun(UPDATE))
    must(not any(message[:1] == b"\x0c" for _, message in second.came), "the second TRX is told what is broadcast")
    run.ask("clear 50")
    run.expect("^event released 0/0/1 -> done$")
    run.end()


def one_request(start, _room, _program):
    """The same request in two cells is two; behind a while it is another in the same cell, too."""
    run = start()
    station, other = run.begin(), run.station(SECOND)
    number, connection = begin(run, station)
    burst(other, "050a0d")
    must(assigned(other, "050a0d", training=2, carrier=70) == "09", "another channel")
    say(other, f"0206010902000b0012{UPDATE}")
    clear(run, other, "09", run.centre.begun(UPDATE, 101))
    clear(run, station, number, connection)
    for _ in range(60):
        burst(station, "050a0d")
        if station.await_message(lambda _stream, _message: station.count(is_activation) == 2, 1):
            break
    number = assigned(station, "050a0d")
    say(station, f"020601{number}02000b0012{UPDATE}")
    clear(run, station, number, run.centre.begun(UPDATE))
    run.end()


def awaited_by_cell(start, _room, _program):
    """As many mobiles as CONFIG says are awaited in each cell; one more is rejected until one of them is there."""
    run = start(awaited=1)
    station, other = run.begin(), run.station(SECOND)
    burst(station, "050a0d")
    number = assigned(station, "050a0d")
    burst(other, "060a0d")
    there = assigned(other, "060a0d", training=2, carrier=70)
    burst(station, "070a0d")
    rejected(station, "070a0d")
    say(station, f"020601{number}02000b0012{UPDATE}")
    connection = run.centre.begun(UPDATE)
    clear(run, station, *register(run, station, reference="080a0d"))
    clear(run, station, number, connection)
    say(other, f"020601{there}02000b0012{UPDATE}")
    clear(run, other, there, run.centre.begun(UPDATE, 101))
    run.end()


class Noting:
    """What is asked for in the place of the air."""

    relay = None

    def __init__(self):
        self.asked = []

    def seize(self, _call, rate, _may_be_half):
        """A channel is asked for."""
        self.asked.append(rate)

    def reject(self, _call):
        """The call gets none."""
        self.asked.append(None)


def half_too_late(_start, _room, _program):
    """Where nothing is free half a channel is asked for; not for a call that is cleared meanwhile, since nobody would clear that
    again."""
    for is_clearing, asked in ((False, b"half"), (True, None)):
        air, call = Noting(), Talk(1)
        call.is_clearing = is_clearing
        Seizing(air, call, True).hear(b"none free 0")
        must(air.asked == [asked], f"asked for: {air.asked}")


def confirmed_twice(start, _room, _program):
    """A station says twice that a channel is on: the mobile is told once."""
    run = start()
    station = run.begin()
    station.unanswered = {0x21}
    burst(station, "050a0d")
    sent(station, f"{ACTIVATION}1800")
    for _ in range(2):
        say(station, "08220109080000")
    run.expect("^event confirm 0/0/1 -> owned 1$", "^event confirm 0/0/1 -> refused 8")
    sent(station, "0c1601902b172d063f0309203c050a0d0000" + "2b" * 11)
    say(station, f"0206010902000b0012{UPDATE}")
    clear(run, station, "09", run.centre.begun(UPDATE))
    run.end()
    must(station.count(lambda _stream, message: message[:2] == b"\x0c\x16") == 1, "the mobile is told twice")


def a_target_is_refused(start, _room, _program):
    """A station refuses the channel to which a mobile was to go that is awaited yet: it is awaited all the same."""
    run = start()
    station, other = run.begin(), run.station(SECOND)
    other.unanswered = {0x21}
    burst(station, "050a0d")
    number = assigned(station, "050a0d")
    run.ask("handover 1 1")
    sent(other, "082101090302060400010801.*")
    say(other, "082301091a0120")
    run.expect("^event refuse 1/0/1 -> owned 1$", "^event undo 1 ")
    say(station, f"020601{number}02000b0012{UPDATE}")
    clear(run, station, number, run.centre.begun(UPDATE))
    run.end()


def came_and_leaves(start, _room, _program):
    """A mobile that came from another controller ends its link without being told to: the centre is asked to clear its call."""
    run = start()
    station = run.begin()
    run.centre.ask("aaaaaa", REQUEST)
    own = run.centre.expect("02aaaaaa(......)0200")[1]
    run.centre.expect(f"06aaaaaa00011f{TAKEN}")
    say(station, "020601090200")
    said(station, "09", "062c00")
    run.centre.expect("06aaaaaa0001050003141500")
    say(station, "020901090200")
    run.centre.expect("06aaaaaa000106000422040101")
    run.centre.data(own, CLEAR)
    leave(run, station, "09")
    run.centre.expect(f"06aaaaaa000103{CLEARED}")
    run.centre.release(own, "aaaaaa")
    run.centre.expect(f"05aaaaaa{own}")
    run.end()


def much_waits(start, _room, _program):
    """While a mobile moves 64 messages wait for it, and no more."""
    run = start()
    station, other = run.begin(), run.station(SECOND)
    number, connection = begin(run, station)
    run.ask("handover 1 1")
    sent(station, f"030101{number}02000b0009{MOVE}")
    for place in range(80):
        run.centre.data(connection, f"0100030518{place:02x}")
    # SAPI 1 is answered, behind all of them
    run.centre.data(connection, "0101020904")
    run.centre.expect(f"06{connection}000108000625180104" + "0125")
    said(station, number, "062801")
    run.expect("^event undo 1 asked -> record", "^event released 1/0/1 -> done$")
    for place in range(64):
        sent(station, f"030101{number}02000b00030518{place:02x}")
    up(run, station, number, connection, COMPLETE)
    clear(run, station, number, connection)
    must(other.is_there, "the other station left")
    run.end()
    must(station.count(lambda _stream, message: message[9:11] == b"\x05\x18") == 64, "more waited")


def checked(room):
    """What CONFIG and its site are told."""
    words = [FOLDER / "network", room / "config.toml", "--check"]
    return subprocess.run([str(it) for it in words], capture_output=True, text=True, timeout=LIMIT)


def is_activation(_stream, message):
    """Whether a message is CHANNEL ACTIVATION."""
    return message[:2] == b"\x08\x21"


CHECKS = [
    causes,
    carriers_of_1800,
    too_far_apart,
    two_carriers,
    one_request,
    awaited_by_cell,
    half_too_late,
    confirmed_twice,
    a_target_is_refused,
    came_and_leaves,
    much_waits,
]
