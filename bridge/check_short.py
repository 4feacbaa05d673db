"""The checks of the link for short messages, SAPI 3 on the slow channel (link identifier 43), as TS 48.058, TS 48.006 and TS
24.011 have its octets: CP-DATA begins with 0901 or 8901, CP-ACK is 0904 or 8904."""
import time

from harness import SLOW, must
from network_harness import (
    ACCEPT,
    CLEAR,
    CLEARED,
    MOVE,
    SECOND,
    begin,
    clear,
    down,
    leave,
    passed,
    said,
    say,
    sent,
    up,
)

# CP-DATA and CP-ACK, of the centre and of the mobile.
DATA, ACKNOWLEDGED, TO_CENTRE, TAKEN = "09010501020304", "0904", "890105a1a2a3a4", "8904"


def give(run, connection, message=DATA, link="03"):
    """The centre says something on SAPI 3."""
    run.centre.data(connection, f"01{link}{len(message) // 2:02x}{message}")


def opens(station, number="09"):
    """Waits for ESTABLISH REQUEST, and confirms it."""
    sent(station, f"020401{number}0243")
    say(station, f"020501{number}0243")


def given(station, message=DATA, number="09"):
    """Waits until a mobile is sent a message on the link."""
    sent(station, f"030101{number}02430b{len(message) // 2:04x}{message}")


def speaks(run, station, connection, message=TAKEN, number="09"):
    """A mobile says something on the link."""
    say(station, f"030201{number}02430b{len(message) // 2:04x}{message}")
    length = len(message) // 2
    run.centre.expect(f"06{connection}0001{length + 3:02x}0103{length:02x}{message}")


def lets_go(run, station, connection):
    """A mobile lets go of the link, which the bridge has heard by the time that the centre hears what the mobile says then."""
    say(station, "020901090243")
    up(run, station, "09", connection, "055b")


def rejected(run, connection, cause):
    """Waits for SAPI "N" REJECT (TS 48.008, 3.2.1.34)."""
    run.centre.expect(f"06{connection}0001" + f"08" + f"0006251803" + f"0401{cause}")


# Each gets a function that starts a network, with options of CONFIG, a folder, and the program.


def a_short_message(start, _room, _program):
    """A short message begins with ESTABLISH REQUEST; once that is confirmed it goes, and so do more, each in its order;
    what is said on SAPI 0 meanwhile goes too."""
    run = start()
    station = run.begin()
    number, connection = begin(run, station)
    give(run, connection)
    give(run, connection, ACKNOWLEDGED)
    sent(station, "02040109" + "0243")
    down(run, station, number, connection, ACCEPT)
    must(not any("0243" + "0b" in it[1].hex() for it in station.came), "it goes before the link is there")
    say(station, "02050109" + "0243")
    given(station)
    given(station, ACKNOWLEDGED)
    speaks(run, station, connection)
    for place in range(20):
        give(run, connection, f"0901{place:02x}")
        said(station, number, f"0559{place:02x}")
        say(station, f"030201090243" + f"0b00038901{place:02x}")
    for place in range(20):
        given(station, f"0901{place:02x}")
        run.centre.expect(f"06{connection}0001060100030559{place:02x}")
        run.centre.expect(f"06{connection}0001060103038901{place:02x}")
    # the mobile lets go of the link: it is established anew
    lets_go(run, station, connection)
    give(run, connection, ACKNOWLEDGED, "c3")
    opens(station)
    given(station, ACKNOWLEDGED)
    must(sum(it[1].hex() == "020401090243" for it in station.came) == 2, "it is established again and again")
    must(not any(it[1][:2] == b"\x02\x07" for it in station.came), "the station is to let go of what it hasn't")
    clear(run, station, number, connection)
    run.end()


def of_the_mobile(start, _room, _program):
    """A mobile establishes the link itself; the centre's answer goes there at once."""
    run = start()
    station = run.begin()
    number, connection = begin(run, station)
    say(station, "02060109" + "0243")
    speaks(run, station, connection, TO_CENTRE)
    give(run, connection, ACKNOWLEDGED)
    given(station, ACKNOWLEDGED)
    must(not any(it[1].hex() == "020401090243" for it in station.came), "it is established again")
    up(run, station, number, connection, "055b")
    clear(run, station, number, connection)
    run.end()


def refused_link(start, _room, _program):
    """The mobile refuses the link, or the station can't establish it, or nothing comes: the centre is told SAPI "N" REJECT,
    and the next message tries it anew."""
    run = start(establish=SLOW)
    station = run.begin()
    number, connection = begin(run, station)
    for text, cause in (("0209010902" + "43", "26"), ("0203010902" + "43160101", "25"), (None, "25")):
        give(run, connection)
        sent(station, "020401090243")
        if text:
            say(station, text)
        rejected(run, connection, cause)
    # a confirm that comes too late serves the next one
    say(station, "020501090243")
    up(run, station, number, connection, "055b")
    give(run, connection, ACKNOWLEDGED)
    given(station, ACKNOWLEDGED)
    clear(run, station, number, connection)
    run.end()
    must(sum(it[1].hex() == "020401090243" for it in station.came) == 3, "it is established again")


def link_moves(start, _room, _program):
    """A handover ends the link: what is said on it while the mobile moves goes to the new channel, once the link is there;
    where the mobile comes back, to the old one."""
    run = start()
    station, other = run.begin(), run.station(SECOND)
    number, connection = begin(run, station)
    give(run, connection)
    opens(station)
    given(station)
    run.ask("handover 1 1")
    sent(station, f"030101{number}02000b0009{MOVE}")
    give(run, connection, "090101")
    said(station, number, "062801")
    run.expect("^event undo 1 asked -> record")
    # its station has the link yet, and lets go of it: RELEASE REQUEST of the local end (TS 48.058, 8.3.9)
    sent(station, "0207010902431401")
    say(station, "020801090243")
    opens(station)
    given(station, "090101")
    run.expect("^event released 1/0/1 -> done$")
    # this time the link isn't confirmed when the mobile is sent away
    lets_go(run, station, connection)
    give(run, connection, "090102")
    sent(station, "020401090243")
    run.ask("handover 1 1")
    sent(station, f"030101{number}02000b0009{MOVE}")
    give(run, connection, "090103")
    # a confirm from the old channel is late
    say(station, "020501090243")
    say(other, "020601090200")
    run.expect("^event detect 1/0/1 -> owned 1$")
    said(other, "09", "062c00")
    run.expect("^event complete 1 -> done$")
    opens(other)
    given(other, "090102")
    given(other, "090103")
    speaks(run, other, connection)
    must(not any(it[1].hex().endswith(("090102", "090103")) for it in station.came), "the old channel is told")
    clear(run, other, "09", connection)
    run.end()


def asked_link_comes_back(start, _room, _program):
    """A mobile is sent away before the link is confirmed, and comes back: its station may have the link by then, and lets go of
    it; then it is established anew."""
    run = start()
    station, _ = run.begin(), run.station(SECOND)
    number, connection = begin(run, station)
    give(run, connection)
    sent(station, "020401090243")
    run.ask("handover 1 1")
    sent(station, f"030101{number}02000b0009{MOVE}")
    said(station, number, "062801")
    run.expect("^event undo 1 asked -> record")
    sent(station, "0207010902431401")
    opens(station)
    given(station)
    clear(run, station, number, connection)
    run.end()


def errors_of_a_link(start, _room, _program):
    """ERROR INDICATION (TS 48.058, 8.3.4) tells of what the station passed over: the link goes on, and so does one that is
    awaited. By other causes, or without one, it is broken: the station lets go of it, and it is established anew."""
    run = start(establish=60)
    station = run.begin()
    number, connection = begin(run, station)
    give(run, connection)
    sent(station, "020401090243")
    for cause in ("03", "04", "06", "08", "09", "0a", "0b", "0c", "0d", "0e"):
        say(station, f"020301090243" + f"1601{cause}")
    say(station, "020501090243")
    given(station)
    for cause in ("03", "04", "06", "08", "09", "0a", "0b", "0c", "0d", "0e"):
        say(station, f"020301090243" + f"1601{cause}")
        up(run, station, number, connection, "055b")
        give(run, connection, "0901" + cause)
        given(station, "0901" + cause)
    must(sum(it[1].hex() == "020401090243" for it in station.came) == 1, "it is established again")
    for broken in ("160101", "160102", "160105", "160107", "16017f", "1600", "16", ""):
        say(station, "020301090243" + broken)
        sent(station, "0207010902431401")
        say(station, "020801090243")
        give(run, connection, ACKNOWLEDGED)
        opens(station)
        given(station, ACKNOWLEDGED)
    must(not any("000625" in it for it in run.centre.came), "a message is rejected")
    clear(run, station, number, connection)
    run.end()


def said_while_moving(start, _room, _program):
    """What a mobile says on the link of its new channel goes behind HANDOVER COMPLETE."""
    run = start()
    station, other = run.begin(), run.station(SECOND)
    number, connection = begin(run, station)
    run.ask("handover 1 1")
    sent(station, f"030101{number}02000b0009{MOVE}")
    say(other, "020601090200")
    run.expect("^event detect 1/0/1 -> owned 1$")
    say(other, "030201090243" + "0b0002" + TAKEN)
    said(other, "09", "062c00")
    run.expect("^event complete 1 -> done$")
    run.centre.expect(f"06{connection}00010d000b1704010c05050100170065")
    run.centre.expect(f"06{connection}0001050103028904")
    clear(run, other, "09", connection)
    run.end()


def strays_of_a_target(start, _room, _program):
    """What comes from a target to which the mobile wasn't sent yet is nobody's: it neither opens the link nor ends it, isn't said
    to the centre, and what the mobile says where it is doesn't wait for it."""
    run = start()
    station, other = run.begin(), run.station(SECOND)
    number, connection = begin(run, station)
    other.unanswered = {0x21}
    run.ask("handover 1 1")
    sent(other, "08210109.*")
    # ESTABLISH INDICATION and CONFIRM, DATA INDICATION of both links; RELEASE INDICATION, ERROR INDICATION
    opening = ("020601090243", "020501090243", "0302010902430b00028941", "0302010902000b0002055a")
    ending = ("020901090243", "020301090243160101")
    for text in opening:
        say(other, text)
    other.settle()
    give(run, connection)
    asked = sent(station, "(0204|0301)01090243.*")[1]
    must(asked == "0204", "the target's link is taken for the mobile's")
    say(station, "020501090243")
    given(station)
    for text in (*ending, *opening):
        say(other, text)
    other.settle()
    give(run, connection, ACKNOWLEDGED)
    asked = sent(station, "(0204|0207|0301)01090243.*")[1]
    must(asked == "0301", "the target's link ends the mobile's")
    up(run, station, number, connection, "055b")
    speaks(run, station, connection)
    run.ask("undo 1")
    run.expect("^event undo 1 asked -> record", "^event released 1/0/1 -> done$")
    clear(run, station, number, connection)
    must(not any(it.endswith(("8941", "055a")) for it in run.centre.came), "the centre is told what comes from the target")
    run.end()
    line = run.said.expect("station 6970/0/0 .*: passed over: (.*)")[1]
    must("DATA INDICATION where nobody was sent 4" in line.split(", "), f"strays aren't counted, but {line!r}")


def too_much_waits(start, _room, _program):
    """More than sixteen messages don't wait for a link: the others are rejected, cause 24. Another SAPI than 0 and 3 is, too,
    cause 25. The call's end forgets what waits."""
    run = start(establish=60)
    station = run.begin()
    number, connection = begin(run, station)
    for place in range(18):
        give(run, connection, f"0901{place:02x}")
    rejected(run, connection, "24")
    rejected(run, connection, "24")
    give(run, connection, "0901", "01")
    run.centre.expect(f"06{connection}000108000625" + "1801" + "040125")
    run.centre.data(connection, CLEAR)
    leave(run, station, number)
    run.centre.expect(f"06{connection}000103{CLEARED}")
    say(station, "020501090243")
    run.centre.release(connection)
    run.centre.expect(f"05{connection}{connection}")
    time.sleep(0.3)
    must(not any("02430b" in it[1].hex() for it in station.came), "it goes to nobody")
    run.end()


def odd_links(start, _room, _program):
    """What stations say of the link on channels of no call, or cut, or of no link, disturbs nothing."""
    run = start()
    station = run.begin()
    number, connection = begin(run, station)
    for text in (
        "020901090243",
        "020301090243160101",
        "0205010f0243",
        "0206010a0243",
        "0209010f0243",
        "0203010f0243160101",
        "0205010902",
        "02050109",
        "0302010f02430b0002" + TAKEN,
        "03020109" + "02430b0000",
        "03020109" + "02430b0009" + TAKEN,
        "020a0109" + "0243",
        "020501090203",
    ):
        say(station, text)
    up(run, station, number, connection, "055b")
    give(run, connection)
    opens(station)
    given(station)
    clear(run, station, number, connection)
    kinds = [f"{it} INDICATION of SAPI 3 where there is no link 1" for it in ("ERROR", "RELEASE")]
    passed(run, *kinds)


CHECKS = [
    a_short_message,
    of_the_mobile,
    refused_link,
    link_moves,
    asked_link_comes_back,
    errors_of_a_link,
    said_while_moving,
    strays_of_a_target,
    too_much_waits,
    odd_links,
]
