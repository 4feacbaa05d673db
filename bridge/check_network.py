"""The checks of the bridge of a network: registrations, calls that come and go, what is broken, and what is lost."""
import os
import pathlib
import random
import signal
import socket

import ipa
from centre import RESET, RESET_ACKNOWLEDGE, TestCentre
from harness import SLOW, must
from network_harness import (
    ACCEPT,
    CLEAR,
    CLEARED,
    COMPLETE,
    FIRST,
    MOVE,
    REQUEST,
    SECOND,
    SPEAKS,
    TAKEN,
    UPDATE,
    assigned,
    begin,
    burst,
    clear,
    down,
    emptied,
    freed,
    leave,
    passed,
    register,
    rejected,
    said,
    say,
    sent,
    up,
)

# The addresses of a connection request of osmo-msc.
ASKING = "04435101fe040443b900fe"


# Each gets a function that starts a network, with options of CONFIG, a folder, and the program.


def a_registration(start, _room, _program):
    """A mobile registers: from its burst to the end of its connection each message is as it has to be."""
    run = start()
    run.centre.expect("09000305090242fe04435101fe06000430040120")
    station = run.begin()
    must(b"\x00\x09\x01as-bsc1\x00" in run.centre.names[0], "the name isn't told")
    number, connection = register(run, station)
    must(number == "09", f"channel {number} isn't the lowest")
    clear(run, station, number, connection)
    run.end()


def system_information(start, _room, _program):
    """A station is told its cell's system information, 1 to 6, and again where it comes back: osmo-bsc's octets, but for
    the neighbours' bits and the rest octets."""
    # osmo-bsc has telephones send at 15 dBm at most where nothing else is asked for
    run = start(neci="1\npower = 14")
    own, other = "00000000000000000800000000000000", "00000000000000200000000000000000"
    expected = [
        f"0c1101801e012717550619{own}e504002b",
        f"0c1101801e02271759061a{other}ffe50400",
        "0c1101801e03271749061b006400f1100017c80305274e40e504002b2b2b2b",
        "0c1101801e04271731061c00f11000174e40e504002b2b2b2b2b2b2b2b2b2b",
        f"101a1e050b001349061d{other}",
        "101a1e060b000d2d061e006400f110001727ff2b",
    ]
    run.said.expect("A: the centre is there")
    for _ in range(2):
        station = run.station(FIRST)
        for text in expected:
            sent(station, text)
        station.leave()
        run.said.expect("its link is lost")
    run.end()


def emergency_calls(start, _room, _program):
    """Where CONFIG permits emergency calls mobiles are told so, and one that asks for such a call gets a channel."""
    run = start(broadcast="emergency = 1")
    station = run.begin()
    for kind, access in ((1, "e500002b"), (2, "ffe50000"), (3, "e500002b2b2b2b"), (4, "e50000" + "2b" * 10)):
        sent(station, f"0c1101801e0{kind}2717.*{access}")
    burst(station, "a50a0d")
    number = assigned(station, "a50a0d")
    # EMERGENCY SETUP is preceded by CM SERVICE REQUEST for an emergency call (TS 24.008, 9.2.9)
    service = "0524720357188105f44595ef80"
    say(station, f"020601{number}02000b000d{service}")
    clear(run, station, number, run.centre.begun(service))
    run.end()


def messages_of_a_mobile(start, _room, _program):
    """Many messages go both ways, each in its order; what a mobile is able to do is told by CLASSMARK UPDATE; SAPI 1 is
    rejected."""
    run = start()
    station = run.begin()
    number, connection = begin(run, station, reference="e30ad1", delay="05")
    for place in range(20):
        down(run, station, number, connection, f"0518{place:02x}")
        up(run, station, number, connection, f"0559{place:02x}")
    for place in range(50):
        run.centre.data(connection, f"0100030518{place:02x}")
    for place in range(50):
        sent(station, f"030101{number}02000b00030518{place:02x}")
    # CLASSMARK CHANGE with classmarks 2 and 3, and what TS 48.008, 3.2.1.29 makes of it
    said(station, number, "061603571881" + "2002e014")
    run.centre.expect(f"06{connection}00010c000a541203571881" + "1302e014")
    run.centre.data(connection, "0101020904")
    run.centre.expect(f"06{connection}000108000625180104" + "0125")
    run.centre.data(connection, "000b2f08080910100000000010")
    clear(run, station, number, connection)
    run.end()


def nothing_free(start, _room, _program):
    """A cell has no free channel: IMMEDIATE ASSIGNMENT REJECT; half a channel is asked for where the cause and NECI allow
    it."""
    for neci in (1, 0):
        run = start(neci=neci)
        station = run.begin()
        for place in range(2):
            burst(station, f"05000{place}")
            assigned(station, f"05000{place}")
        burst(station, "430a0d")
        rejected(station, "430a0d")
        burst(station, "e30a0d")
        rejected(station, "e30a0d")
        half = ("^in seize 3 0 half$", "^none free 0$") if neci else ()
        run.expect("^in seize 3 0 full$", "^none free 0$", *half, "^in seize 4 0 full$", "^none free 0$")
        for place in (1, 2):
            run.ask(f"clear {place}")
            run.expect(f"^event released 0/0/{place} -> done$")
        run.end()
        asked = [line for line in run.out.lines if line.endswith(" half")]
        must(len(asked) == neci, f"half a channel is asked for: {asked}")


def no_mobile(start, _room, _program):
    """Behind a burst no mobile makes itself known: T3101 takes the channel back, and it serves again."""
    run = start(t3101=SLOW)
    station = run.begin()
    burst(station, "050a0d")
    number = assigned(station, "050a0d")
    run.expect("^in clear 1$", "^event released 0/0/1 -> done$")
    sent(station, f"082e01{number}")
    # one that comes too late has no channel any more
    say(station, f"020601{number}02000b0012{UPDATE}")
    clear(run, station, *register(run, station, reference="060a0d"))
    passed(run, "ESTABLISH INDICATION of no call 1")


def odd_bursts(start, _room, _program):
    """The same request twice is one; those for packets, of reserved causes, from too far away, and cut ones begin nothing.
    """
    run = start()
    station = run.begin()
    for text in (
        "0c13018813790a0d1100",
        "0c130188137f0a0d1100",
        "0c13018813600a0d1100",
        "0c13018813050a0d1140",
        "0c13018813050a0d",
        "0c1301881105",
        "0c13",
        "0c13018813050a0d1105",
        "0c13018813050a0d1105",
        "0c13018813050a0d1106",
    ):
        say(station, text)
    number = assigned(station, "050a0d", delay="05")
    say(station, f"020601{number}02000b0012{UPDATE}")
    clear(run, station, number, run.centre.begun(UPDATE))
    kinds = ("CHANNEL REQUIRED again 2", "CHANNEL REQUIRED for packets 1", "CHANNEL REQUIRED for a reserved cause 2")
    passed(run, *kinds, "CHANNEL REQUIRED from too far away 1", "CHANNEL REQUIRED that is cut 3")


def odd_messages(start, _room, _program):
    """A mobile's first message is missing, or comes on another link; others are of no call, cut, or empty: nothing is
    disturbed."""
    run = start()
    station = run.begin()
    burst(station, "050a0d")
    number = assigned(station, "050a0d")
    for text in (
        f"020601{number}0200",
        f"020601{number}02000b0000",
        f"020601{number}02000b0012055b",
        f"020601{number}02030b0012{UPDATE}",
        f"0206010f02000b0012{UPDATE}",
        "0302010f02000b0002055b",
        f"030201{number}02000b0000",
        f"030201{number}0200",
        f"030201{number}02030b00020904",
        # CLASSMARK CHANGE, cut, and before the centre knows of the call
        f"030201{number}02000b00020616",
        f"030201{number}02000b0006061603571881",
        f"020901{number}0203",
        "0828010a1b00",
        # a first message, and another, that are longer than the air carries
        f"020601{number}02000b00ff" + "05" * 255,
        f"030201{number}02000b012c" + "05" * 300,
        f"030201{number}02000b012c0616ff" + "05" * 297,
    ):
        say(station, text)
    say(station, f"020601{number}02000b0012{UPDATE}")
    connection = run.centre.begun(UPDATE)
    # it makes itself known again: that begins no second connection
    say(station, f"020601{number}02000b0012{UPDATE}")
    down(run, station, number, connection, ACCEPT)
    up(run, station, number, connection, COMPLETE)
    clear(run, station, number, connection)
    must(not any(it.startswith("010000020202") for it in run.centre.came), "there is a second connection")
    passed(run, "CLASSMARK CHANGE that is cut or of no call 2")


def too_early_on_a_target(start, _room, _program):
    """A mobile makes itself known on a target where nobody was sent yet: that is counted, and the attempt goes on."""
    run = start()
    station, other = run.begin(), run.station(SECOND)
    number, connection = begin(run, station)
    other.unanswered = {0x21}
    run.ask("handover 1 1")
    sent(other, "08210109.*")
    say(other, "020601090200")
    other.settle()
    run.ask("undo 1")
    run.expect("^event undo 1 asked -> record", "^event released 1/0/1 -> done$")
    clear(run, station, number, connection)
    run.end()
    run.said.expect("station 6970/0/0 .*: passed over: ESTABLISH INDICATION where nobody was sent 1$")


def refused_channel(start, _room, _program):
    """A station refuses a channel, or isn't there to answer: the mobile gets no channel, and the book is empty."""
    run = start(answer=SLOW)
    station = run.begin()
    station.unanswered = {0x21}
    burst(station, "050a0d")
    sent(station, "082101090300060400010801" + "1800")
    say(station, "082301091a0120")
    rejected(station, "050a0d")
    run.expect("^in clear 1$", "^event clear 1 -> done$")
    burst(station, "060a0d")
    sent(station, "082101090300060400010801" + "1800")
    rejected(station, "060a0d")
    run.expect("^in clear 2$", "^event clear 2 -> done$")
    run.end()


def reports(start, _room, _program):
    """What a mobile and its station measure while it registers isn't the controller's: it isn't handed over."""
    run = start()
    station, other = run.begin(), run.station(SECOND)
    number, connection = begin(run, station)
    report = "06151e1e003812a000000000000000000000"
    for _ in range(4):
        say(station, f"082801{number}1b00191e1e2a" + "0b0012" + report)
    up(run, station, number, connection, COMPLETE)
    clear(run, station, number, connection)
    must(not any(line.startswith("in abis 0 0 0828") for line in run.out.lines), "a report is given")
    must(other.is_there, "the other station left")
    passed(run, "MEASUREMENT RESULT before its call has speech 4")


def resets(start, _room, _program):
    """RESET is said until it is acknowledged, and nothing begins before; the centre's ends all calls, and is acknowledged.
    """
    run = start(t4=0.3, acknowledges=False)
    for _ in range(3):
        run.centre.expect("09000305090242fe04435101fe06000430040120")
    station = run.station(FIRST)
    burst(station, "050a0d")
    rejected(station, "050a0d")
    run.centre.send(RESET_ACKNOWLEDGE)
    run.said.expect("A: the centre is there")
    number, connection = begin(run, station, reference="060a0d")
    run.ask("open 77 0 0 2")
    run.expect("record 0/0/2 on$")
    run.centre.send(RESET)
    run.centre.expect(f"04{connection}{connection}0.00")
    for it in (number, "0a"):
        sent(station, f"030101{it}02000b0003060d01")
    for it in (number, "0a"):
        say(station, f"020901{it}0200")
        sent(station, f"082e01{it}")
        freed(run, station, it)
    run.centre.expect("09000305090242fe04435101fe03000131")
    clear(run, station, *register(run, station, reference="070a0d"))
    run.end()


def released(start, _room, _program):
    """A connection is refused, isn't answered, or ends without CLEAR COMMAND: the mobile is sent away, and the centre isn't
    told CLEAR COMPLETE."""
    run = start(connect=SLOW)
    station = run.begin()
    run.centre.confirms = False
    number, connection = begin(run, station, reference="010a0d")
    run.centre.send(f"03{connection}0100")
    leave(run, station, number)
    number, connection = begin(run, station, reference="020a0d")
    leave(run, station, number)
    run.centre.confirms = True
    number, connection = begin(run, station, reference="030a0d")
    down(run, station, number, connection, ACCEPT)
    run.centre.release(connection)
    run.centre.expect(f"05{connection}{connection}")
    leave(run, station, number)
    run.end()
    must(not any(CLEARED in it for it in run.centre.came), "CLEAR COMPLETE is told")


def late_confirm(start, _room, _program):
    """What a mobile says waits for the centre's confirm; a second confirm, of another reference, changes nothing."""
    run = start()
    station = run.begin()
    run.centre.confirms = False
    number, connection = begin(run, station)
    for place in range(3):
        said(station, number, f"0559{place:02x}")
    run.centre.confirm(connection, "abcdef")
    for place in range(3):
        run.centre.expect(f"06abcdef0001060100030559{place:02x}")
    run.centre.confirm(connection, "fedcba")
    up(run, station, number, "abcdef", COMPLETE)
    run.centre.data(connection, CLEAR)
    leave(run, station, number)
    run.centre.expect(f"06abcdef000103{CLEARED}")
    run.centre.release(connection, "abcdef")
    run.centre.expect(f"05abcdef{connection}")
    run.end()


def broken_a(start, _room, _program):
    """Octets that are no SCCP, no message, cut at each place, of connections nobody knows, or in segments: told, and
    nothing else is disturbed."""
    run = start()
    station = run.begin()
    number, connection = begin(run, station)
    request = "01000009020206" + "04435101fe" + "040443b900fe" + "0f03000120" + "00"
    whole = [RESET, request, f"06{connection}000103000120", f"04{connection}{connection}000100"]
    for text in whole:
        for end in range(0, len(text) - 2, 2):
            # a release whose pointer is cut is one without optional parameters
            if not (text.startswith("04") and end >= 18):
                run.centre.send(text[:end])
    odd = ["00" * 8, "ff" * 40, "11" + "00" * 20, "09" + "ff" * 30]
    for text in (*odd, "0600ffff000102aabb", "0f00ffff0000", "1000ffff00000002000000"):
        run.centre.send(text)
    for text in ("ff", "0001", "0005200401", "0200", "010000", "01000a0502"):
        run.centre.data(connection, text)
    run.centre.send("0400ffff00aaaa000100")
    run.centre.expect("0500aaaa00ffff")
    run.centre.send("0200ffff00bbbb0200")
    run.centre.expect("0400bbbb00ffff0.00")
    run.centre.send("0500ffff00bbbb")
    # CHANNEL RELEASE and HANDOVER COMMAND aren't the centre's to say, and more than 251 octets don't go on the air
    for layer_3 in ("060d00", MOVE, "05" * 252):
        run.centre.data(connection, f"0100{len(layer_3) // 2:02x}{layer_3}")
    # an unknown message is the controller's to refuse
    run.centre.data(connection, "0001fe")
    run.expect("^fault a 3 254$")
    # a connection for nothing is refused
    run.centre.ask("000abc", CLEAR)
    run.centre.expect("03000abc0.00")
    down(run, station, number, connection, ACCEPT)
    run.centre.send(f"06{connection}010103010001")
    run.centre.expect(f"04{connection}{connection}0.00")
    run.said.expect("a segmented message isn't taken")
    leave(run, station, number)
    run.end()
    must(any("XUDT, a message that may be segmented" in line for line in run.said.lines), "XUDT isn't named")
    must(any("A: DTAP of radio resources: 2" in line for line in run.said.lines), "it isn't counted")
    told = [message.hex() for _, message in station.came]
    # the end of the call has its own CHANNEL RELEASE
    must(not any(MOVE in it or len(it) > 502 for it in told), "the mobile is sent away, or told too much")
    must(sum("060d" in it for it in told) == 1, "the mobile is told by the centre to leave")


def comes_in(start, _room, _program):
    """A call comes by HANDOVER REQUEST, in a connection of its own; two of them are two calls, of numbers that none has;
    what is said to the mobile waits until it is there."""
    run = start()
    station = run.begin()
    run.ask("open 1 0 0 2")
    run.expect("record 0/0/2 on$")
    run.ask("clear 1")
    run.expect("^event released 0/0/2 -> done$")
    run.centre.ask("aaaaaa", REQUEST)
    own = run.centre.expect("02aaaaaa(......)0200")[1]
    run.expect("^in a 2 003d10")
    sent(station, "0821010903020604000108010900")
    run.centre.expect(f"06aaaaaa00011f{TAKEN}")
    # the other asks for the other channel, and is undone by the end of its connection alone
    run.centre.ask("bbbbbb", REQUEST)
    second = run.centre.expect("02bbbbbb(......)0200")[1]
    sent(station, "0821010a03020604000108010901")
    run.centre.expect("06bbbbbb00011f001d121709062b093c0a203c0105" + SPEAKS)
    run.centre.release(second, "bbbbbb")
    run.centre.expect(f"05bbbbbb{second}")
    sent(station, "082e010a")
    run.centre.data(own, "010002" + "8302")
    say(station, "020601090200")
    run.expect("^in abis 0 0 08270109$")
    run.centre.expect("06aaaaaa00010300011b")
    said(station, "09", "062c00")
    said(station, "09", "8341")
    run.centre.expect("06aaaaaa0001050003141500")
    run.centre.expect("06aaaaaa0001050100028341")
    sent(station, "0301010902000b00028302")
    run.centre.data(own, CLEAR)
    leave(run, station, "09")
    run.centre.expect(f"06aaaaaa000103{CLEARED}")
    run.centre.release(own, "aaaaaa")
    run.centre.expect(f"05aaaaaa{own}")
    run.end()


def moves(start, _room, _program):
    """What the centre says while a mobile is sent to another channel waits: where it arrives, it goes there; where it comes
    back, to the old one."""
    run = start()
    station, other = run.begin(), run.station(SECOND)
    number, connection = begin(run, station)
    run.ask("handover 1 1")
    sent(station, f"030101{number}02000b0009{MOVE}")
    run.centre.data(connection, "0100028301")
    said(station, number, "062801")
    run.expect("^event undo 1 asked -> record")
    sent(station, f"030101{number}02000b00028301")
    run.expect("^event released 1/0/1 -> done$")
    run.ask("handover 1 1")
    sent(station, f"030101{number}02000b0009{MOVE}")
    run.centre.data(connection, "0100028302")
    run.centre.data(connection, "0100028303")
    # this station doesn't say HANDOVER DETECTION itself
    say(other, "020601090200")
    run.expect("^in abis 1 0 08270109$", "^event detect 1/0/1 -> owned 1$")
    said(other, "09", "8344")
    said(other, "09", "062c00")
    run.expect("^event complete 1 -> done$")
    sent(other, "0301010902000b00028302")
    sent(other, "0301010902000b00028303")
    run.centre.expect(f"06{connection}00010d000b1704010c05050100170065")
    run.centre.expect(f"06{connection}0001050100028344")
    sent(station, f"082e01{number}")
    must(sum(it[1].hex().startswith("0301010902000b00028") for it in station.came) == 1, "the old channel is told")
    clear(run, other, "09", connection)
    run.end()


def goes_away(start, _room, _program):
    """A mobile goes to another controller: what the centre says to it behind that is left out."""
    run = start()
    station = run.begin()
    number, connection = begin(run, station)
    run.ask("handover 1 64")
    run.centre.expect(f"06{connection}00010e000c1104010c1b1a0501001800c8")
    run.centre.data(connection, "0016131709062b0b50096050000505080000f00000000000")
    sent(station, f"030101{number}02000b0009062b0b500960500005")
    run.centre.data(connection, "0100028301")
    run.centre.data(connection, "00042004010b")
    sent(station, f"082e01{number}")
    run.centre.expect(f"06{connection}000103{CLEARED}")
    run.centre.release(connection)
    run.centre.expect(f"05{connection}{connection}")
    must(not any(it[1].hex().endswith("8301") for it in station.came), "the mobile is told")
    run.end()


def leaves_alone(start, _room, _program):
    """A mobile ends its link without being told to: the centre is asked to clear its call. An operator's clear asks it too.
    """
    run = start()
    station = run.begin()
    number, connection = begin(run, station)
    say(station, f"020901{number}0200")
    run.centre.expect(f"06{connection}000106000422040101")
    clear(run, station, number, connection)
    number, connection = begin(run, station, reference="060a0d")
    run.ask("clear 2")
    run.centre.expect(f"06{connection}000106000422040107")
    sent(station, f"082e01{number}")
    run.centre.data(connection, CLEAR)
    run.centre.expect(f"06{connection}000103{CLEARED}")
    run.centre.release(connection)
    run.centre.expect(f"05{connection}{connection}")
    run.end()


def kept_connection(start, _room, _program):
    """The centre doesn't end the connection of a call that is over: the bridge does, and says so until it is acknowledged.
    """
    run = start(clearing=0.5, release=0.3)
    station = run.begin()
    number, connection = begin(run, station)
    run.centre.completes = False
    run.centre.data(connection, CLEAR)
    leave(run, station, number)
    for _ in range(3):
        run.centre.expect(f"04{connection}{connection}0.00")
    run.end()


def silent_connection(start, _room, _program):
    """Each side says that a connection is there; one of which nothing is heard for long ends."""
    run = start(alive=0.2, silence=SLOW)
    station = run.begin()
    number, connection = begin(run, station)
    for _ in range(4):
        run.centre.expect(f"10{connection}{connection}02000000")
        run.centre.send(f"10{connection}{connection}02000000")
    run.centre.expect(f"04{connection}{connection}0.00")
    leave(run, station, number)
    run.end()


def lost_centre(start, _room, _program):
    """The link to the centre is lost at each step of a registration: its call ends, nothing begins, and both sides begin
    anew."""
    run = start()
    station = run.begin()
    for place in range(5):
        reference = f"0{place}0a0d"
        run.centre.confirms = place != 1
        if place == 0:
            burst(station, reference)
            number = assigned(station, reference)
        else:
            number, connection = begin(run, station, reference=reference)
        if place == 2:
            down(run, station, number, connection, ACCEPT)
        elif place == 3:
            run.centre.data(connection, CLEAR)
            sent(station, f"030101{number}02000b0003060d00")
        elif place == 4:
            run.ask("handover 5 1")
        run.centre.lose()
        run.said.expect("A: the link is lost")
        if place != 3:
            leave(run, station, number, 1)
        else:
            say(station, f"020901{number}0200")
            run.expect("^event released 0/0/1 -> done$")
        run.said.expect("A: the centre is there")
    clear(run, station, *register(run, station, reference="080a0d"))
    run.end()


def no_centre(start, _room, _program):
    """There is no centre: mobiles are rejected, operators have their calls; it is tried again and again, and comes: then a mobile
    registers."""
    # a port that is kept from others, and at which nobody listens yet
    with socket.socket() as taken:
        taken.setsockopt(socket.SOL_SOCKET, socket.SO_REUSEADDR, 1)
        taken.bind(("127.0.0.1", 0))
        port = taken.getsockname()[1]
        run = start(port=port)
        station = run.station(FIRST)
        for _ in range(3):
            run.said.expect(f"A: no link to 127.0.0.1, port {port}: ECONNREFUSED")
        burst(station, "050a0d")
        rejected(station, "050a0d")
        run.ask("open 1 0 0 1")
        run.expect("record 0/0/1 on$")
        run.ask("clear 1")
        run.expect("^event released 0/0/1 -> done$")
        run.centre.stop()
        run.centre = TestCentre(port)
    run.said.expect("A: the centre is there")
    clear(run, station, *register(run, station, reference="060a0d"))
    run.end()


def lost_station(start, _room, _program):
    """A station is lost at each step of a registration: nothing is left, and once it is back a mobile registers."""
    run = start()
    station = run.begin()
    for place in range(4):
        reference = f"0{place}0a0d"
        station.unanswered = {0x21} if place == 0 else set()
        burst(station, reference)
        if place == 0:
            sent(station, "082101090300060400010801" + "1800")
        else:
            number = assigned(station, reference)
        if place >= 2:
            say(station, f"020601{number}02000b0012{UPDATE}")
            connection = run.centre.begun(UPDATE)
        if place == 3:
            run.centre.data(connection, CLEAR)
            run.centre.expect(f"06{connection}000103{CLEARED}")
        station.leave()
        run.said.expect("its link is lost")
        if place == 2:
            run.centre.expect(f"06{connection}0001060004220401..")
            run.centre.data(connection, CLEAR)
            run.centre.expect(f"06{connection}000103{CLEARED}")
        if place >= 2:
            run.centre.release(connection)
            run.centre.expect(f"05{connection}{connection}")
        run.expect("^event released 0/0/1 -> done$" if place else "^event clear 1 -> done$")
        station = run.station(FIRST)
    clear(run, station, *register(run, station, reference="080a0d"))
    run.end()


def flood(start, _room, _program):
    """A thousand bursts at once: as many channels are given as there are, or may await a mobile, the others are rejected, four by
    a message; all come back, and a mobile registers."""
    run = start(awaited=1, t3101=2 * SLOW)
    station, other = run.begin(), run.station(SECOND)
    station.send(b"".join(ipa.frame(0, bytes.fromhex(f"0c1301881305{place:04x}1100")) for place in range(1000)))
    told = set()
    while len(told) < 999:
        requests = sent(station, "0c1601902b174d063a03" + "(......)0a" * 4 + "2b2b2b").groups()
        must(len(set(requests)) == 4 or len(told) >= 996, f"only {len(set(requests))} requests are told together")
        must(not told & set(requests), "a request is told twice")
        told |= set(requests)
    run.expect("^in clear 1$", "^event released 0/0/1 -> done$")
    must(sum(line.startswith("in seize") for line in run.out.lines) == 1, "more than one mobile is awaited")
    clear(run, station, *register(run, station, reference="e10a0d"))
    must(other.is_there, "the other station left")
    passed(run, "CHANNEL REQUIRED that was rejected 999")


def random_octets(start, _room, _program):
    """Messages of both sides with octets that are changed, left out and put in at random: whatever they do, RESET ends it,
    and a mobile registers."""
    run = start(answer=SLOW, t3101=SLOW)
    station = run.begin()
    number, connection = begin(run, station)
    chance = random.Random(70)
    of_centre = [RESET_ACKNOWLEDGE, f"06{connection}0001" + "0e01000b" + ACCEPT[:22], f"01000009020206{ASKING}0f3f{REQUEST}00"]
    of_centre += [f"06{connection}000106{CLEAR}", f"04{connection}{connection}000100", f"02{connection}0000090201030242fe00"]
    of_station = ["0c13018813050a0d1100", f"020601{number}02000b0012{UPDATE}", f"030201{number}02000b0002{COMPLETE}"]
    of_station += [f"020901{number}0200", f"082201{number}080000", f"082401{number}1a0101", f"030201{number}02000b0003062c00"]
    for _ in range(1500):
        run.centre.frame(b"\xfd" + changed(chance, bytes.fromhex(chance.choice(of_centre))))
        station.say(changed(chance, bytes.fromhex(chance.choice(of_station))))
    # what the station sent is all taken once its link is lost
    station.leave()
    run.said.expect("its link is lost")
    run.centre.send(RESET)
    run.centre.expect("09000305090242fe04435101fe03000131")
    emptied(run)
    station = run.station(FIRST)
    clear(run, station, *register(run, station, reference="f70a0d"))
    run.end()


def changed(chance, octets):
    """Octets, of which some are changed, left out or put in."""
    octets = bytearray(octets)
    for _ in range(chance.randrange(4)):
        at = chance.randrange(len(octets) + 1)
        octets[at : at + chance.randrange(3)] = chance.randbytes(chance.randrange(3))
    return bytes(octets)


def killed(start, _room, _program):
    """In a call the bridge is told to end by a signal: all ends. The controller is killed in a call: so it does, with status
    1."""
    run = start()
    station = run.begin()
    begin(run, station)
    run.process.send_signal(signal.SIGTERM)
    must(station.await_end(), "the station's link stays")
    run.wait(0)
    run = start()
    station = run.begin()
    begin(run, station)
    process = run.process.pid
    os.kill(int(pathlib.Path(f"/proc/{process}/task/{process}/children").read_text()), signal.SIGKILL)
    must(station.await_end(), "the station's link stays")
    run.wait(1)


CHECKS = [
    a_registration,
    system_information,
    emergency_calls,
    messages_of_a_mobile,
    nothing_free,
    no_mobile,
    odd_bursts,
    odd_messages,
    too_early_on_a_target,
    refused_channel,
    reports,
    resets,
    released,
    late_confirm,
    broken_a,
    comes_in,
    moves,
    goes_away,
    leaves_alone,
    kept_connection,
    silent_connection,
    lost_centre,
    no_centre,
    lost_station,
    flood,
    random_octets,
    killed,
]
