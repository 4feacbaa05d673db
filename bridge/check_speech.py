"""The checks of assignment: speech and signalling that the centre asks for on a call, what the mobile and the station make of
it, and what isn't to be had."""
from harness import SLOW, must
from network_harness import CLEAR, REQUEST, SECOND, SITE, TAKEN, burst, clear, down, leave, said, say, sent, up
from speech_harness import (
    ASSIGN,
    SERVICE,
    Call,
    ask_for_speech,
    assigned_speech,
    deleted,
    failed,
    joined,
    speak,
    start_call,
    take_mode,
    told_mode,
)

# A site whose second timeslot may be halved.
HALVES = SITE.replace("arfcn = 60, tch = [1, 2] }", "arfcn = 60, tch = [1, 2], half = [2] }")
# ASSIGNMENT REQUEST for signalling alone (TS 48.008, 3.2.2.11), and what answers it on a full rate channel.
SIGNALLING, SIGNALS = "0005010b020308", "00050221882c01"
# What the centre may ask for that isn't to be had, and why not: the cause of ASSIGNMENT FAILURE (3.2.2.5). Elements: channel
# type 0B, circuit identity 01, transport address 7C, list of codecs 7D.
AT = "7c067f0000010fa2"
UNSERVED = (
    # data; speech and text at once; a kind that there isn't
    ("0b03020808" + AT, "25"),
    ("0b04040a0105" + AT, "25"),
    ("0b03070808" + AT, "53"),
    # no channel type, one that is cut, and an element that is
    (AT, "52"),
    ("0b0101" + AT, "51"),
    ("0b0b010a", "51"),
    # a half rate channel, on a full rate one; versions that there aren't: EFR and AMR
    ("0b03010905" + AT, "21"),
    ("0b04010aa111" + AT, "33"),
    # codecs without version 1 at full rate, one that isn't coded so up to the centre, and a list that is cut
    ("0b04010a8105" + AT + "7d0483ff5782", "35"),
    ("0b04010a8105" + AT + "7d0100", "35"),
    ("0b04010a8105" + AT + "7d0283ff", "51"),
    # a circuit; an address of version 6; and one that is neither
    ("0b04010a8105" + "010001", "36"),
    ("0b04010a8105" + "7c12" + "20010db8000000000000000000000001" + "0fa2", "22"),
    ("0b04010a8105" + "7c047f000001", "51"),
    ("0b04010a8105" + "7c06000000000fa2", "53"),
    ("0b04010a8105" + "7c067f0000010000", "53"),
)


def request(elements):
    """ASSIGNMENT REQUEST with elements."""
    return f"00{len(elements) // 2 + 1:02x}01{elements}"


# Each gets a function that starts a network, with options of CONFIG, a folder, and the program.


def a_call_speaks(start, _room, _program):
    """The centre asks for speech: the station and the gateway have it, the mobile is told the mode, and the centre where it is.
    At its end the endpoint is deleted, and nothing else is asked of the gateway."""
    run = start()
    station = run.begin()
    call = start_call(run, station, reference="e30ad1")
    speak(call)
    must(call.centre_port != call.station_port, "both sides have one port")
    must(len(run.gateway.came) == 2, f"the gateway is asked {run.gateway.came}")
    down(run, station, call.number, call.connection, "8302")
    up(run, station, call.number, call.connection, "8341")
    clear(run, station, call.number, call.connection)
    deleted(call)
    run.end()
    must(len(run.gateway.came) == 3, f"the gateway is asked {run.gateway.came}")


def two_calls_speak(start, _room, _program):
    """Two calls at once have an endpoint each; one of them ends, and the other goes on."""
    run = start()
    station, other = run.begin(), run.station(SECOND)
    one = start_call(run, station, reference="e30ad1")
    speak(one)
    burst(other, "870a0d")
    number = sent(other, "082101(..)0300060400010801" + "1800")[1]
    say(other, f"020601{number}02000b000d{SERVICE}")
    two = Call(run, other, number, run.centre.begun(SERVICE, 101))
    run.centre.data(two.connection, ASSIGN)
    joined(two, other, number)
    told_mode(two, description="4046")
    take_mode(two, description="4046")
    two.endpoint = "rtpbridge/2@mgw"
    assigned_speech(two)
    two.speaks()
    must(one.centre_port != two.centre_port, "both calls have one port")
    clear(run, station, one.number, one.connection)
    run.gateway.expect(rf"DLCX \d+ {one.endpoint} .*")
    two.speaks()
    clear(run, other, two.number, two.connection)
    deleted(two)
    run.end()


def a_half_speaks(start, _room, _program):
    """A call on a half has half a channel's speech: the station, the gateway and the centre are told the other codec."""
    run = start(site=HALVES)
    station = run.begin()
    for place, channel in ((90, "1"), (91, "2/0")):
        run.ask(f"open {place} 0 0 {channel}")
        run.expect(f"record 0/0/{channel} on$")
    burst(station, "430a0d")
    sent(station, "0821011a0300060400010901" + "1800")
    sent(station, "0c1601902b172d063f031a203c430a0d00002b2b2b2b2b2b2b2b2b2b2b")
    say(station, f"0206011a02000b000d{SERVICE}")
    call = Call(run, station, "1a", run.centre.begun(SERVICE, codec="81"))
    # one who permits full rate alone, by the channel type or by the codecs, is refused
    run.centre.data(call.connection, request("0b04010881" + "05" + AT))
    failed(call, "21")
    run.centre.data(call.connection, request("0b04010a8105" + AT + "7d0180"))
    failed(call, "35")
    run.centre.data(call.connection, ASSIGN)
    call.station_port = joined(call, station, "1a", "03", "6f")
    told_mode(call)
    take_mode(call)
    call.endpoint = "rtpbridge/1@mgw"
    assigned_speech(call, "2199", "05", "81")
    call.speaks()
    for _, text in run.gateway.came:
        has_payload = "RTP/AVP 111\r\na=rtpmap:111 GSM-HR-08/8000/1\r\n" in text
        must("a:GSM-HR-08," in text and has_payload, f"the gateway is asked {text}")
    run.centre.data(call.connection, CLEAR)
    deleted(call)
    say(station, "0209011a0200")
    sent(station, "082e011a")
    run.expect("^event released 0/0/2/1 -> done$")
    run.end(is_empty=False)


def signalling_alone(start, _room, _program):
    """The centre asks for signalling alone: it has that at once. Of a call that speaks the mobile is told the mode first, and
    the endpoint is deleted; then it may speak again."""
    run = start()
    station = run.begin()
    call = start_call(run, station)
    run.centre.data(call.connection, SIGNALLING)
    run.centre.expect(f"06{call.connection}000107{SIGNALS}")
    must(not run.gateway.came, "the gateway is asked")
    speak(call)
    run.centre.data(call.connection, SIGNALLING)
    told_mode(call, "00")
    take_mode(call, "00")
    sent(station, f"7e7701{call.number}f80000")
    run.centre.expect(f"06{call.connection}000107{SIGNALS}")
    deleted(call)
    speak(call)
    clear(run, station, call.number, call.connection)
    deleted(call)
    run.end()


def unserved(start, _room, _program):
    """What isn't to be had is refused, by its cause; the call goes on, and can speak."""
    run = start()
    station = run.begin()
    call = start_call(run, station)
    for elements, cause in UNSERVED:
        run.centre.data(call.connection, request(elements))
        failed(call, cause)
        down(run, station, call.number, call.connection, "8302")
    must(not run.gateway.came, f"the gateway is asked {run.gateway.came}")
    speak(call, request("0b03010801" + AT + "7d0180"))
    clear(run, station, call.number, call.connection)
    deleted(call)
    run.end()


def asked_twice(start, _room, _program):
    """The centre asks again while it isn't answered: the second is refused. Once it is, it may name another place of its
    own."""
    run = start()
    station = run.begin()
    call = start_call(run, station)
    ask_for_speech(call)
    run.centre.data(call.connection, ASSIGN)
    failed(call, "60")
    # behind the mode may stand a training sequence set (TS 44.018, 9.1.6)
    take_mode(call, "016d00")
    assigned_speech(call)
    call.speaks()
    run.centre.data(call.connection, ASSIGN.replace("0fa2", "1f90"))
    run.gateway.expect(rf"MDCX \d+ {call.endpoint} .*m=audio 8080 .*")
    assigned_speech(call)
    run.gateway.speaks(call.endpoint, 8080, call.at())
    clear(run, station, call.number, call.connection)
    deleted(call)
    run.end()


def mode_not_taken(start, _room, _program):
    """The mobile doesn't take the mode, or says nothing of it (T10): ASSIGNMENT FAILURE; the station and the gateway have no
    speech any more, and the call goes on. An answer that comes too late, on another link, or cut, is counted."""
    run = start(t10=SLOW)
    station = run.begin()
    call = start_call(run, station)
    take_mode(call)
    for mode, cause in (("00", "26"), (None, "00")):
        ask_for_speech(call)
        said(station, call.number, f"0617{call.number}203c")
        if mode:
            take_mode(call, mode)
        failed(call, cause)
        sent(station, f"7e7701{call.number}f80000")
        deleted(call)
        take_mode(call)
        down(run, station, call.number, call.connection, "8302")
    speak(call)
    clear(run, station, call.number, call.connection)
    deleted(call)
    run.end()
    told = "CHANNEL MODE MODIFY ACKNOWLEDGE that isn't awaited, or cut 5"
    must(any(told in line for line in run.said.lines), "the answers aren't counted")


def station_without_speech(start, _room, _program):
    """A station refuses speech, says nothing of it, or says what can't be read: ASSIGNMENT FAILURE; the call goes on."""
    run = start(answer=SLOW)
    station = run.begin()
    call = start_call(run, station)
    number = call.number
    station.unanswered = {0x70}
    nowhere = f"7e7101{number}f80000f500000000f34000", f"7e7101{number}f80000f57f000001f30000"
    for answers in ((f"7e7201{number}1a012f",), nowhere[:1], nowhere[1:], (), ("7e", "7e71", f"7e7101{number}", f"7e7101{number}f5", f"7e7f01{number}")):
        run.centre.data(call.connection, ASSIGN)
        sent(station, f"7e7001{number}f410f203")
        for answer in answers:
            say(station, answer)
        failed(call, "20")
        if answers in (nowhere[:1], nowhere[1:]):
            # it would refuse the next one
            sent(station, f"7e7701{number}f80000")
        run.gateway.emptied()
        down(run, station, number, call.connection, "8302")
    station.unanswered = {0x73}
    run.centre.data(call.connection, ASSIGN)
    joined(call, station, number)
    say(station, f"7e7501{number}f800001a016f")
    failed(call, "20")
    sent(station, f"7e7701{number}f80000")
    run.gateway.emptied()
    station.unanswered = set()
    # what nobody awaits
    for message in (f"7e7101{number}f80000f57f000001f34000", f"7e7801{number}f80000", f"7e7601{number}f80000"):
        say(station, message)
    sent(station, f"7e7701{number}f80000")
    up(run, station, number, call.connection, "8341")
    speak(call)
    clear(run, station, number, call.connection)
    deleted(call)
    run.end()


def stale_answers(start, _room, _program):
    """A station answers late, as osmo-bts would: where it has the connection that was given up; then it refuses the next one. The
    call speaks by the first, and what comes beside changes nothing."""
    run = start(answer=SLOW)
    station = run.begin()
    call = start_call(run, station)
    number = call.number
    station.unanswered = {0x70}
    run.centre.data(call.connection, ASSIGN)
    sent(station, f"7e7001{number}f410f203")
    failed(call, "20")
    run.gateway.emptied()
    run.centre.data(call.connection, ASSIGN)
    sent(station, f"7e7001{number}f410f203")
    for message in (f"7e7101{number}f80000f57f000001f34012", f"7e7201{number}1a012f", f"7e7101{number}f80000f57f000001f35555"):
        say(station, message)
    call.station_port = int(sent(station, f"7e7301{number}f80000f07f000001f1(....)f400f203")[1], 16)
    told_mode(call)
    take_mode(call)
    assigned_speech(call)
    for message in (f"7e7201{number}1a012f", f"7e7501{number}1a016f", f"7e7401{number}f80000"):
        say(station, message)
    up(run, station, number, call.connection, "8341")
    call.endpoint = f"rtpbridge/{run.gateway.endpoint_count}@mgw"
    call.speaks()
    clear(run, station, number, call.connection)
    deleted(call)
    run.end()
    must(not any("22040120" in it for it in run.centre.came), "the centre is asked to clear the call")


def station_ends_speech(start, _room, _program):
    """A station ends the speech of a call that goes on: the centre is asked to clear it, once."""
    run = start()
    station = run.begin()
    call = start_call(run, station)
    speak(call)
    for _ in range(2):
        say(station, f"7e7601{call.number}f80000" + "f61c" + "00" * 28 + "1a010f")
    run.centre.expect(f"06{call.connection}000106000422040120")
    clear(run, station, call.number, call.connection)
    deleted(call)
    run.end()
    must(sum("0422040120" in it for it in run.centre.came) == 1, "it is asked twice")


def ends_while_it_is_asked_again(start, _room, _program):
    """The centre asks for speech from another place of its own. The gateway doesn't take that: the assignment fails, and the call
    speaks as before. The station ends the speech before the gateway has answered: the centre is asked to clear the call,
    too."""
    run = start(**{"gateway-repeat": 4})
    station = run.begin()
    call = start_call(run, station)
    speak(call)
    again = ASSIGN.replace("0fa2", "1f90")
    run.gateway.refused = {"MDCX": 400}
    run.centre.data(call.connection, again)
    failed(call, "22")
    up(run, station, call.number, call.connection, "8341")
    call.speaks()
    must(not any("0422040120" in it for it in run.centre.came), "it is to be cleared")
    run.gateway.refused, run.gateway.unanswered = {}, {"MDCX"}
    run.centre.data(call.connection, again)
    run.gateway.expect(r"MDCX \d+ rtpbridge/1@mgw .*m=audio 8080 .*")
    say(station, f"7e7601{call.number}f80000")
    failed(call, "20")
    run.centre.expect(f"06{call.connection}000106000422040120")
    run.gateway.unanswered = set()
    clear(run, station, call.number, call.connection)
    deleted(call)
    run.end()


def lost_before_it_comes(start, _room, _program):
    """A call that is to come from another controller loses its speech, and doesn't come: it isn't kept as one whose channel is
    lost."""
    run = start()
    station = run.begin()
    run.centre.ask("aaaaaa", REQUEST)
    own = run.centre.expect("02aaaaaa(......)0200")[1]
    run.centre.expect(f"06aaaaaa00011f{TAKEN}")
    say(station, "7e7601091a0120")
    run.centre.expect("06aaaaaa000106000422040120")
    run.ask("undo 1")
    sent(station, "082e0109")
    run.expect("^event released 0/0/1 -> done$")
    run.centre.release(own, "aaaaaa")
    run.centre.expect(f"05aaaaaa{own}")
    run.ask("calls")
    run.expect("^no channel is in use$")
    run.gateway.emptied()
    run.end()


def cleared_at_each_step(start, _room, _program):
    """The centre clears a call at each step of its assignment: nothing is left, of which the gateway is told."""
    run = start()
    station = run.begin()
    for place in range(4):
        station.unanswered = ({0x70}, {0x73}, set(), set())[place]
        call = start_call(run, station, reference=f"e{place}0ad1")
        run.centre.data(call.connection, ASSIGN)
        sent(station, f"7e7001{call.number}f410f203")
        if place:
            sent(station, f"7e7301{call.number}.*")
        if place > 1:
            told_mode(call)
        if place > 2:
            take_mode(call)
            assigned_speech(call)
        clear(run, station, call.number, call.connection)
        run.gateway.emptied()
    run.end()


def lost_while_it_speaks(start, _room, _program):
    """The station is lost, the link to the centre is, an operator clears the call, the mobile leaves: each time the endpoint is
    deleted."""
    run = start()
    station = run.begin()
    call = start_call(run, station, reference="e00ad1")
    speak(call)
    run.ask("clear 1")
    run.centre.expect(f"06{call.connection}000106000422040107")
    deleted(call)
    run.centre.release(call.connection)
    run.expect("^event released 0/0/1 -> done$")
    call = start_call(run, station, reference="e10ad1")
    speak(call)
    say(station, f"020901{call.number}0200")
    run.centre.expect(f"06{call.connection}000106000422040101")
    clear(run, station, call.number, call.connection)
    deleted(call)
    call = start_call(run, station, reference="e20ad1")
    speak(call)
    run.centre.lose()
    run.said.expect("A: the link is lost")
    deleted(call)
    leave(run, station, call.number, 1)
    run.said.expect("A: the centre is there")
    call = start_call(run, station, reference="e30ad1")
    speak(call)
    station.leave()
    run.centre.expect(f"06{call.connection}0001060004220401..")
    run.centre.data(call.connection, "000420040109")
    deleted(call)
    run.centre.release(call.connection)
    run.expect("^event released 0/0/1 -> done$")
    run.ask("network")
    run.expect("^speech: 0 endpoints; gateway: not silent; transactions: . open, asked 12, ")
    run.end()


def ends_while_it_speaks(start, _room, _program):
    """The bridge ends while a call speaks: the gateway is told."""
    run = start()
    station = run.begin()
    call = start_call(run, station)
    speak(call)
    run.end(is_empty=False)
    deleted(call)


CHECKS = [
    a_call_speaks,
    two_calls_speak,
    a_half_speaks,
    signalling_alone,
    unserved,
    asked_twice,
    mode_not_taken,
    station_without_speech,
    stale_answers,
    station_ends_speech,
    ends_while_it_is_asked_again,
    lost_before_it_comes,
    cleared_at_each_step,
    lost_while_it_speaks,
    ends_while_it_speaks,
]
