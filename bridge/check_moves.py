"""The checks of handovers of calls that speak: within the controller, and from another one; where speech goes at each step, and
what becomes of those for which there is none."""
import time

from centre import RESET
from harness import LIMIT, SLOW, must
from network_harness import CLEAR, CLEARED, MOVE, REQUEST, SECOND, TAKEN, clear, leave, said, say, sent, up
from speech_harness import (
    ASSIGN,
    Call,
    ask_for_speech,
    assigned_speech,
    deleted,
    joined,
    speak,
    start_call,
    take_mode,
    told_mode,
)

# HANDOVER PERFORMED (TS 48.008, 3.2.1.25) into the second cell.
PERFORMED = "000b1704010c05050100170065"


def begin_moving(run, station, other, call):
    """An operator hands a call over to the second cell; the port where the gateway has it for the station. The mobile is told
    once the target has speech."""
    run.ask(f"handover {call_number(run)} 1")
    port = joined(call, other, "09")
    sent(station, f"030101{call.number}02000b0009{MOVE}")
    return port


def call_number(run):
    """The number of the last call that began, once the controller has told of it."""

    def begun():
        return [line.split()[2] for line in run.out.lines if line.startswith("in seize ")]

    with run.out.changed:
        must(run.out.changed.wait_for(begun, LIMIT), "no call began")
        return begun()[-1]


def start_speaking(start, **options):
    """A network with two stations, and a call in the first that speaks."""
    run = start(**options)
    station, other = run.begin(), run.station(SECOND)
    other.ports = 0x5000
    call = start_call(run, station, reference="e00ad1")
    speak(call)
    return run, station, other, call


def comes(run, station, own="aaaaaa", request=REQUEST):
    """A call comes from another controller, up to CHANNEL ACTIVATION; its connection, as the bridge knows it."""
    run.centre.ask(own, request)
    connection = run.centre.expect(f"02{own}(......)0200")[1]
    sent(station, "0821010903.*")
    return connection


def refused_by_cause(run, own, connection, cause):
    """HANDOVER FAILURE (TS 48.008, 3.2.1.16) comes, and the centre ends the connection."""
    run.centre.expect(f"06{own}0001060004160401{cause}")
    run.centre.release(connection, own)
    run.centre.expect(f"05{own}{connection}")


# Each gets a function that starts a network, with options of CONFIG, a folder, and the program.


def speech_moves(start, _room, _program):
    """A call that speaks is handed over: the target's station has its speech before the mobile is sent there; the gateway
    speaks with it once the mobile is there, and with the centre as before."""
    run, station, other, call = start_speaking(start)
    other.unanswered = {0x73}
    run.ask("handover 1 1")
    port = joined(call, other, "09")
    must(port == call.station_port, "the target is told another port")
    time.sleep(0.5)
    must(not any(MOVE in it[1].hex() for it in station.came), "the mobile is sent away before there is speech")
    say(other, "7e740109f80000f57f000001f35012")
    sent(station, f"030101{call.number}02000b0009{MOVE}")
    call.speaks()
    say(other, "08270109")
    call.speaks(call.at(other, "09"))
    said(other, "09", "062c00")
    run.centre.expect(f"06{call.connection}00010d{PERFORMED}")
    sent(station, f"082e01{call.number}")
    call.speaks(call.at(other, "09"))
    must([text[:4] for _, text in run.gateway.came] == ["CRCX", "CRCX", "MDCX"], f"the gateway is asked {run.gateway.came}")
    must(not any(it[1][:2] == b"\x7e\x77" for it in station.came), "the old station is told, and releases it by itself")
    clear(run, other, "09", call.connection)
    deleted(call)
    run.end()


def speech_comes_back(start, _room, _program):
    """A call comes back, before it was heard on its target and behind that, by the mobile, an operator, and T3103: the gateway
    speaks with the old station again."""
    run, station, other, call = start_speaking(start, t3103=SLOW)
    for is_detected in (False, True):
        for ends in ("mobile", "operator", "timer"):
            begin_moving(run, station, other, call)
            if is_detected:
                say(other, "08270109")
                call.speaks(call.at(other, "09"))
            if ends == "mobile":
                said(station, call.number, "062801")
            elif ends == "operator":
                run.ask("undo 1")
            run.expect("^event undo 1 ", "^event released 1/0/1 -> done$")
            call.speaks()
    for _ in range(2):
        run.centre.expect(f"06{call.connection}000106000422040100")
    clear(run, station, call.number, call.connection)
    deleted(call)
    run.end()


def moves_and_moves(start, _room, _program):
    """A call goes there and back, ten times: it has one endpoint, and speech at its station each time."""
    run, station, other, call = start_speaking(start)
    here, there, move = (station, call.number), (other, "09"), MOVE
    for place in range(10):
        run.ask(f"handover 1 {(place + 1) % 2}")
        port = joined(call, *there)
        must(port == call.station_port, f"the gateway has another port: {port}")
        move = sent(here[0], f"030101{here[1]}02000b0009(062b.*)")[1]
        say(there[0], f"082701{there[1]}")
        said(there[0], there[1], "062c00")
        run.expect("^event complete 1 -> done$")
        sent(here[0], f"082e01{here[1]}")
        call.speaks(call.at(*there))
        run.expect("^event released ./0/. -> done$")
        here, there = there, here
    must(run.gateway.connection_count == 2, "there are more connections")
    clear(run, *here, call.connection)
    deleted(call)
    run.end()


def target_without_speech(start, _room, _program):
    """The target's station refuses speech, or says nothing of it: the handover is undone, and the mobile isn't sent away."""
    run, station, other, call = start_speaking(start, answer=SLOW)
    for unanswered, answer in ((0x70, "7e7201091a012f"), (0x70, None), (0x73, "7e750109f800001a012f"), (0x73, None)):
        other.unanswered = {unanswered}
        run.ask("handover 1 1")
        sent(other, f"7e{unanswered:02x}0109.*")
        if answer:
            say(other, answer)
        run.expect("^in undo 1$", "^event undo 1 asked -> record", "^event released 1/0/1 -> done$")
        call.speaks()
    must(not any(MOVE in it[1].hex() for it in station.came), "the mobile is sent away")
    other.unanswered = set()
    begin_moving(run, station, other, call)
    clear_in_attempt(run, station, call)
    run.end()


def clear_in_attempt(run, station, call):
    """The centre clears a call that is on its way: the endpoint is deleted."""
    run.centre.data(call.connection, CLEAR)
    leave(run, station, call.number)
    run.centre.expect(f"06{call.connection}000103{CLEARED}")
    run.centre.release(call.connection)
    deleted(call)


def undone_before_it_is_sent(start, _room, _program):
    """An operator undoes a handover while its target has no speech yet: the mobile hears nothing of it, and is handed over by
    the next."""
    run, station, other, call = start_speaking(start, answer=60)
    other.unanswered = {0x70}
    run.ask("handover 1 1")
    sent(other, "7e700109f410f203")
    run.ask("undo 1")
    run.expect("^event undo 1 asked -> record", "^event released 1/0/1 -> done$")
    # the answer of the first comes when the second is under way, as if it were that one's
    run.ask("handover 1 1")
    sent(other, "7e700109f410f203")
    other.unanswered = set()
    say(other, "7e710109f80000f57f000001f35012")
    sent(other, f"7e730109f80000f07f000001f1{call.station_port:04x}f400f203")
    sent(station, f"030101{call.number}02000b0009062b0a46094046..05")
    must(sum("062b0a" in it[1].hex() for it in station.came) == 1, "the mobile is sent away twice")
    clear_in_attempt(run, station, call)
    run.end()


def gateway_lost_while_it_moves(start, _room, _program):
    """The gateway doesn't answer where speech is to move: the centre is asked to clear the call."""
    run, station, other, call = start_speaking(start, gateway=SLOW, **{"gateway-repeat": 0.3})
    begin_moving(run, station, other, call)
    run.gateway.unanswered = {"MDCX"}
    say(other, "08270109")
    run.centre.expect(f"06{call.connection}000106000422040120")
    run.said.expect("call 1: its speech is lost")
    said(other, "09", "062c00")
    run.expect("^event complete 1 -> done$")
    clear(run, other, "09", call.connection)
    deleted(call)
    run.end()
    must(sum("0422040120" in it for it in run.centre.came) == 1, "it is asked twice")


def slow_gateway(start, _room, _program):
    """The mobile comes back before the gateway has answered that it is on its target: in the end it speaks where the mobile
    is."""
    run, station, other, call = start_speaking(start, gateway=30, **{"gateway-repeat": 1})
    run.gateway.unanswered = {"MDCX"}
    begin_moving(run, station, other, call)
    say(other, "08270109")
    run.gateway.expect(r"MDCX .*")
    run.ask("undo 1")
    run.expect("^event undo 1 asked -> record", "^event released 1/0/1 -> done$")
    run.gateway.unanswered = set()
    for port in (call.at(other, "09"), call.at()):
        run.gateway.expect(rf"MDCX .*m=audio {port} .*")
    call.speaks()
    clear(run, station, call.number, call.connection)
    deleted(call)
    run.end()


def assigned_behind_an_attempt(start, _room, _program):
    """The centre asks for speech while a call moves: it waits for the attempt's end, and the mobile is told where it is
    then."""
    run = start()
    station, other = run.begin(), run.station(SECOND)
    other.ports = 0x5000
    call = start_call(run, station)
    for is_back in (True, False):
        run.ask("handover 1 1")
        sent(station, f"030101{call.number}02000b0009{MOVE}")
        run.centre.data(call.connection, ASSIGN)
        time.sleep(0.3)
        must(not run.gateway.came, "the gateway is asked")
        if is_back:
            said(station, call.number, "062801")
            joined(call, station, call.number)
            told_mode(call)
            take_mode(call, "00")
            run.centre.expect(f"06{call.connection}000106000403040126")
            run.gateway.emptied()
            run.gateway.came.clear()
            run.gateway.at = 0
            run.expect("^event released 1/0/1 -> done$")
    say(other, "08270109")
    said(other, "09", "062c00")
    call.station, call.number = other, "09"
    joined(call, other, "09")
    told_mode(call, description="4046")
    take_mode(call, description="4046")
    call.endpoint = "rtpbridge/2@mgw"
    assigned_speech(call)
    call.speaks()
    clear(run, other, "09", call.connection)
    deleted(call)
    run.end()


def moves_while_it_is_assigned(start, _room, _program):
    """A call is handed over before its mobile has taken the mode: what is said of that on the target before it has arrived doesn't
    count. It is told again where it arrives, and speaks there; T10 has ended then."""
    run = start(t10=SLOW)
    station, other = run.begin(), run.station(SECOND)
    other.ports = 0x5000
    call = start_call(run, station)
    ask_for_speech(call)
    begin_moving(run, station, other, call)
    time.sleep(SLOW + 0.5)
    said(other, "09", "061709404601")
    say(other, "08270109")
    said(other, "09", "062c00")
    call.station, call.number = other, "09"
    told_mode(call, description="4046")
    take_mode(call, description="4046")
    assigned_speech(call)
    call.speaks()
    time.sleep(SLOW + 0.5)
    up(run, other, "09", call.connection, "8341")
    must(not any("000403" in it for it in run.centre.came), "the assignment has failed")
    clear(run, other, "09", call.connection)
    deleted(call)
    run.end()


def moves_without_speech(start, _room, _program):
    """A call is handed over while the gateway is asked in vain for its speech: once that is given up the mobile is sent away, and
    its call goes on without."""
    run = start(gateway=SLOW, **{"gateway-repeat": 0.3})
    station, other = run.begin(), run.station(SECOND)
    call = start_call(run, station)
    run.gateway.unanswered = {"CRCX"}
    run.centre.data(call.connection, ASSIGN)
    sent(station, f"7e7001{call.number}f410f203")
    run.ask("handover 1 1")
    sent(other, "7e700109f410f203")
    run.centre.expect(f"06{call.connection}000106000403040120")
    sent(station, f"030101{call.number}02000b0009{MOVE}")
    say(other, "08270109")
    said(other, "09", "062c00")
    run.expect("^event complete 1 -> done$")
    clear(run, other, "09", call.connection)
    run.end()


def undone_without_speech(start, _room, _program):
    """The same, but an operator takes the handover back before the gateway is given up: the mobile isn't sent away then."""
    run = start(gateway=SLOW, **{"gateway-repeat": 0.3})
    station, other = run.begin(), run.station(SECOND)
    call = start_call(run, station)
    run.gateway.unanswered = {"CRCX"}
    run.centre.data(call.connection, ASSIGN)
    sent(station, f"7e7001{call.number}f410f203")
    run.ask("handover 1 1")
    sent(other, "7e700109f410f203")
    run.ask("undo 1")
    run.expect("^event undo 1 asked -> record", "^event released 1/0/1 -> done$")
    run.centre.expect(f"06{call.connection}000106000403040120")
    up(run, station, call.number, call.connection, "8341")
    must(not any(MOVE in it[1].hex() for it in station.came), "the mobile is sent away")
    clear(run, station, call.number, call.connection)
    run.end()


def comes_and_speaks(start, _room, _program, request=REQUEST):
    """A call comes from another controller: it has speech before HANDOVER REQUEST ACKNOWLEDGE goes, which says where; it goes
    on to speak once it is there."""
    run = start()
    station = run.begin()
    station.unanswered = {0x73}
    own = comes(run, station, request=request)
    call = Call(run, station, "09", own)
    joined(call, station, "09")
    time.sleep(0.3)
    must(not any("121709" in it for it in run.centre.came), "it is acknowledged before it has speech")
    say(station, "7e740109f80000f57f000001f34012")
    found = run.centre.expect(f"06aaaaaa00011f{TAKEN.replace('....', '(....)')}")
    call.endpoint = "rtpbridge/1@mgw"
    run.gateway.speaks(call.endpoint, 0x0FB2, call.at())
    must(int(found[1], 16) == 4002, f"the centre is told the port {found[1]}")
    say(station, "08270109")
    run.centre.expect("06aaaaaa00010300011b")
    said(station, "09", "062c00")
    run.centre.expect("06aaaaaa0001050003141500")
    # speech is there already: where the centre asks for it again, from elsewhere, the mobile needn't be told
    run.centre.data(own, ASSIGN)
    run.centre.expect("06aaaaaa00011400120221982c0140017c067f0000010fa27e0180")
    call.speaks()
    run.centre.data(own, CLEAR)
    leave(run, station, "09")
    run.centre.expect(f"06aaaaaa000103{CLEARED}")
    deleted(call)
    run.centre.release(own, "aaaaaa")
    run.centre.expect(f"05aaaaaa{own}")
    run.end()


def comes_with_spare_bits(start, room, program):
    """The same, where the channel type's spare bits aren't 0 (TS 48.008, 3.2.2.11): it asks for speech."""
    comes_and_speaks(start, room, program, REQUEST.replace("0b07010a", "0b07f10a"))


def comes_without_speech(start, _room, _program):
    """A call comes from another controller for which there is no speech: the gateway is silent, or refuses; the station
    refuses; what is asked for isn't to be had: HANDOVER FAILURE, and nothing is left."""
    run = start(gateway=SLOW, answer=SLOW, **{"gateway-repeat": 0.3})
    station = run.begin()
    own = {"gateway silent": "20", "gateway refuses": "22", "station refuses": "20"}
    for what, cause in own.items():
        run.gateway.unanswered = {"CRCX"} if what == "gateway silent" else set()
        run.gateway.refused = {"CRCX": 403} if what == "gateway refuses" else {}
        station.unanswered = {0x70} if what == "station refuses" else set()
        connection = comes(run, station)
        if what == "station refuses":
            sent(station, "7e700109f410f203")
            say(station, "7e7201091a012f")
        refused_by_cause(run, "aaaaaa", connection, cause)
        run.expect("^event released 0/0/1 -> done$")
    run.gateway.unanswered, run.gateway.refused, station.unanswered = set(), {}, set()
    # AMR alone, by the versions; a list of codecs without version 1; a circuit
    amr = REQUEST.replace("0b07010aa19181a505", "0b04010aa125").replace("003d10", "003a10")
    listed = REQUEST.replace("7f03000080", "7d0282817f03000080").replace("003d10", "004110")
    circuit = REQUEST.replace("7c067f0000010fb2", "010001").replace("003d10", "003810")
    for request, cause in ((amr, "33"), (listed, "35"), (circuit, "36")):
        run.centre.ask("aaaaaa", request)
        connection = run.centre.expect("02aaaaaa(......)0200")[1]
        refused_by_cause(run, "aaaaaa", connection, cause)
    run.gateway.emptied()
    run.ask("network")
    run.expect("^centre: there; calls: 0, ", "^speech: 0 endpoints; ")
    run.end()
    must(not any("000422" in it for it in run.centre.came), "the centre is asked to clear a call that doesn't come")


def comes_too_slowly(start, _room, _program):
    """T3103 runs out before a call that comes has speech; the centre ends its connection; the centre begins anew: nothing is
    left."""
    run = start(gateway=30, t3103=1, t13=0.1, **{"gateway-repeat": 0.3})
    station = run.begin()
    run.gateway.unanswered = {"CRCX"}
    connection = comes(run, station)
    refused_by_cause(run, "aaaaaa", connection, "20")
    run.expect("^event released 0/0/1 -> done$")
    for is_reset in (False, True):
        connection = comes(run, station)
        if is_reset:
            run.centre.send(RESET)
            run.centre.expect("04aaaaaa.*")
        else:
            run.centre.release(connection, "aaaaaa")
            run.centre.expect(f"05aaaaaa{connection}")
        run.expect("^event released 0/0/1 -> done$")
    run.gateway.unanswered = set()
    run.said.expect("A: the centre is there")
    run.gateway.expect(r"DLCX .*")
    run.gateway.emptied()
    run.end()


CHECKS = [
    speech_moves,
    speech_comes_back,
    moves_and_moves,
    target_without_speech,
    undone_before_it_is_sent,
    gateway_lost_while_it_moves,
    slow_gateway,
    assigned_behind_an_attempt,
    moves_while_it_is_assigned,
    moves_without_speech,
    undone_without_speech,
    comes_and_speaks,
    comes_with_spare_bits,
    comes_without_speech,
    comes_too_slowly,
]
