"""The checks of the media gateway: one that is silent, refuses, answers twice, late, about what wasn't asked, or what can't be
read."""
import random
import re
import time

from centre import RESET
from check_network import changed
from harness import SLOW, must
from network_harness import ask_until, clear, down, leave, up
from speech_harness import (
    ASSIGN,
    ask_for_speech,
    assigned_speech,
    deleted,
    failed,
    joined,
    speak,
    start_call,
    take_mode,
    told_mode,
)

# Where a station has speech, as it says so.
LOCAL = "f80000f57f000001f34012"
# Answers that are none, or that say nothing of use: by what stands in place of what in osmo-mgw's.
SENSELESS = (
    ("Z: rtpbridge/", "Q: rtpbridge/"),
    ("I: ", "J: "),
    ("m=audio ", "m=video "),
    ("m=audio 4", "m=audio 99994"),
    ("c=IN IP4 127.0.0.1", "c=IN IP4 127.0.0.256"),
    ("c=IN IP4 127.0.0.1", "c=IN IP4 127.0.0.08"),
    ("c=IN IP4 127.0.0.1", "c=IN IP4 127.0.0.010"),
    ("c=IN IP4 127.0.0.1", "c=IN IP6 ::1"),
    ("c=IN IP4 127.0.0.1", "c=IN IP4 0.0.0.0"),
    ("m=audio 4", "m=audio 0 RTP/AVP 3\r\nm=audio 4"),
)


def numbers(run):
    """The numbers of the transactions that the gateway was asked."""
    return [text.split()[1] for _, text in run.gateway.came]


def speaks_then(run, station, call):
    """The call goes on, and can speak; at its end nothing is left."""
    down(run, station, call.number, call.connection, "8302")
    speak(call)
    clear(run, station, call.number, call.connection)
    deleted(call)
    run.end()


# Each gets a function that starts a network, with options of CONFIG, a folder, and the program.


def silent_gateway(start, _room, _program):
    """A gateway doesn't answer: it is asked again under the same number, then the assignment fails, and the call goes on.
    What it answers later is deleted there."""
    run = start(gateway=SLOW, **{"gateway-repeat": 0.3})
    station = run.begin()
    call = start_call(run, station)
    run.gateway.unanswered = {"CRCX"}
    run.centre.data(call.connection, ASSIGN)
    for _ in range(2):
        run.gateway.expect(r"CRCX .*")
    failed(call, "20")
    run.said.expect(f"the media gateway at 127.0.0.1, port .*: doesn't answer in {SLOW} seconds")
    # what was sent before that is on its way
    time.sleep(1)
    asked = numbers(run)
    must(len(set(asked)) == 1, f"its numbers are {asked}")
    must(len({text for _, text in run.gateway.came}) == 1, "it isn't asked the same again")
    # now it answers all that it was asked: each makes an endpoint, and all are deleted
    run.gateway.unanswered = set()
    with run.gateway.changed:
        for _, text in list(run.gateway.came):
            run.gateway.take(text)
    run.gateway.emptied()
    run.said.expect("made a connection that nobody uses, at rtpbridge/1@mgw: it is deleted")
    run.gateway.expect(rf"DLCX \d+ rtpbridge/{len(asked)}@mgw .*I: C0FFEE.*")
    speaks_then(run, station, call)
    must(any(line.endswith("answers again") for line in run.said.lines), "its answers aren't told")


def lost_answer(start, _room, _program):
    """An answer is lost, and what was asked is asked again: the call speaks."""
    run = start(**{"gateway-repeat": 0.3})
    station = run.begin()
    call = start_call(run, station)
    run.gateway.unanswered = {"CRCX"}
    run.centre.data(call.connection, ASSIGN)
    run.gateway.expect(r"CRCX .*")
    run.gateway.unanswered = set()
    sides = ask_for_speech_again(call)
    must(sides >= 1, "nothing is asked again")
    clear(run, station, call.number, call.connection)
    run.gateway.emptied()
    run.end()


def ask_for_speech_again(call):
    """What was asked for comes to its end; how often the gateway was asked again."""
    joined(call, call.station, call.number)
    told_mode(call)
    take_mode(call)
    call.endpoint = "rtpbridge/1@mgw"
    assigned_speech(call)
    call.speaks()
    asked = numbers(call.run)
    return len(asked) - len(set(asked))


def refusing_gateway(start, _room, _program):
    """A gateway refuses a connection, the first or the second: the assignment fails, and what there is is deleted."""
    run = start()
    station = run.begin()
    call = start_call(run, station)
    run.gateway.refused = {"CRCX": 403}
    run.centre.data(call.connection, ASSIGN)
    failed(call, "22")
    run.said.expect("answers 403 to CRCX")
    run.gateway.refused = {}
    second = []

    def refuse_second(text):
        if "I: " in text and "Z: " not in text:
            second.append(text)
            return re.sub(r"200 (\d+) OK.*", r"502 \1 FAIL\r\n", text, flags=re.S)
        return text

    run.gateway.changed_answer = refuse_second
    run.centre.data(call.connection, ASSIGN)
    failed(call, "22")
    must(second, "the second isn't asked for")
    run.gateway.emptied()
    run.gateway.changed_answer = lambda text: text
    speaks_then(run, station, call)


def answers_twice(start, _room, _program):
    """A gateway answers all three times: that changes nothing, and nothing that is in use is deleted."""
    run = start()
    station = run.begin()
    call = start_call(run, station)
    run.gateway.times = 3
    speaks_then(run, station, call)
    must([text[:4] for _, text in run.gateway.came] == ["CRCX", "CRCX", "DLCX"], f"it is asked {run.gateway.came}")


def makes_two(start, _room, _program):
    """What was asked again makes a second endpoint, as at osmo-mgw: that is deleted, and the call speaks by the first."""
    run = start()
    station = run.begin()
    call = start_call(run, station)
    ask_for_speech(call)
    with run.gateway.changed:
        run.gateway.take(run.gateway.came[0][1])
    run.gateway.expect(r"DLCX \d+ rtpbridge/2@mgw MGCP 1\.0\r\nC: [0-9a-f]+\r\nI: C0FFEE03\r\n")
    # an answer that comes once more, of each of both, changes nothing
    for answer in list(run.gateway.answered.values()):
        run.gateway.send(answer)
    call.endpoint = "rtpbridge/1@mgw"
    take_mode(call)
    assigned_speech(call)
    call.speaks()
    clear(run, station, call.number, call.connection)
    deleted(call)
    run.end()


def other_answers(start, _room, _program):
    """Answers about what wasn't asked, those that are none, and some in one datagram: they are counted, and disturb nothing. A
    provisional answer is waited for."""
    run = start(gateway=5 * SLOW, **{"gateway-repeat": SLOW})
    station = run.begin()
    call = start_call(run, station)
    odd = [b"", b"\xff\xfe\x00", b"200", b"200 x OK", b"RSIP 9 *@mgw MGCP 1.0\r\n", b"200 99999999999 OK", b"." * 4000, b"."]

    def put(text):
        number = int(text.split()[1])
        for octets in odd:
            run.gateway.send(octets)
        run.gateway.send(f"200 {number % 999999999 + 7} OK\r\nZ: rtpbridge/9@mgw\r\nI: AA\r\n")
        return f"200 {number % 999999999 + 9} OK\r\n.\r\n{text}"

    run.gateway.changed_answer = put
    ask_for_speech(call)
    take_mode(call)
    assigned_speech(call)
    call.speaks()
    run.gateway.changed_answer = lambda text: re.sub(r"^\d+ (\d+).*", r"100 \1 OK\r\n", text, flags=re.S)
    asked = len(run.gateway.came)
    clear(run, station, call.number, call.connection)
    run.gateway.expect(r"DLCX .*")
    time.sleep(SLOW + 1)
    must(len(run.gateway.came) == asked + 1, "what is under way is asked again")
    run.gateway.send(f"250 {numbers(run)[-1]} OK\r\n")
    run.gateway.emptied()
    run.end()
    line = run.said.expect("speech: 0 endpoints; gateway: .* transactions: 0 open, .* passed over (.*)")
    must(int(line[1]) >= 18, f"what can't be read isn't counted: {line[0]}")


def senseless_answers(start, _room, _program):
    """A gateway says that a connection is made, and not which, or where: the assignment fails, and the call goes on."""
    run = start()
    station = run.begin()
    call = start_call(run, station)
    for old, new in SENSELESS:
        run.gateway.changed_answer = lambda text, old=old, new=new: text.replace(old, new)
        run.centre.data(call.connection, ASSIGN)
        failed(call, "20")
    run.gateway.changed_answer = lambda text: text
    down(run, station, call.number, call.connection, "8302")
    run.gateway.endpoints.pop("rtpbridge/1@mgw", None)
    run.gateway.emptied()
    speaks_then(run, station, call)


def not_deleted(start, _room, _program):
    """A gateway doesn't answer that an endpoint is deleted: it is told which may be left; one that doesn't know it is done
    with."""
    run = start(gateway=SLOW, **{"gateway-repeat": 0.2})
    station = run.begin()
    call = start_call(run, station, reference="e00ad1")
    speak(call)
    run.gateway.unanswered = {"DLCX"}
    clear(run, station, call.number, call.connection)
    run.said.expect("rtpbridge/1@mgw may be left there")
    run.gateway.unanswered = set()
    run.gateway.endpoints.clear()
    call = start_call(run, station, reference="e10ad1")
    speak(call)
    run.gateway.endpoints.clear()
    clear(run, station, call.number, call.connection)
    run.said.expect("answers 515 to DLCX")
    run.end()
    must(sum("may be left" in line for line in run.said.lines) == 1, "it may be left")


def begins_anew(start, _room, _program):
    """A gateway is silent for a while, and answers again: a call that speaks goes on. It begins anew, and knows none of its
    endpoints: that is noticed, and the centre is asked to clear the call, once."""
    run = start(gateway=SLOW, **{"gateway-repeat": 0.3, "gateway-audit": 1})
    station = run.begin()
    call = start_call(run, station)
    speak(call)
    run.gateway.unanswered = {"MDCX"}
    run.said.expect(f"doesn't answer in {SLOW} seconds")
    run.gateway.unanswered = set()
    run.said.expect("answers again")
    run.gateway.expect(r"MDCX \d+ rtpbridge/1@mgw MGCP 1\.0\r\nC: [0-9a-f]+\r\nI: C0FFEE02\r\n")
    call.speaks()
    up(run, station, call.number, call.connection, "8341")
    must(not any("0422040120" in it for it in run.centre.came), "it is to be cleared")
    run.gateway.endpoints.clear()
    run.said.expect("answers 515 to MDCX")
    run.said.expect("call 1: its speech is lost")
    run.centre.expect(f"06{call.connection}000106000422040120")
    clear(run, station, call.number, call.connection)
    run.said.expect("answers 515 to DLCX")
    call = start_call(run, station, reference="e10ad1")
    speak(call)
    clear(run, station, call.number, call.connection)
    deleted(call)
    time.sleep(2)
    run.end()
    must(sum("0422040120" in it for it in run.centre.came) == 1, "it is asked twice")
    must(run.gateway.came[-1][1].startswith("DLCX"), "the gateway is asked about a call that is over")


def cleared_while_it_is_asked(start, _room, _program):
    """The centre clears a call while the gateway is asked for a connection: what it answers then is deleted."""
    run = start(gateway=20, **{"gateway-repeat": 60})
    station = run.begin()
    for place in range(2):
        call = start_call(run, station, reference=f"e{place}0ad1")
        kept = []
        # the first, or the second answer is kept back
        run.gateway.changed_answer = lambda text, kept=kept, place=place: kept_back(text, kept, place == 0)
        run.centre.data(call.connection, ASSIGN)
        end = time.monotonic() + 60
        while not kept:
            must(time.monotonic() < end, "the gateway isn't asked")
            time.sleep(0.05)
        clear(run, station, call.number, call.connection)
        run.gateway.changed_answer = lambda text: text
        run.gateway.send(kept[0])
        run.gateway.emptied()
    run.end()


def kept_back(text, kept, is_first):
    """An answer, or another in its place: that about the first connection of an endpoint, or about the second, is kept."""
    if "I: " in text and ("Z: " in text) == is_first:
        kept.append(text)
        return "999 0 kept\r\n"
    return text


def random_speech(start, _room, _program):
    """What the gateway answers, what a station says of speech, and what the centre asks for, with octets that are changed, left out
    and put in at random: whatever they do, RESET ends it, nothing is left, and a call speaks."""
    run = start(answer=SLOW, gateway=SLOW, t10=SLOW, **{"gateway-repeat": 0.3})
    station = run.begin()
    call = start_call(run, station)
    chance = random.Random(73)
    run.gateway.changed_answer = lambda text: changed(chance, text.encode()) if chance.randrange(3) else text
    of_centre = [ASSIGN, "0005010b020308", "000e530a09037fe40921e52df8002301"]
    of_station = [f"7e71{{}}{LOCAL}", f"7e74{{}}{LOCAL}", "7e72{}1a012f", "7e76{}f80000", "7e78{}f80000"]
    for place in range(600):
        connection = call.connection
        octets = changed(chance, bytes.fromhex(chance.choice(of_centre)))[:250]
        run.centre.frame(b"\xfd" + bytes.fromhex(f"06{connection}0001") + bytes([len(octets)]) + octets)
        message = chance.choice(of_station).format(f"01{call.number}")
        station.say(changed(chance, bytes.fromhex(message)))
        if place % 3 == 0:
            take_mode(call)
        if place % 20 == 0:
            time.sleep(0.05)
    run.gateway.changed_answer = lambda text: text
    run.centre.send(RESET)
    run.centre.expect("09000305090242fe04435101fe03000131")
    leave(run, station, call.number, 1)
    ask_until(run, "network", "^speech: 0 endpoints; .* transactions: 0 open, ")
    # those of which the gateway's answer couldn't be read are left there
    run.gateway.endpoints.clear()
    call = start_call(run, station, reference="e10ad1")
    speak(call)
    clear(run, station, call.number, call.connection)
    deleted(call)
    run.end()
    must(not any("Traceback" in line for line in run.said.lines), "the bridge has failed")


CHECKS = [
    random_speech,
    silent_gateway,
    lost_answer,
    refusing_gateway,
    answers_twice,
    makes_two,
    other_answers,
    senseless_answers,
    not_deleted,
    begins_anew,
    cleared_while_it_is_asked,
]
