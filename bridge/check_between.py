"""The checks of calls that go to another controller, and come from one, by the centre: its octets are those of osmo-msc."""
import random
import time

from centre import RESET, UNIT_DATA
from check_network import changed
from harness import SLOW, must
from network_harness import CLEAR, CLEARED, FIRST, SECOND, SITE, begin, clear, down, emptied, register, said, say, sent

# HANDOVER REQUIRED into the cell 24/200 (TS 48.008, 3.2.1.9), and into 24/201, as the controller writes them; the centre's
# HANDOVER COMMAND with what another controller sends the mobile, that alone, and its HANDOVER REQUIRED REJECT.
REQUIRED, SECOND_REQUIRED = "000c1104010c1b1a0501001800c8", "000c1104010c1b1a0501001800c9"
COMMAND, SENT, REJECT = "0016131709062b0b50096050000505080000f00000000000", "062b0b500960500005", "00041a040121"
# The mobile's HANDOVER FAILURE, and what the centre is told of it.
CAME_BACK, FAILED = "06286f", "00061604010a156f"
# A second cell of another controller.
MORE = """
[[outside]]
lac = 24
ci = 201
bcch = 82
ncc = 1
bcc = 4
"""


def to_centre(run, connection, message):
    """Waits until the centre is told something."""
    run.centre.expect(f"06{connection}0001{len(message) // 2:02x}{message}")


def given(run, message):
    """How many times the controller was given a message of the centre."""
    return sum(line.startswith("in a ") and line.endswith(message) for line in run.out.lines)


def goes(run, station, connection):
    """The centre is asked, and answers: the mobile is sent away."""
    run.ask("handover 1 64")
    to_centre(run, connection, REQUIRED)
    run.centre.data(connection, COMMAND)
    sent(station, f"0301010902000b0009{SENT}")


# Each gets a function that starts a network, with options of CONFIG, a folder, and the program.


def told(start, _room, _program):
    """What the centre tells beside is taken: COMMON ID, CLASSMARK UPDATE, HANDOVER SUCCEEDED; CLASSMARK REQUEST asks the
    mobile, whose answer is passed on, without a classmark 3 that is cut."""
    run = start()
    station = run.begin()
    number, connection = begin(run, station)
    run.centre.data(connection, "000b2f08080910100000000010")
    run.centre.data(connection, "000654" + "1203571881")
    run.centre.data(connection, "000158")
    sent(station, f"030101{number}02000b00020613")
    said(station, number, "061603571881" + "2002e014")
    to_centre(run, connection, "000a541203571881" + "1302e014")
    for cut in ("", "20", "2002", "2002e0"):
        said(station, number, "061603571881" + cut)
        to_centre(run, connection, "0006541203571881")
    goes(run, station, connection)
    run.centre.data(connection, "000115")
    run.centre.data(connection, "00042004010b")
    sent(station, f"082e01{number}")
    to_centre(run, connection, CLEARED)
    run.centre.release(connection)
    run.centre.expect(f"05{connection}{connection}")
    run.end()
    faults = [line for line in run.out.lines if line.startswith("fault ")]
    must(not faults and not any(line.startswith("A: ") and "over" in line for line in run.said.lines), f"{faults}")


def late_reject(start, _room, _program):
    """The mobile comes back, the centre is told HANDOVER FAILURE, and an operator asks anew at once: that waits until the
    centre has answered the failure by a REJECT, as osmo-msc does, which the controller isn't given. Then it is asked, and
    goes on."""
    run = start(settle=60)
    station = run.begin()
    number, connection = begin(run, station)
    goes(run, station, connection)
    said(station, number, CAME_BACK)
    to_centre(run, connection, FAILED)
    run.ask("handover 1 64")
    run.expect("^event require 1 .*-> done", f"^out a 1 {REQUIRED}$")
    down(run, station, number, connection, "050200")
    must(run.centre.came.count(f"06{connection}00010e{REQUIRED}") == 1, "it doesn't wait")
    run.centre.data(connection, REJECT)
    to_centre(run, connection, REQUIRED)
    run.centre.data(connection, COMMAND)
    sent(station, f"0301010902000b0009{SENT}")
    must(given(run, REJECT) == 0, "the late REJECT is given")
    run.centre.data(connection, CLEAR)
    sent(station, f"082e01{number}")
    to_centre(run, connection, CLEARED)
    run.centre.release(connection)
    run.expect("^event released 0/0/1 -> done$")
    run.end()


def no_late_reject(start, _room, _program):
    """A centre that doesn't answer HANDOVER FAILURE, as TS 48.008 has it, is asked anew after a while; then its REJECT is
    that of the second attempt."""
    run = start(settle=0.5)
    station = run.begin()
    number, connection = begin(run, station)
    goes(run, station, connection)
    said(station, number, CAME_BACK)
    to_centre(run, connection, FAILED)
    run.expect("^event undo 1 asked -> record")
    run.ask("handover 1 64")
    to_centre(run, connection, REQUIRED)
    run.centre.data(connection, REJECT)
    run.expect("^event undo 1 asked -> record")
    must(given(run, REJECT) == 1, "the REJECT isn't given")
    clear(run, station, number, connection)
    run.end()


def undone_before_the_answer(start, _room, _program):
    """An operator takes an attempt back before the centre has answered, and asks for another cell: the answer of the first
    isn't taken for that of the second. A late COMMAND is answered by HANDOVER FAILURE, so that nobody waits for the mobile."""
    for answer in (REJECT, COMMAND):
        run = start(settle=0.5, site=SITE + MORE)
        station = run.begin()
        number, connection = begin(run, station)
        run.ask("handover 1 64")
        to_centre(run, connection, REQUIRED)
        run.ask("undo 1")
        run.expect("^event undo 1 asked -> record")
        run.ask("handover 1 65")
        run.expect(f"^out a 1 {SECOND_REQUIRED}$")
        run.centre.data(connection, answer)
        if answer == COMMAND:
            to_centre(run, connection, "000416040107")
        to_centre(run, connection, SECOND_REQUIRED)
        run.centre.data(connection, REJECT)
        run.expect("^event undo 1 asked -> record")
        must((given(run, COMMAND), given(run, REJECT)) == (0, 1), "the first answer is given")
        must(not any(SENT in it[1].hex() for it in station.came), "the mobile is sent away")
        clear(run, station, number, connection)
        run.end()


def taken_back(start, _room, _program):
    """An operator takes an attempt back once the mobile is sent away: the centre is told HANDOVER FAILURE, cause 07, and
    its REJECT isn't given to the controller."""
    run = start()
    station = run.begin()
    number, connection = begin(run, station)
    goes(run, station, connection)
    run.ask("undo 1")
    run.expect("^event undo 1 asked -> record")
    to_centre(run, connection, "000416040107")
    run.centre.data(connection, REJECT)
    down(run, station, number, connection, "050200")
    must(given(run, REJECT) == 0, "the REJECT is given")
    clear(run, station, number, connection)
    run.end()


def no_answer(start, _room, _program):
    """A centre that doesn't answer (T7): the next attempt is asked once no answer is to be expected any more; one that is
    undone while it waits is never asked."""
    run = start(t7=SLOW / 2, settle=SLOW)
    station = run.begin()
    number, connection = begin(run, station)
    run.ask("handover 1 64")
    to_centre(run, connection, REQUIRED)
    run.expect("^event undo 1 t7 -> record")
    run.ask("handover 1 64")
    run.ask("undo 1")
    run.expect("^event undo 1 asked -> record")
    time.sleep(SLOW + 1)
    must(run.centre.came.count(f"06{connection}00010e{REQUIRED}") == 1, "the one that was undone is asked")
    run.centre.data(connection, REJECT)
    run.ask("handover 1 64")
    to_centre(run, connection, REQUIRED)
    run.centre.data(connection, REJECT)
    run.expect("^event undo 1 asked -> record")
    must(given(run, REJECT) == 1, "the late REJECT is given")
    clear(run, station, number, connection)
    run.end()


def answers_of_nothing(start, _room, _program):
    """HANDOVER COMMAND and REJECT that nobody asked for, in a call and while it moves within, are counted, and change
    nothing."""
    run = start()
    station, other = run.begin(), run.station(SECOND)
    number, connection = begin(run, station)
    for message in (COMMAND, REJECT):
        run.centre.data(connection, message)
    run.ask("handover 1 1")
    sent(station, f"030101{number}02000b0009062b0a460940460005")
    for message in (COMMAND, REJECT):
        run.centre.data(connection, message)
    say(other, "020601090200")
    said(other, "09", "062c00")
    run.expect("^event complete 1 -> done$")
    must((given(run, COMMAND), given(run, REJECT)) == (0, 0), "it is given")
    clear(run, other, "09", connection)
    run.end()
    run.said.expect("A: HANDOVER COMMAND for an attempt that is over: 2")


def octets_at_random(start, _room, _program):
    """Pagings, messages of the link for short messages, and answers to HANDOVER REQUIRED, with octets that are changed,
    left out and put in at random, while an operator hands a call over and takes that back: whatever they do, RESET ends it,
    and a mobile registers."""
    run = start(settle=0.2, establish=0.3, t3113=0.2, t7=1, t8=1)
    station = run.begin()
    number, connection = begin(run, station)
    chance = random.Random(73)
    paging = UNIT_DATA + "18" + "0016520808091010000000002009043b131e271a03050017"
    said_by_centre = (COMMAND, REJECT, "01030709010501020304", "000115")
    of_centre = [paging] + [f"06{connection}0001{len(it) // 2:02x}{it}" for it in said_by_centre]
    links = ("0205{}", "0206{}", "0209{}", "0208{}", "0203{}160101", "0302{}0b00028904")
    of_station = [it.format(f"01{number}0243") for it in links]
    of_station += [f"020601{number}02000b000d0627070357188105f43b131e27", f"030201{number}02000b0003" + CAME_BACK]
    for place in range(1500):
        run.centre.frame(b"\xfd" + changed(chance, bytes.fromhex(chance.choice(of_centre))))
        station.say(changed(chance, bytes.fromhex(chance.choice(of_station))))
        if place % 30 == 0:
            run.ask(chance.choice(("handover 1 64", "undo 1", "handover 1 64", "handover 1 1", "network")))
    station.leave()
    run.said.expect("its link is lost")
    run.centre.send(RESET)
    run.centre.expect("09000305090242fe04435101fe03000131")
    emptied(run)
    station = run.station(FIRST)
    clear(run, station, *register(run, station, reference="f70a0d"))
    run.end()


CHECKS = [
    told,
    late_reject,
    no_late_reject,
    undone_before_the_answer,
    taken_back,
    no_answer,
    answers_of_nothing,
    octets_at_random,
]
