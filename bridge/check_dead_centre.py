"""The checks of a switching centre that has gone though its link is there: three connections in a row that aren't answered, or the
network's word for it (N-PCSTATE), end its calls; RESET is said until it is acknowledged (TS 48.008, 3.1.4.1)."""
from check_figures import await_figure
from check_m3ua import begun, started
from harness import SLOW
from network_harness import (
    ACCEPT,
    CLEAR,
    SECOND,
    UPDATE,
    ask_until,
    begin,
    burst,
    clear,
    down,
    leave,
    register,
    rejected,
    sent,
)

# RESET from 0.42.1 to 0.23.1, as osmo-stp took it.
RESET = "09000305090242fe04435101fe06000430040120"
THERE, AWAY = "^centre: there;", "^centre: not there since [0-9:]+;"


def leave_all(run, station, numbers, cause):
    """Mobiles on one station are sent away, in any order."""
    at = station.at
    for number in numbers:
        station.at = at
        leave(run, station, number, cause)


def two_cells(run):
    """Both stations, and a call of the first that the centre has taken."""
    one = run.begin()
    other = run.station(SECOND)
    return one, other, *register(run, one)


def in_cell_1(run, station, reference):
    """A mobile makes itself known in the second cell."""
    burst(station, reference)
    number = sent(station, "082101(..)03.*")[1]
    station.say(bytes.fromhex(f"020601{number}02000b0012{UPDATE}"))
    run.centre.begun(UPDATE, cell=101)
    return number


def doubt(start, room, _program):
    """Over IPA: connections that aren't answered are no sign while something else is heard of the centre; three in a row, with
    nothing else heard, are. Then its calls end, telephones are rejected, and RESET is said until it is acknowledged."""
    run = start(connect=SLOW, t4=1, words=("--figures", room / "figures", "--figures-every", "0.1"))
    one, other, number, connection = two_cells(run)
    run.centre.confirms = False
    leave(run, one, begin(run, one, reference="060a0d")[0])
    # it is there: it says something, and then two are no sign either
    down(run, one, number, connection, ACCEPT)
    leave_all(run, other, [in_cell_1(run, other, reference) for reference in ("070a0d", "080a0d")], 0)
    ask_until(run, "network", THERE)
    run.centre.acknowledges = False
    burst(one, "090a0d")
    sent(one, "082101(..)03.*")
    one.say(bytes.fromhex(f"0206010a02000b0012{UPDATE}"))
    run.centre.begun(UPDATE)
    at = one.at
    run.said.expect("error: A: the centre is away: 3 connections in a row aren't answered, .*; calls that end: 2$")
    run.expect("^event clear 1 -> done$")
    run.centre.expect(RESET)
    run.centre.expect(RESET)
    burst(other, "0a0a0d")
    rejected(other, "0a0a0d")
    ask_until(run, "network", AWAY)
    await_figure(room / "figures", 0, "gofnild_centre_up")
    await_figure(room / "figures", 1, "gofnild_centre_doubts_total")
    await_figure(room / "figures", 2, "gofnild_calls_cleared_in_doubt_total")
    run.said.expect("warning: A: RESET isn't acknowledged, 3 times: .*centre.name")
    one.at = at
    # TS 44.018, 10.5.2.31: 1 is that the release is abnormal
    leave_all(run, one, (number, "0a"), 1)
    run.centre.acknowledges = run.centre.confirms = True
    run.said.expect("A: the centre is there")
    clear(run, one, *register(run, one, reference="0b0a0d"))
    run.end()


def not_reached(start, room, _program):
    """Over M3UA: the network says that the centre can't be reached; its calls end. Once it says that it can, RESET goes at once."""
    run, centre, station = started(start, room, t4=120)
    number, connection = begun(station, centre, 0)
    centre.say(f"confirmed {connection} -")
    centre.say("away")
    run.said.expect("error: A: the centre is away: the network says that it can't be reached; calls that end: 1$")
    centre.expect("unitdata 000430040120")
    leave(run, station, number, 1)
    burst(station, "060a0d")
    rejected(station, "060a0d")
    ask_until(run, "network", AWAY)
    centre.say("back")
    centre.expect("unitdata 000430040120")
    centre.say("unitdata 000131")
    run.said.expect("A: the centre is there")
    number, connection = begun(station, centre, 1, "070a0d")
    centre.say(f"confirmed {connection} -")
    centre.say(f"data {connection} {CLEAR}")
    leave(run, station, number)
    centre.expect(f"data {connection} 000121")
    centre.say(f"ended {connection} 0")
    run.end()


CHECKS = [doubt, not_reached]
