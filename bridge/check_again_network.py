"""Checks of the bridge: the controller of a network is killed at each line (again.py), and neither the centre, the gateway, the
stations nor their mobiles notice it."""
import contextlib
import os
import random
import re
import signal

from centre import RESET
from check_again import OFTEN, book, compare, controller, everywhere, needs_journal, plan, told, trace, without_pings
from check_moves import begin_moving
from harness import FOLDER, LIMIT, child, must
from load import LoadStation, SpeakingCentre
from network_harness import FIRST, OF_CENTRE, OF_GATEWAY, OF_MOBILES, SECOND, UPDATE, assigned, burst, clear, emptied, register
from network_harness import said, say, sent
from speech_harness import deleted, joined, speak, start_call

# What is asked of the gateway: numbers of transactions, calls and sessions differ from run to run.
NUMBERS = re.compile(r"(?<=CX )\d+|(?<=C: )[0-9a-f]+|(?<=o=- )\d+")
# Stages at which the controller is killed at each line.
STAGES = ("noted", "1", "99")
# However long it takes until each line is done, no timer runs out, and the gateway isn't looked at meanwhile.
UNHURRIED = {name: 10_000 for name in ("answer", "t3103", "t7", "t8", *OF_MOBILES, *OF_CENTRE, *OF_GATEWAY)}
# How many calls there are in each cell, under load.
LOAD = 50


class Script:
    """A run of a network that is looked at whenever nothing is under way."""

    def __init__(self, run, room, program):
        self.run, self.room, self.program = run, room, program
        self.seen = []

    def look(self):
        """Keeps what the bridge knows of channels, calls and connections, and what the book has, once nothing is under way."""
        self.run.settle()
        known = told(self.run, "network", "calls", "stations")
        self.seen.append((known, book(self.room / "log", self.program, self.room / "site.toml")))

    def end(self, *stations):
        """Ends the run; all that came of it, on each side."""
        self.run.end()
        log = (self.room / "log").read_text().split("\n")
        asked = [NUMBERS.sub("N", text) for _, text in self.run.gateway.came]
        return {
            "what is known": self.seen,
            "what the centre is told": self.run.centre.came,
            "what the gateway is asked": asked,
            "what stations are sent": without_pings([it.came for it in stations]),
            "the trace": trace(self.run),
            "the log": [line for line in log if not line.startswith("#")],
        }


def a_registration(script):
    """A mobile registers, and leaves."""
    run = script.run
    station = run.begin()
    number, connection = register(run, station)
    script.look()
    clear(run, station, number, connection)
    script.look()
    return script.end(station)


def a_call(script):
    """A call speaks, moves to the other cell, and back in vain, and ends."""
    run = script.run
    station, other = run.begin(), run.station(SECOND)
    other.ports = 0x5000
    call = start_call(run, station)
    script.look()
    speak(call)
    script.look()
    begin_moving(run, station, other, call)
    script.look()
    say(other, "08270109")
    call.speaks(call.at(other, "09"))
    said(other, "09", "062c00")
    run.expect("^event complete .* -> done$", "^event released 0/0/1 -> done$")
    call.speaks(call.at(other, "09"))
    script.look()
    run.ask("handover 1 0")
    joined(call, station, "09")
    sent(other, "030101" "0902000b0009062b.*")
    script.look()
    said(other, "09", "062801")
    run.expect("^event undo .* -> record", "^event released 0/0/1 -> done$")
    call.speaks(call.at(other, "09"))
    script.look()
    clear(run, other, "09", call.connection)
    deleted(call)
    script.look()
    return script.end(station, other)


def in_a_network(play, stage):
    """A check that kills the controller at each line of something, before it has noted the line and at a stage."""

    def check(start, room, program):
        results = []
        for name, places in (("whole", []), ("killed", everywhere(stage))):
            inner = room / name
            inner.mkdir()
            plan(inner / "journal", *places)
            core = (controller(inner, program), "live", "--journal", inner / "journal")
            run = start(words=("--log", inner / "log", *OFTEN), core=core, folder=inner, **UNHURRIED)
            results.append(play(Script(run, inner, program)))
        kills = sum("is started again" in line for line in run.said.lines)
        must(kills > sum(line.startswith("in ") for line in run.out.lines), f"it was killed {kills} times")
        compare(*results)

    check.__name__ = f"{play.__name__}_killed_at_{stage}"
    check.__doc__ = f"{play.__doc__[:-1]}, and the controller is killed at each line, at the stage {stage}: nobody notices."
    return check


def killed_under_load(start, room, program):
    """Calls get speech and are cleared, four at once in each of two cells, while the controller is killed again and again: all of
    them come to their end, and nothing is left."""
    needs_journal(room, program)
    core = (program, "live", "--journal", room / "journal", "--history", "100", "--keep", "2")
    site = (FOLDER / "network_site.toml").read_text()
    run = start(words=OFTEN, core=core, centre=SpeakingCentre(), site=site, awaited=6, t3111=0.001)
    run.said.expect("A: the centre is there")
    stations = [LoadStation(run.port, unit, LOAD, 4) for unit in (FIRST, SECOND)]
    for station in stations:
        must(station.known.wait(LIMIT), f"{station.unit} isn't acknowledged")
    for station in stations:
        station.begin()
    chance, count = random.Random(75), 0
    until = chance.randrange(10, 60)
    while not all(station.done.wait(0.001) for station in stations):
        if len(run.out.lines) < until:
            # so much it does yet until it is killed, however fast it is
            continue
        until = len(run.out.lines) + chance.randrange(10, 60)
        with contextlib.suppress(IndexError, ProcessLookupError):
            os.kill(child(run), signal.SIGKILL)
            count += 1
        must(count < 10 * LOAD, f"calls don't end: {[station.unreleased for station in stations]}")
    emptied(run)
    run.gateway.emptied()
    left = told(run, "network", "calls")
    must(any(line.startswith("centre: there; calls: 0, ") for line in left), f"calls are left: {left}")
    must(count > 5 and len(stations[0].took) == LOAD, f"it was killed {count} times in {len(stations[0].took)} calls")
    run.end()


def anew_while_it_is_away(start, room, program):
    """While the controller is away the centre begins anew, or its link is lost, and a mobile asks for a channel: once the
    controller goes on the call of before ends, and the mobile makes itself known."""
    for is_link_lost in (False, True):
        inner = room / str(is_link_lost)
        inner.mkdir()
        core = (controller(inner, program), "live", "--journal", inner / "journal")
        run = start(words=OFTEN, core=core, folder=inner)
        station = run.begin()
        number, _ = register(run, station)
        (inner / "journal" / "hold").touch()
        os.kill(child(run), signal.SIGKILL)
        run.said.expect("is started again$")
        if is_link_lost:
            run.centre.lose()
            run.said.expect("A: the link is lost")
        else:
            run.centre.send(RESET)
            run.said.expect("A: the centre begins anew")
        run.said.expect("A: the centre is there")
        burst(station, "060a0d")
        station.settle()
        (inner / "journal" / "hold").unlink()
        sent(station, f"030101{number}02000b0003060d..")
        other = assigned(station, "060a0d")
        say(station, f"020901{number}0200")
        sent(station, f"082e01{number}")
        say(station, f"020601{other}02000b{len(UPDATE) // 2:04x}{UPDATE}")
        connection = run.centre.begun(UPDATE)
        clear(run, station, other, connection)
        emptied(run)
        run.end()


CHECKS = [killed_under_load, anew_while_it_is_away, in_a_network(a_registration, "1")]
CHECKS += [in_a_network(a_call, stage) for stage in STAGES]
