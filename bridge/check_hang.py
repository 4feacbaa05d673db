"""Checks of the bridge: a controller that dies at once again and again has pauses between, one that hangs is killed, one that
waits for a disk isn't; and programs of another kind (again.py, watch.py)."""
import os
import signal
import time

import rsl
from check_again import bridge_with, catch_up, controller, good_on_a_copy, journaled, plan, program_that, remove, settle
from harness import FIRST, LIMIT, SITE, SLOW, Asker, LeftOut, child, is_kind, must
from watch import processes

# Lines of the shell by which a controller ends as long as there is a file.
TROUBLED = "if [ -e trouble ]; then exit 3; fi"
AGAIN = "is started again"


def open_one(bridge):
    """A call begins, on which nothing is under way; its station."""
    station = bridge.station(FIRST)
    bridge.ask("open 1 0 0 3")
    bridge.expect("record 0/0/3 on$")
    settle(bridge)
    return station


def clear_it(bridge, asks=True):
    """That call ends, by a line of an operator or by one that was given before."""
    if asks:
        bridge.ask("clear 1")
    bridge.expect("^event clear 1 -> done$", "^event released 0/0/3 -> done$")


def pauses_grow(start, room, program):
    """A controller that dies at once again and again is started again without a pause, and then behind pauses that grow: so its
    restarts last for a while. Once its trouble is over it goes on, and nobody notices that; killed then it is started at once."""
    bridge = journaled(start, room, program, first=TROUBLED)
    station = open_one(bridge)
    (room / "trouble").touch()
    begun = time.monotonic()
    os.killpg(child(bridge), signal.SIGKILL)
    bridge.said.expect(f"{AGAIN}$")
    for seconds in ("0.1", "0.2", "0.4", "0.8"):
        bridge.said.expect(f"{AGAIN} in {seconds} seconds$")
    bridge.ask("handover 1 63")
    bridge.said.expect(f"{AGAIN} in 1.6 seconds$")
    must(time.monotonic() - begun >= 1.5, "it doesn't pause")
    (room / "trouble").unlink()
    bridge.expect("^in handover 1 63$")
    must(station.is_there, "its station is gone")
    os.killpg(child(bridge), signal.SIGKILL)
    bridge.said.expect(f"{AGAIN}$")
    clear_it(bridge)
    bridge.end()


def bounded_pauses(start, room, program):
    """They count: behind so many restarts in a minute the bridge ends. One that can't even be started counts, too."""
    bridge = journaled(start, room, program, again=("--again", "4"))
    open_one(bridge)
    (room / "controller").rename(room / "elsewhere")
    os.killpg(child(bridge), signal.SIGKILL)
    bridge.said.expect(f"has ended with status -9 .*{AGAIN}$")
    for seconds in ("0.1", "0.2", "0.4"):
        bridge.said.expect(f"can't be started: .*{AGAIN} in {seconds} seconds$")
    bridge.said.expect("ends: the controller has ended 5 times in 60 seconds, 5 times in a row having done nothing$")
    bridge.wait(1)


def slowly_in_vain(start, room, program):
    """A controller that does nothing, as often as it is started, however long that takes, is given up as well."""
    slow = bridge_with(room, "again.PERIOD", "0.0")
    bridge = journaled(start, room, program, again=("--again", "3"), first=TROUBLED, abis=slow)
    open_one(bridge)
    (room / "trouble").touch()
    os.killpg(child(bridge), signal.SIGKILL)
    bridge.said.expect("ends: the controller has ended 1 times in 0 seconds, 4 times in a row having done nothing$")
    bridge.wait(3)


def paused(start, room, program, *options):
    """A bridge with a call, whose controller waits for a long time to be started again."""
    long = bridge_with(room, "again.PAUSE", "again.LONGEST_PAUSE = 1000")
    bridge = journaled(start, room, program, *options, again=("--again", "3"), first=TROUBLED, abis=long)
    open_one(bridge)
    (room / "trouble").touch()
    os.killpg(child(bridge), signal.SIGKILL)
    bridge.said.expect(f"{AGAIN} in 1000 seconds$")
    return bridge


def ended_in_a_pause(start, room, program):
    """The bridge is told to end while the controller waits to be started again: it is at once, and does what waits; or that is in
    vain, and the bridge ends all the same."""
    for is_over in (True, False):
        bridge = paused(start, room, program)
        bridge.ask("clear 1")
        if is_over:
            (room / "trouble").unlink()
        bridge.process.send_signal(signal.SIGTERM)
        bridge.said.expect("ends: signal 15$")
        bridge.wait(0 if is_over else 3)
        must(("event clear 1 -> done" in bridge.out.lines) == is_over, "what waits isn't done")
        why = [line for line in bridge.said.lines if line.endswith((" in a row having done nothing", ", that it hasn't done: 1"))]
        must(len(why) == (0 if is_over else 2), f"it says why by {why}")
        remove(room / "journal")
        (room / "trouble").unlink(missing_ok=True)


def upgraded_in_a_pause(start, room, program):
    """An operator's program takes a controller's place that waits to be started again, at once. One that dies on a copy of the
    journal doesn't. Where one dies before it goes on, the old one is tried again: that it goes on isn't said before it does."""
    bridge = paused(start, room, program, "--control", "control")
    operator = Asker(room / "control")
    operator.ask(f"upgrade {room / 'controller'}\n")
    operator.expect("^refused: upgrade .*controller: tried on a copy of the journal: it ended with status 3$")
    operator.ask(f"upgrade {good_on_a_copy(room, program, 'dies', 'exit 5')}\n")
    operator.expect("^.*dies: tried on a copy of the journal: it would go on behind line [0-9]+$")
    bridge.said.expect("warning: .*dies: it ended with status 5, and the old one is started again$")
    bridge.said.expect(f"{AGAIN} in 1000 seconds$")
    must(not any("goes on" in line for line in operator.lines.lines), "the old one goes on, it is said")
    operator.ask(f"upgrade {controller(room, program, 'other')}\n")
    operator.expect("^refused: upgrade .*dies: it ended with status 5, and the old one doesn't go on: .*other takes its place$")
    operator.expect("^.*other: goes on behind line [0-9]+$")
    operator.ask("clear 1\n")
    operator.expect("^event clear 1 -> done$")
    operator.leave()
    bridge.process.terminate()
    bridge.wait(0)


def last_line(bridge):
    """The number of the last line that the controller has done, which is all that it was given."""
    catch_up(bridge)
    return sum(line.startswith(("in ", "line ")) for line in bridge.out.lines)


def at_the_next_line(bridge, room, stage):
    """Plans that something happens to the controller at the next line that it is given."""
    plan(room / "journal", f"{1 + last_line(bridge)} {stage}")


def hangs(start, room, program):
    """A controller hangs: it is stopped amid a line's answer, or computes without end. It is killed after a while, and another one
    goes on with its calls: nothing is lost."""
    bridge = journaled(start, room, program, "--hang", "2")
    station = open_one(bridge)
    for count, stage in enumerate(("stopped", "computes")):
        at_the_next_line(bridge, room, stage)
        bridge.ask("handover 1 63")
        bridge.said.expect("the controller answers nothing for 2 seconds, and is killed$")
        bridge.said.expect(f"has ended with status -9 behind line .*{AGAIN}$")
        catch_up(bridge)
        handled = sum(line == "in handover 1 63" for line in bridge.out.lines)
        must(handled == count + 1, f"its line is done {handled} times")
    must(station.is_there, "its station is gone")
    clear_it(bridge)
    bridge.end()


def hangs_without_journal(start, _room, program):
    """One that has no journal is killed, too, and the bridge ends and says why. One that hasn't anything to answer, or hasn't
    answered anything yet, isn't."""
    begins = "sleep 3; exec"
    bridge = start("--hang", "1", core=("sh", "-c", f'{begins} "$0" live "$1"', str(program), str(SITE)))
    station = open_one(bridge)
    os.killpg(child(bridge), signal.SIGSTOP)
    time.sleep(2)
    must(station.is_there, "it is killed though it has nothing to answer")
    bridge.ask("clear 1")
    bridge.said.expect("the controller answers nothing for 1 seconds, and is killed$")
    bridge.said.expect("ends: the controller has ended$")
    must(station.await_end(), "the station's link stays")
    bridge.wait(1)
    bridge = start("--hang", "1")
    os.killpg(child(bridge), signal.SIGSTOP)
    bridge.ask("clear 1")
    bridge.said.expect("the controller answers nothing for 1 seconds, and is killed$")
    bridge.wait(1)


def waits_for_a_disk(start, room, program):
    """A controller that waits for its disk, for longer than it may hang, isn't killed. Where none is seen to wait so, that is left
    out."""
    bridge = journaled(start, room, program, "--hang", SLOW)
    station = open_one(bridge)
    at_the_next_line(bridge, room, "disk")
    bridge.ask("clear 1")
    end = time.monotonic() + LIMIT
    while "D" not in (states := processes(child(bridge))[0]):
        if time.monotonic() > end:
            raise LeftOut(f"no process is seen to wait for a disk, but {states}")
        time.sleep(0.1)
    bridge.said.expect(f"answers nothing for {SLOW} seconds: it waits for a disk or a processor, .*$")
    with (room / "journal" / "disk").open("w"):
        pass
    clear_it(bridge, asks=False)
    must(station.is_there and not any("ended" in line for line in bridge.said.lines), "it has ended")
    bridge.end()


def half_a_line(start, _room, _program):
    """A controller without a journal ends amid a line: that is no line, and a station isn't sent it."""
    says = "read line; echo in open 1 0 0 3; printf 'out abis 0 0 082e010b'"
    bridge = start(core=("sh", "-c", says))
    station = bridge.station(FIRST)
    bridge.ask("open 1 0 0 3")
    bridge.said.expect("ended amid a line, which isn't heard: out abis 0 0 082e010b$")
    bridge.wait(0)
    must(not station.count(is_kind(rsl.RELEASE)), "the station is sent half a line")


def of_another_kind(start, room, program):
    """A program that prints lines before it goes on takes the controller's place in vain: they do nothing. One that prints many is
    killed."""
    bridge = journaled(start, room, program, "--control", "control")
    station = open_one(bridge)
    operator = Asker(room / "control")
    others = {"once": "echo out abis 0 0 082e010b; exit 4", "often": "exec yes out abis 0 0 082e010b"}
    for name, line in others.items():
        other = good_on_a_copy(room, program, name, line)
        operator.ask(f"upgrade {other}\n")
        operator.expect(f"^refused: upgrade .*{name}: it ended with status (4|-9|-13), and the old one goes on$")
        bridge.said.expect("before it goes on the controller prints: out abis 0 0 082e010b$")
        catch_up(bridge)
    bridge.said.find("before it goes on the controller prints 1000 lines, and is killed$", 0)
    operator.leave()
    must(not station.count(is_kind(rsl.RELEASE)), "its station is sent what it prints")
    clear_it(bridge)
    bridge.process.terminate()
    bridge.wait(0)


def upgraded_in_vain(start, room, program):
    """A program that goes on and then ends before it has done a line, or says that it goes on behind another line than the
    journal's last, takes the controller's place in vain: the old one goes on, and the call. One that says so of a copy of the
    journal isn't given that place."""
    bridge = journaled(start, room, program, "--control", "control", again=())
    station = open_one(bridge)
    operator = Asker(room / "control")
    resumed = f'echo "resumed after line {last_line(bridge)}: it" >&2\nread line\nexit 5'
    dies = good_on_a_copy(room, program, "dies", resumed)
    wrong = 'echo "resumed after line 99: it" >&2\nread line\nexit 0'
    lies, liar = good_on_a_copy(room, program, "lies", wrong), program_that(room, "liar", f"#!/bin/sh\n{wrong}\n")
    operator.ask(f"upgrade {dies}\n")
    operator.expect("^.*dies: goes on behind line [0-9]+$")
    operator.ask("handover 1 63\n")
    operator.expect("^refused: upgrade .*dies: it ended with status 5, and the old one goes on$", "^in handover 1 63$")
    operator.ask(f"upgrade {lies}\n")
    operator.expect("^refused: upgrade .*lies: it ended with status (-9|0), and the old one goes on$")
    catch_up(bridge)
    operator.ask(f"upgrade {liar}\n")
    operator.expect("^refused: upgrade .*liar: tried on a copy of the journal: it goes on behind line 99, but the journal has line ")
    operator.leave()
    must(station.is_there, "its station is gone")
    clear_it(bridge)
    bridge.process.terminate()
    bridge.wait(0)


CHECKS = [pauses_grow, bounded_pauses, slowly_in_vain, ended_in_a_pause, upgraded_in_a_pause, upgraded_in_vain, of_another_kind]
CHECKS += [hangs, hangs_without_journal, waits_for_a_disk, half_a_line]
