"""Checks of the bridge: a controller that prints what none does, ends in the middle, never goes on, or is stopped while it begins
or ends; a system without another file; and how the bridge ends with its controller (again.py, watch.py, child.py)."""
import contextlib
import os
import pathlib
import resource
import signal
import socket
import threading
import time

import child as beginning
from check_again import CONTROLLER, OFTEN, await_messages, bridge_with, catch_up, controller, journaled, leave_open, plan
from check_again import program_that, received, small_disk, stopped
from check_hang import AGAIN, TROUBLED, at_the_next_line, clear_it, last_line, open_one
from harness import FOLDER, LIMIT, SITE, Asker, LeftOut, child, must

# A line that comes to nothing.
VAIN = "handover 1 63"
# How many files a bridge may have that has no more; more than so many it has where it has very many.
FEW, MANY = 40, 1100


def done(bridge, line):
    """How often a line was done, of those that the controller was given by now."""
    catch_up(bridge)
    return bridge.out.lines.count(f"in {line}")


# What the controller prints


def garbage(start, _room, _program):
    """A controller without a journal that prints what none does: where nothing is to be done by it that is told once, and else the
    controller is killed, and the bridge ends. It doesn't fail itself."""
    strays = r"\377\376 \000\nhello\nsummary\nin\nout newlink 5 word\nevent newname 0/0/3 1 -> newreply 7\n"
    bridge = start(core=("sh", "-c", f"printf '{strays}'; exec cat"))
    bridge.said.expect(r"the controller prints what isn't known: .. \?$")
    bridge.ask("in open 1 0 0 3")
    bridge.expect("^in open 1 0 0 3$")
    bridge.end()
    must(sum("isn't known" in line for line in bridge.said.lines) == 1, "it isn't told once")
    for line in ("line x", "out abis 0 0 082e010", "in abis 0 0 08 2e", r"event open 1 \377 -> done", "event confirm 1 -> done"):
        bridge = start(core=("sh", "-c", f"printf '{line}\\n'; exec cat"))
        bridge.said.expect("the controller prints what none does, and is killed: (line|out|in|event) ")
        bridge.said.expect("ends: the controller has ended$")
        bridge.wait(1)


def garbled(start, room, program):
    """One with a journal that prints what none does is killed, and another goes on: nothing is lost, and nothing done twice."""
    bridge = journaled(start, room, program)
    station = open_one(bridge)
    at_the_next_line(bridge, room, "garbled")
    bridge.ask(VAIN)
    bridge.said.expect("the controller prints what none does, and is killed: event open 1 ")
    bridge.said.expect(f"has ended with status -9 behind line .*{AGAIN}$")
    must(done(bridge, VAIN) == 1 and station.is_there, "its line isn't done once")
    clear_it(bridge)
    bridge.end()


def ends_in_the_middle(start, room, program):
    """A controller that ends with status 0 as if nothing more was to come is started again. Where the bridge ends later, and the
    controller dies before it has done all, another one does the rest."""
    bridge = journaled(start, room, program)
    open_one(bridge)
    at_the_next_line(bridge, room, "ends")
    bridge.ask(VAIN)
    bridge.said.expect(f"has ended with status 0 behind line .*{AGAIN}$")
    at_the_next_line(bridge, room, "given")
    bridge.ask("clear 1")
    bridge.process.stdin.close()
    bridge.wait(0)
    must("event clear 1 -> done" in bridge.out.lines, "the last line isn't done")


# A system without another file


def with_files(room, most, opened=0):
    """A bridge that may have so many files, and has opened some already."""
    begin = f"import os, resource, runpy, sys; sys.dont_write_bytecode = True; sys.path.insert(0, {str(FOLDER)!r})"
    limit = f"resource.setrlimit(resource.RLIMIT_NOFILE, ({most}, resource.getrlimit(resource.RLIMIT_NOFILE)[1]))"
    files = f"[os.open(os.devnull, os.O_RDONLY) for _ in range({opened})]"
    run = f"runpy.run_path({str(FOLDER / 'abis')!r}, run_name='__main__')"
    return program_that(room, "abis", f"#!/usr/bin/env python3\n{begin}; {limit}; {files}; {run}\n")


def no_other_file(start, room, program):
    """Strangers' links are all files that the bridge may have. It goes on, sees nothing of a controller that is stopped, and tells
    that; where that is killed it tries to start it until files can be opened: then nothing is lost."""
    bridge = journaled(start, room, program, "--hang", "2", abis=with_files(room, FEW))
    station = open_one(bridge)
    at_the_next_line(bridge, room, "stopped")
    with contextlib.ExitStack() as strangers:
        for _ in range(FEW):
            strangers.enter_context(socket.create_connection(("127.0.0.1", bridge.port)))
        bridge.said.expect("nobody can connect now: .*Too many open files")
        bridge.ask(VAIN)
        bridge.said.expect("the controller answers nothing for 2 seconds: it waits for a disk or a processor")
        os.killpg(child(bridge), signal.SIGKILL)
        bridge.said.expect("the controller can't be started: .*Too many open files.* in 0.4 seconds$")
    must(done(bridge, VAIN) == 1 and station.is_there, "its line isn't done once")
    clear_it(bridge)
    bridge.end()


def very_many_files(start, room, program):
    """A bridge that has more files than 1024 starts its controller again as any."""
    if resource.getrlimit(resource.RLIMIT_NOFILE)[1] < 2 * MANY:
        raise LeftOut(f"no process may have {2 * MANY} files")
    bridge = journaled(start, room, program, abis=with_files(room, 2 * MANY, MANY))
    open_one(bridge)
    os.killpg(child(bridge), signal.SIGKILL)
    bridge.said.expect(f"{AGAIN}$")
    clear_it(bridge)
    bridge.end()


def failing_reads(room, times):
    """A bridge that can't read the journal so many times."""
    fails = "(_ for _ in ()).throw(OSError(left.pop(), 'Too many open files'))"
    reads = f"lambda *it: {fails} if left else records(*it)"
    return bridge_with(room, "journal.Journal.records", f"(lambda records, left: {reads})(journal.Journal.records, [24] * {times})")


def unread_journal(start, room, program):
    """The journal can't be read just now as a controller goes on over it: that one is killed, and another tries, until it can. So
    it is with a journal of before, whose calls end then."""
    told = "the journal can't be read, and the controller is killed: .*Too many open files$"
    bridge = journaled(start, room, program, abis=failing_reads(room, 2))
    station = open_one(bridge)
    at_the_next_line(bridge, room, "noted")
    bridge.ask(VAIN)
    bridge.said.expect(told)
    bridge.said.expect(told)
    must(done(bridge, VAIN) == 1 and station.is_there, "its line isn't done once")
    clear_it(bridge)
    bridge.end()
    leave_open(journaled(start, room, program), True)
    bridge = journaled(start, room, program, abis=failing_reads(room, 2))
    bridge.said.expect(told)
    bridge.said.expect(told)
    bridge.said.expect("calls of before are over: 1, with 3 channels$")
    catch_up(bridge)
    bridge.end()
    must(bridge.out.lines[-1] == "end channels=0 calls=0 references=0 timers=0", f"{bridge.out.lines[-1]}")


def figures_without_room(start, room, program):
    """The disk of the figures is full as the bridge begins: it begins all the same, says so, and writes them once there is room. It
    needs a namespace of mounts."""
    with small_disk(room) as disk:
        disk.fill()
        figures = room / "journal" / "figures"
        words = ("--figures", figures, "--figures-every", "0.1")
        bridge = start(*words, core=(program, "live", SITE), abis=disk.program("abis", FOLDER / "abis"))
        bridge.said.find("figures: the figures can't be written now: .*No space left on device$", 0)
        disk.empty()
        bridge.said.find("figures: the figures are written again$", 0)
        bridge.end()


# Controllers that do nothing


def bounded_waiting(start, room, program):
    """A controller says again and again that it goes on, and ends: however often it does, no more waits of what a station sends
    than may. Once one goes on indeed all of it is handled."""
    says = 'if [ -e trouble ]; then echo "resumed after line $(cat trouble): it" >&2; exit 3; fi'
    core = (controller(room, program, first=says), "live", SITE, "--journal", "journal")
    figures = ("--figures", "figures", "--figures-every", "0.1")
    bridge = start(*OFTEN, *figures, core=core, abis=bridge_with(room, "relay.MOST_UNREAD", 1 << 14))
    station = open_one(bridge)
    (room / "trouble").write_text(f"{last_line(bridge)}\n")
    before = received(room)
    # lines of 416 octets, as in check_again.a_slow_one
    count, message = 1_200, bytes.fromhex("0828010b") + bytes(196)
    os.killpg(child(bridge), signal.SIGKILL)
    threading.Thread(target=lambda: [station.say(message) for _ in range(count)], daemon=True).start()
    bridge.said.expect(f"{AGAIN} in 3.2 seconds$")
    must(received(room) < before + 600, f"{received(room) - before} messages wait")
    (room / "trouble").unlink()
    await_messages(room, before + count)
    catch_up(bridge)
    handled = sum(line.startswith("in abis 0 0 0828010b") for line in bridge.out.lines)
    must(handled == count and station.is_there, f"{handled} messages are handled")
    clear_it(bridge)
    bridge.end()


def asked_nevertheless(start, room, program):
    """A station has filled what may wait while the controller is started again and again: operators are answered all the same, and
    another program takes its place."""
    core = (controller(room, program, first=TROUBLED), "live", SITE, "--journal", "journal")
    settings = "1 << 14; import again; again.PAUSE = again.LONGEST_PAUSE = 1000"
    figures = ("--figures", "figures", "--figures-every", "0.1")
    bridge = start(*OFTEN, *figures, "--control", "control", core=core, abis=bridge_with(room, "relay.MOST_UNREAD", settings))
    station = open_one(bridge)
    (room / "trouble").touch()
    os.killpg(child(bridge), signal.SIGKILL)
    bridge.said.expect(f"{AGAIN} in 1000 seconds$")
    before = received(room)
    # lines of 416 octets, of which 40 are too much to wait
    for _ in range(60):
        station.say(bytes.fromhex("0828010b") + bytes(196))
    await_messages(room, before + 40)
    operator = Asker(room / "control")
    operator.ask(f"stations\nupgrade {controller(room, program, 'other')}\n{VAIN}\n")
    operator.expect("^station 6969/0/0 .*: there since ", "^.*other: goes on behind line [0-9]+$", f"^in {VAIN}$")
    operator.leave()
    await_messages(room, before + 60)
    clear_it(bridge)
    bridge.process.terminate()
    bridge.wait(0)


def never_goes_on(start, room, program):
    """A controller that never goes on, however long each takes, is given up."""
    settings = "0.5; again.LASTING = 0.1; again.PERIOD = 0.0"
    bridge = journaled(start, room, program, again=("--again", "3"), abis=bridge_with(room, "again.LONGEST", settings))
    open_one(bridge)
    (room / "journal" / "hold").touch()
    os.killpg(child(bridge), signal.SIGKILL)
    bridge.said.expect("the controller isn't ready in 0.5 seconds, and is killed$")
    bridge.said.expect("ends: the controller has ended 1 times in 0 seconds, 4 times in a row having done nothing$")
    bridge.wait(1)


def dies_of_a_line(start, room, program):
    """A controller that dies of the same line again and again, long after it began, is given up, too."""
    settings = "0.0; again.PERIOD = 0.0"
    bridge = journaled(start, room, program, again=("--again", "3"), abis=bridge_with(room, "again.LASTING", settings))
    open_one(bridge)
    plan(room / "journal", *[f"{1 + last_line(bridge)} given"] * 20)
    bridge.ask(VAIN)
    bridge.said.expect("ends: the controller has ended 1 times in 0 seconds, 4 times in a row having done nothing$")
    bridge.wait(1)


def stopped_between(start, room, program):
    """A controller is stopped before it goes on over its journal, while it ends for another, and as the bridge ends: it is killed
    after a while, and the next one goes on."""
    killed = "the controller answers nothing for 2 seconds, and is killed$"
    bridge = journaled(start, room, program, "--control", "control", "--hang", "2")
    station = open_one(bridge)
    (room / "journal" / "hold").touch()
    os.killpg(child(bridge), signal.SIGKILL)
    bridge.said.expect(f"{AGAIN}$")
    with stopped(begun(bridge)):
        bridge.said.expect(killed)
        (room / "journal" / "hold").unlink()
    must(done(bridge, VAIN) == 0, "it doesn't go on")
    operator = Asker(room / "control")
    with stopped(begun(bridge)):
        operator.ask(f"upgrade {controller(room, program, 'other')}\n")
        bridge.said.expect(killed)
    operator.expect("^.*other: goes on behind line [0-9]+$")
    operator.leave()
    must(done(bridge, VAIN) == 0 and station.is_there, "it doesn't go on")
    with stopped(begun(bridge)):
        bridge.ask("clear 1")
        bridge.process.terminate()
        bridge.said.expect("ends: signal 15$")
        bridge.said.expect(killed)
    bridge.wait(0)
    must("event clear 1 -> done" in bridge.out.lines, "the last line isn't done")


def begun(bridge):
    """The process of a controller that has begun just now: it isn't the bridge's copy any more."""
    end = time.monotonic() + LIMIT
    while True:
        with contextlib.suppress(IndexError, OSError):
            number = child(bridge)
            if CONTROLLER.name in pathlib.Path(f"/proc/{number}/cmdline").read_text():
                return number
        must(time.monotonic() < end, "no controller is there")
        time.sleep(0.02)


# The end


def killed_together(start, room, program):
    """The bridge is killed: its controller is, too, though it is stopped. So the next one gets the journal."""
    if beginning.PRCTL is None:
        raise LeftOut("nothing kills a process with its parent here (prctl)")
    bridge = journaled(start, room, program)
    open_one(bridge)
    number = child(bridge)
    with stopped(number):
        bridge.process.kill()
        bridge.process.wait(LIMIT)
        end = time.monotonic() + LIMIT
        while (state := state_of(number)) not in (None, "Z"):
            must(time.monotonic() < end, f"it is there, in the state {state}")
            time.sleep(0.05)
    bridge = journaled(start, room, program)
    bridge.said.expect("calls of before are over: 1, with 1 channels$")
    catch_up(bridge)
    bridge.end()


def state_of(number):
    """The state of a process; None where it is gone."""
    try:
        return pathlib.Path(f"/proc/{number}/stat").read_text().rpartition(") ")[2].split()[0]
    except OSError:
        return None


def told_to_end(start, _room, _program):
    """A controller has closed its output, and doesn't end: a signal kills it at once. One that was told to end by a signal, and
    takes its time, isn't killed since standard input ends then, too."""
    bridge = start(core=("sh", "-c", "exec >&-; exec sleep 1000"))
    bridge.said.expect("ends: the controller has ended$")
    begun = time.monotonic()
    bridge.process.terminate()
    bridge.wait(1)
    must(time.monotonic() - begun < 25, "it takes as long as it may take without a signal")
    bridge = start(core=("sh", "-c", "cat; sleep 2"))
    bridge.process.terminate()
    bridge.said.expect("ends: signal 15$")
    bridge.end()


CHECKS = [garbage, garbled, ends_in_the_middle, no_other_file, very_many_files, unread_journal, bounded_waiting, never_goes_on]
CHECKS += [figures_without_room, asked_nevertheless, dies_of_a_line, stopped_between, killed_together, told_to_end]
