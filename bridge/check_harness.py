"""The checks of the checks: they wait for what is to come, however long that takes, and notice what stays; and what the
demonstrations begin ends with them."""
import os
import signal
import subprocess
import sys

from harness import FOLDER, LIMIT, LeftOut, Unmet, children, must
from network_harness import CLEAR, begin, clear, emptied, leave, register, say, sent


def ends(run):
    """Whether it ends with an empty book."""
    try:
        run.end()
    except Unmet:
        return False
    return True


# Each gets a function that starts a network, with options of CONFIG, a folder, and the program.


def a_slow_station(start, _room, _program):
    """A station takes its time to acknowledge a release. That of the second call on a channel is waited for, also where nobody
    has waited for the first; and so is one at the end that nobody has waited for."""
    run = start()
    station = run.begin()
    number, connection = register(run, station)
    run.centre.data(connection, CLEAR)
    sent(station, f"030101{number}02000b0003060d00")
    say(station, f"020901{number}0200")
    emptied(run)
    run.centre.release(connection)
    station.slowness = 1
    clear(run, station, *register(run, station, reference="060a0d"))
    released = [line for line in run.out.lines if line == "event released 0/0/1 -> done"]
    must(len(released) == 2, "a release of before is taken for that of now")
    run.ask("open 50 0 0 2")
    run.expect("record 0/0/2 on$")
    run.ask("clear 50")
    must(ends(run), "what is answered at the end isn't waited for")


def what_stays(start, _room, _program):
    """A channel whose release isn't acknowledged is noticed where its call has ended, and at the end; so is a call that goes
    on."""
    run = start()
    station = run.begin()
    clear(run, station, *register(run, station))
    number, connection = register(run, station, reference="060a0d")
    station.unanswered = {0x2E}
    run.centre.data(connection, CLEAR)
    try:
        leave(run, station, number)
    except Unmet:
        must(not ends(run), "a channel that stays isn't noticed at the end")
    else:
        raise Unmet("a channel that stays isn't noticed")
    run = start()
    begin(run, run.begin())
    must(not ends(run), "a call that goes on isn't noticed")


# A demonstration that begins something and waits for it. It may take so many seconds.
DEMONSTRATION = """
import signal, subprocess, sys
# where this is begun in the background, it would be ignored
signal.signal(signal.SIGINT, signal.default_int_handler)
sys.dont_write_bytecode = True
sys.path.insert(0, {folder!r})
from demonstration import enter
if (status := enter("it", ("unshare", "ip"), "packages util-linux, iproute2", int(sys.argv[1]))) is not None:
    sys.exit(status)
begun = subprocess.Popen(("sleep", "1000"))
print("there", flush=True)
begun.wait()
"""


def ends_with_all(_start, room, _program):
    """A demonstration is killed midway, or takes too long: nothing that it began stays. It needs namespaces."""
    path = room / "demonstration"
    path.write_text(DEMONSTRATION.format(folder=str(FOLDER)))
    for number in (signal.SIGTERM, signal.SIGINT, signal.SIGHUP, signal.SIGKILL):
        begun = demonstrate(path, 1000)
        begun.send_signal(number)
        ends_so(begun, number)
        must(number == signal.SIGKILL or not list(room.glob("tmp*")), f"a folder stays: {number}")
    begun = demonstrate(path, 1000)
    os.kill(children(begun.pid)[0], signal.SIGKILL)
    ends_so(begun, "its unshare is killed")
    said = ends_so(demonstrate(path, 1, is_awaited=False), "it takes too long")
    must(said == "it: isn't done in 1 seconds, and is killed\n" and begun.returncode != 0, f"it says {said!r}")


def demonstrate(path, seconds, is_awaited=True):
    """Begins a demonstration, and waits until it is there."""
    words = [sys.executable, path, str(seconds)]
    settings = os.environ | {"TMPDIR": str(path.parent)}
    pipe = subprocess.PIPE
    begun = subprocess.Popen(words, env=settings, stdout=pipe, stderr=pipe, text=True)
    line = begun.stdout.readline() if is_awaited else "there\n"
    if "left out" in line:
        begun.communicate(timeout=LIMIT)
        raise LeftOut(line.strip().removeprefix("it: left out: "))
    must(line == "there\n", f"it says {line!r}")
    return begun


def ends_so(begun, why):
    """Waits until all that has this demonstration's output has ended; what it said on standard error."""
    try:
        return begun.communicate(timeout=LIMIT)[1]
    except subprocess.TimeoutExpired as error:
        raise Unmet(f"something stays: {why}") from error


CHECKS = [a_slow_station, what_stays, ends_with_all]
