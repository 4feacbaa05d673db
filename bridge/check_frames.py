"""Checks of the bridge: how many frames of speech a call has in a second, as the terminal of its gateway counts packets."""
import time

from check_moves import begin_moving, start_speaking
from check_succession import upgrade
from harness import must
from network_harness import ask_until, clear
from speech_harness import deleted, detect, speak, start_call
from test_terminal import TestTerminal

# How the terminal is named.
TERMINAL = r"the gateway's terminal at 127.0.0.1, port \d+"
# What is told where so many come, and go, in a second: the moments at which they are counted are some milliseconds off.
FIFTY, HALF = "(49|50|51)", "(24|25|26)"


def counting(start, **options):
    """A network whose gateway has a terminal, and that terminal: 25 packets a second come there from the centre, and 50 from the
    station."""
    terminal = TestTerminal()
    run = start(terminal=f"terminal = {terminal.port}", **options)
    terminal.gateway, terminal.rates = run.gateway, (25, 50)
    return run, terminal


def counted(start, _room, _program):
    """`calls` says of a call that speaks how many frames there were in the last second, each way; where none speaks the terminal isn't
    asked. Another bridge counts on."""
    run, terminal = counting(start)
    station = run.begin()
    call = start_call(run, station)
    ask_until(run, "network", "^speech: 0 endpoints; .*; frames: counted$")
    must(not terminal.came, f"it is asked {terminal.came}")
    ask_until(run, "calls", "^channel 0/0/1: on for call 1[^;]*; station: on since [0-9:]+$")
    speak(call)
    frames = f"frames in the last second: {FIFTY} from the mobile, {HALF} to it$"
    ask_until(run, "calls", f"^channel 0/0/1: on for call 1.*; {frames}")
    must(terminal.came[0] == f"show mgcp endpoint {call.endpoint}", f"it is asked {terminal.came[:2]}")
    upgrade(run)
    ask_until(run, "calls", f"^channel 0/0/1: on for call 1.*; {frames}")
    clear(run, station, call.number, call.connection)
    deleted(call)
    # it may be asked once more, at most
    time.sleep(2)
    asked = len(terminal.came)
    time.sleep(2)
    must(len(terminal.came) == asked, f"it is asked yet: {terminal.came[asked:]}")
    run.end()
    terminal.stop()


def on_the_move(start, _room, _program):
    """Of a call that moves the frames are those of the channel where its mobile is."""
    terminal = TestTerminal()
    run, station, other, call = start_speaking(start, terminal=f"terminal = {terminal.port}")
    terminal.gateway = run.gateway
    frames = "; frames in the last second: "
    ask_until(run, "calls", f"^channel 0/0/1: on for call 1.*{frames}")
    begin_moving(run, station, other, call)
    detect(other, "09")
    ask_until(run, "calls", f"^channel 1/0/[0-7]: on for call 1.*{frames}")
    run.ask("calls")
    end = run.catch_up()
    told = [line for line in run.out.lines[:end] if line.startswith("channel ")][-2:]
    must([frames in line for line in told] == [False, True], f"it is told of {told}")
    run.ask("undo 1")
    ask_until(run, "calls", f"^channel 0/0/1: on for call 1.*{frames}")
    run.end(is_empty=False)
    terminal.stop()


def not_counted(start, _room, _program):
    """A terminal that isn't there, or doesn't answer, is told once, and `network` says since when; calls speak all the same. Once
    it answers, frames are counted."""
    run, terminal = counting(start)
    terminal.answers = False
    station = run.begin()
    call = start_call(run, station)
    speak(call)
    run.said.expect(f"warning: {TERMINAL}: it doesn't answer in 5 seconds: frames of speech aren't counted$")
    ask_until(run, "network", "^speech: .*; frames: not counted since [0-9:]+$")
    terminal.answers = True
    run.said.expect(f"notice: {TERMINAL}: answers again$")
    ask_until(run, "calls", f"^channel 0/0/1: .*; frames in the last second: {FIFTY} ")
    terminal.stop()
    run.said.expect(f"warning: {TERMINAL}: the link ended: frames of speech aren't counted$")
    ask_until(run, "calls", "^channel 0/0/1: on for call 1[^;]*; station: on since [0-9:]+$")
    # it is tried again after ten seconds, in vain, which isn't told
    time.sleep(12)
    must(sum("aren't counted" in line for line in run.said.lines) == 2, f"it is told again: {run.said.lines[-5:]}")
    clear(run, station, call.number, call.connection)
    deleted(call)
    run.end()


def another_terminal(start, _room, _program):
    """What tells no packets is no terminal of osmo-mgw's: that is told."""
    run, terminal = counting(start)
    terminal.answer = lambda line: b"" if line.startswith("!") else b"% Unknown command.\r\n"
    station = run.begin()
    call = start_call(run, station)
    speak(call)
    run.said.expect("it tells no numbers of packets, as osmo-mgw does: frames of speech aren't counted$")
    clear(run, station, call.number, call.connection)
    run.end()
    terminal.stop()


CHECKS = [counted, on_the_move, not_counted, another_terminal]
