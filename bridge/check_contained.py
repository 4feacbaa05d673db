"""Checks of the bridge: a fault of its own, which is put into it here, ends what was handled, alone; whose turn it is in the loop;
and what mypy and a fuzzer find."""
import re
import signal
import subprocess
import sys

from check_again import program_that
from check_figures import await_figure
from harness import FIRST, FOLDER, LIMIT, SECOND, SLOW, Asker, must, needs
from network_harness import clear, register
from speech_harness import ASSIGN, failed, speak, start_call

# What a station, or the centre, says at which a fault is met, and an operator's line.
ODD, ODD_LINE = "0828010bfa017ed0", "frobnicate"
# How a bridge begins into which something is put.
BEGIN = f"#!/usr/bin/env python3\nimport runpy, sys\nsys.dont_write_bytecode = True\nsys.path.insert(0, {str(FOLDER)!r})"
# The modules that hold links, and what is under way on them.
HOLDING = ("links", "relay", "network_relay", "stations", "ipa_client", "m3ua", "connections", "a_side", "gateway", "media")
HOLDING += ("stream", "operators", "bridge", "again", "child", "faults", "tell", "log")
# How many operators there are, and how many lines each has.
CROWD, LINES = 30, 40


def faulty(room, where, name="abis"):
    """A bridge into which faults are put: of each function, as relay.Relay.receive, where it fails, told by its words."""
    lines = [BEGIN, "def failing(function, fails):", "    def it(*words):"]
    lines += ["        if fails(*words):", "            raise RuntimeError('put in')"]
    lines += ["        return function(*words)", "    return it"]
    for function, fails in where.items():
        lines += [f"import {function.split('.')[0]}", f"{function} = failing({function}, {fails})"]
    return program_that(room, name, "\n".join([*lines, f"runpy.run_path({str(FOLDER / name)!r}, run_name='__main__')", ""]))


def told(who, then):
    """The line by which a fault is told; it is met in the file that puts it in."""
    return rf"{who}: a fault of the bridge, RuntimeError at (?:abis|network):\d+ in it .put in.: {then}$"


def at_a_station(start, room, _program):
    """A fault is met while a station's octets are handled: its link ends alone, which is told and counted; it can come back."""
    abis = faulty(room, {"relay.Relay.receive": f"lambda _relay, _station, _stream, message: message.hex() == {ODD!r}"})
    bridge = start("--figures", "figures", "--figures-every", "0.1", abis=abis)
    one, other = bridge.station(FIRST), bridge.station(SECOND, trx=1)
    for call, place in ((1, "0 0 3"), (2, "1 1 3")):
        bridge.ask(f"open {call} {place}")
        bridge.expect("record ./0/3 on$" if call == 1 else "record 1/1/3 on$")
    one.say(bytes.fromhex(ODD))
    bridge.said.expect(told(r"station 6969/0/0 \(cell 0, TRX 0\)", "the link is closed"))
    must(one.await_end(), "its link stays")
    bridge.expect("^in abis 0 0 0824010b1a0120$")
    await_figure(room / "figures", 1, "gofnild_faults_total", place="station")
    await_figure(room / "figures", 0, "gofnild_faults_total", place="bridge")
    must(other.is_there and bridge.station(FIRST).is_there, "another link ends, or it can't come back")
    for call in (1, 2):
        bridge.ask(f"clear {call}")
        bridge.expect(f"^event clear {call} -> done$")
    bridge.end()


def at_a_timer_of_a_link(start, room, _program):
    """A fault is met as a link's time is over: that link ends alone."""
    abis = faulty(room, {"links.Link.lose_patience": "lambda _link: True"})
    bridge = start("--patience", SLOW, abis=abis)
    station = bridge.station(SECOND, trx=1)
    station.answers_pings = True
    one = bridge.station(FIRST)
    one.send(b"\x00\x20\x00\x02")
    bridge.said.expect(told(r"station 6969/0/0 \(cell 0, TRX 0\)", "the link is closed"))
    must(one.await_end() and station.is_there, "its link stays, or another ends")
    bridge.end()


def at_a_line(start, room, _program):
    """A fault is met while an operator's line is handled: it isn't carried out, he is told, and asks on; it is told and counted."""
    abis = faulty(room, {"operators.Operator.take": f"lambda _operator, line: line == b{ODD_LINE!r}"})
    bridge = start("--figures", "figures", "--figures-every", "0.1", "--control", "control", abis=abis)
    operator = Asker(room / "control")
    operator.ask(f"{ODD_LINE}\nstations\n")
    operator.expect(f"^refused: {ODD_LINE}: a fault of the bridge, RuntimeError$", "^station 6969/0/0 ")
    bridge.said.expect(told(rf"operator 1, user \d+: {ODD_LINE}", "it isn't carried out to its end"))
    bridge.ask(ODD_LINE)
    bridge.expect(f"^refused: {ODD_LINE}: ")
    bridge.ask("open 1 0 0 3")
    bridge.expect("^event open 1 ")
    await_figure(room / "figures", 2, "gofnild_faults_total", place="operator")
    operator.leave()
    bridge.process.terminate()
    bridge.wait(0)


def at_the_controller(start, room, _program):
    """A fault is met while the controller's lines are handled: what the bridge knows may be wrong, and it ends in order."""
    bridge = start("--log", "log", abis=faulty(room, {"relay.Relay.follow": "lambda _relay, event: event.name == 'clear'"}))
    station = bridge.station(FIRST)
    bridge.ask("open 1 0 0 3")
    bridge.expect("record 0/0/3 on$")
    bridge.ask("clear 1")
    bridge.said.expect(told("bridge", "what it knows may be wrong, and it ends"))
    bridge.said.expect("ends: a fault of the bridge$")
    bridge.wait(1)
    must(station.await_end(), "its link stays")
    must(bridge.out.lines[-1].startswith("end channels="), f"the controller doesn't end in order: {bridge.out.lines[-1]}")
    must("\nclear 1\n" in (room / "log").read_text(), "the log isn't whole")


def at_the_centre(start, room, _program):
    """A fault is met while the centre's octets are handled: its link ends alone, and is opened again; stations notice nothing."""
    abis = faulty(room, {"connections.Connections.heard": f"lambda _connections, octets: octets.hex() == {ODD!r}"}, "network")
    run = start(words=("--figures", room / "figures", "--figures-every", "0.1"), network=abis)
    station = run.begin()
    run.centre.send(ODD)
    run.said.expect(told(r"A: the link to 127.0.0.1, port \d+", "it is closed"))
    run.said.expect("A: the link is lost, and all calls end$")
    run.said.expect("A: the centre is there$")
    await_figure(room / "figures", 1, "gofnild_faults_total", place="centre")
    must(station.is_there, "the station's link ends")
    clear(run, station, *register(run, station))
    run.end()


def at_the_gateway(start, room, _program):
    """A fault is met while an answer of the gateway is handled: that transaction is given up, as if it wasn't answered, and the
    next one goes on."""
    where = {"media.Media.answered": "lambda _media, _speech, _side, _remote, answer: bool(answer) and answer.code == 299"}
    network = faulty(room, where, "network")
    run = start(words=("--figures", room / "figures", "--figures-every", "0.1"), network=network)
    station = run.begin()
    call = start_call(run, station)
    run.gateway.changed_answer = lambda text: re.sub("^200", "299", text)
    run.centre.data(call.connection, ASSIGN)
    failed(call, "20")
    run.said.expect(told(r"the media gateway at 127.0.0.1, port \d+, transaction \d+", "that one is given up"))
    await_figure(room / "figures", 1, "gofnild_faults_total", place="gateway")
    run.gateway.changed_answer = lambda text: text
    speak(call)
    clear(run, station, call.number, call.connection)
    run.end()


def numbers_again(start, room, _program):
    """Of numbers for calls there are but four: each mobile's is free once its call is over, however many come."""
    words = f"import runpy, sys; sys.dont_write_bytecode = True; sys.path.insert(0, {str(FOLDER)!r}); import talks"
    run_it = f"talks.NUMBERS = 4; runpy.run_path({str(FOLDER / 'network')!r}, run_name='__main__')"
    run = start(network=program_that(room, "network", f"#!/usr/bin/env python3\n{words}; {run_it}\n"))
    station = run.begin()
    for place in range(6):
        clear(run, station, *register(run, station, reference=f"e{place}0ad1"))
    run.end()


# Whose turn it is


def marked(room):
    """A bridge that says when times are looked at, when a line of an operator is taken, and when a station's message is."""
    lines = [BEGIN, "import operators, relay, stream, tell", "def marked(function, mark):", "    def it(*words):"]
    lines += ["        tell.say(mark)", "        return function(*words)", "    return it"]
    marked = {"stream.Times.run_due": "TIMES", "operators.Client.take": "LINE", "relay.Relay.receive": "STATION"}
    lines += [f"{function} = marked({function}, 'mark {mark}')" for function, mark in marked.items()]
    return program_that(room, "abis", "\n".join([*lines, f"runpy.run_path({str(FOLDER / 'abis')!r}, run_name='__main__')", ""]))


def marks(bridge):
    """What was marked, in its order."""
    return [found[1] for line in list(bridge.said.lines) if (found := re.search(" mark ([A-Z]+)$", line))]


def crowd(start, room, line):
    """A bridge with a station, and a crowd of operators, who came before that, and of whom each has asked the same many times,
    while the bridge was stopped; the station has said something behind that."""
    bridge = start("--control", "control", abis=marked(room))
    operators = [Asker(room / "control") for _ in range(CROWD)]
    for operator in operators:
        operator.ask("calls\n")
        operator.expect("^no channel is in use$")
        bridge.said.expect(" mark LINE$")
    station = bridge.station(FIRST)
    bridge.process.send_signal(signal.SIGSTOP)
    before = len(marks(bridge))
    for operator in operators:
        operator.ask(f"{line}\n" * LINES)
    station.say(bytes.fromhex("0822010c"))
    bridge.process.send_signal(signal.SIGCONT)
    bridge.expect("^in abis 0 0 0822010c$")
    return bridge, operators, before


def longest_turn(bridge, before):
    """How many lines of operators were taken in a turn of the loop, where most were."""
    turns = "".join(it[0] for it in marks(bridge)[before:]).split("T")
    return max(turn.count("L") for turn in turns)


def operators_wait(start, room, _program):
    """Thirty operators ask for views, many times each: what a station says meanwhile is handled first, and in each turn of the
    loop there is one view, behind all else that came, and the times."""
    bridge, operators, before = crowd(start, room, "calls")
    bridge.said.expect(" mark STATION$")
    taken = marks(bridge)[before:]
    early = taken[: taken.index("STATION")].count("LINE")
    must(early <= 2, f"{early} lines of operators are taken before the station's message")
    for operator in operators:
        must(len(operator.leave()) >= LINES, "an operator isn't answered")
    must(longest_turn(bridge, before) == 1, f"{longest_turn(bridge, before)} views are shown in a turn")
    bridge.process.terminate()
    bridge.wait(0)


def lines_wait(start, room, _program):
    """They give lines to the controller: in each turn of the loop it gets sixteen at most, and no more before it has answered
    these; so what the station says is in front of nearly all of them, and each operator has his turn."""
    bridge, operators, before = crowd(start, room, "abis 0 0 0822010d")
    line = "in abis 0 0 0822010d"
    early = bridge.out.lines[: bridge.out.lines.index("in abis 0 0 0822010c")].count(line)
    must(early <= 48, f"{early} lines of operators come before what the station said")
    answered = [operator.leave().count(line) for operator in operators]
    must(answered == [LINES] * CROWD, f"they are answered {answered}")
    must(longest_turn(bridge, before) <= 16, f"{longest_turn(bridge, before)} lines are taken in a turn")
    bridge.process.terminate()
    bridge.wait(0)


# What is looked for


def typed(_start, room, _program):
    """In the modules that hold links nothing is used that may be None then, as far as mypy sees that."""
    needs("mypy", "mypy")
    words = ["mypy", "--check-untyped-defs", "--cache-dir", room / "cache", *(f"{name}.py" for name in HOLDING)]
    # without what it keeps of a run before it takes twenty seconds, and longer beside others
    ran = subprocess.run(words, cwd=FOLDER, capture_output=True, text=True, timeout=3 * LIMIT)
    must(ran.returncode == 0, f"mypy says: {ran.stdout}{ran.stderr}")


def fuzzed(_start, _room, program):
    """All sides try to end the bridge for ten seconds, by seeds that stay the same (tools/fuzz-bridge)."""
    words = [sys.executable, FOLDER.parent / "tools" / "fuzz-bridge", program, "--seed", "1", "--seconds", "10"]
    ran = subprocess.run(words, capture_output=True, text=True, timeout=LIMIT)
    is_met = ran.returncode == 0 and re.search("^[1-9][0-9]* lives met, 0 not$", ran.stdout, re.MULTILINE)
    must(is_met, f"{ran.stdout}{ran.stderr}")


CHECKS = [at_a_station, at_a_timer_of_a_link, at_a_line, at_the_controller, operators_wait, lines_wait, typed, fuzzed]
OF_NETWORK = [at_the_centre, at_the_gateway, numbers_again]
