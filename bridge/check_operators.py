"""Checks of the bridge: operators, and the log."""
import os
import re
import resource
import select
import signal
import socket
import subprocess

import rsl
from calls import Calls, Event
from harness import FIRST, LIMIT, SECOND, SITE, Asker, is_kind, must
from log import Log
from operators import SIMULATED
from relay import ARMING, DISARMING
from stream import Times, Writer


def operators(start, room, _program):
    """Operators at the control socket get what came of their lines, and no other's; simulators aren't to be had."""
    bridge = start("--control", "control", "--log", "log")
    bridge.station(FIRST)

    def ask(text):
        it = Asker(room / "control")
        it.ask(text)
        return "\n".join(it.leave())

    must("event open 1 0/0/3 -> done\nout abis 0 0 0821" in ask("open 1 0 0 3\n"), "no answer to an operator")
    bridge.expect("record 0/0/3 on$")
    must(ask("stations\n").startswith("station 6969/0/0"), "no answer about stations")
    must(ask("sim\n").startswith("refused: sim: sim is for simulators"), "simulators are attached")
    must("clear CALL: a call ends" in ask("help\n"), "no help")
    counted = ask("summary\n").split("\n")
    must(counted[0].split() == ["summary", "all", "1", "calls", "opened"], f"no summary: {counted}")
    must(all(line.startswith("summary ") for line in counted), f"more than a summary: {counted}")
    must(ask("summary\nlook\n").count("calls opened") == 2, "an answer is lost behind a summary")
    # the controller's lines were: open, the station's answer, summary twice, look
    must(re.match("line 6\nrefused: nonsense: .*found nonsense$", ask("nonsense\n")), "no answer to what can't be read")
    must((room / "control").stat().st_mode & 0o077 == 0, "others may write to the socket")
    # the end of standard input isn't the bridge's here
    bridge.process.stdin.close()
    must("event clear 1" in ask("clear 1\n"), "it has ended")
    bridge.process.send_signal(signal.SIGINT)
    bridge.wait(0)
    must(not (room / "control").exists(), "the socket stays")
    must("summary" not in (room / "log").read_text(), "the log has a line that no script has")


def two_summaries(start, room, _program):
    """Two operators ask for a summary at once: each gets one, and no line of the other's."""
    bridge = start("--control", "control")
    one, other = Asker(room / "control"), Asker(room / "control")
    bridge.process.send_signal(signal.SIGSTOP)
    for it in (one, other):
        it.ask("summary\n")
    bridge.process.send_signal(signal.SIGCONT)
    answers = [it.leave() for it in (one, other)]
    must(answers[0] == answers[1], f"they are told {answers}")
    must(sum("calls opened" in line for line in answers[0]) == 1, f"one is told {answers[0]}")
    bridge.process.terminate()
    bridge.wait(0)


def torn_line(start, room, _program):
    """An operator's line without its line feed isn't carried out."""
    bridge = start("--control", "control")
    bridge.station(FIRST)
    bridge.ask("open 1 0 0 3")
    bridge.expect("record 0/0/3 on$")
    torn = Asker(room / "control")
    torn.ask("stations\nclear 1")
    must(torn.leave()[-1].startswith("refused: clear 1: the line has no line feed"), "he isn't told")
    with socket.socket(socket.AF_UNIX) as it:
        it.connect(str(room / "control"))
        it.sendall(b"clear 1")
    bridge.ask("stations")
    bridge.expect("^station 6970/0/1")
    bridge.process.send_signal(signal.SIGINT)
    bridge.wait(0)
    must(not any("clear" in line for line in bridge.out.lines), "it is carried out")


def torn_at_standard_input(start, _room, _program):
    """The last line of standard input isn't carried out either where it has no line feed."""
    bridge = start()
    bridge.station(FIRST)
    bridge.ask("open 1 0 0 3")
    bridge.expect("record 0/0/3 on$")
    bridge.process.stdin.write("clear 1")
    bridge.end()
    must("end channels=1 calls=1 references=0 timers=0" in bridge.out.lines, "it is carried out")
    must(any(line.startswith("refused: clear 1: the line has no line feed") for line in bridge.out.lines), "he isn't told")


def the_help(start, _room, _program):
    """`help` has each keyword that the controller says it takes, simulators aside, and those that `live` and the bridge have
    besides."""
    bridge = start()
    bridge.ask("nonsense")
    taken = bridge.said.expect("can't read: nonsense: a line begins with (.*), or with #")[1].replace(" or ", ", ").split(", ")
    bridge.ask("help")
    bridge.expect("^#: nothing$")
    told = {re.split("[ :]", line)[0] for line in bridge.out.lines if ": " in line} - {"#"}
    simulated = {word.decode() for word in SIMULATED}
    own = {"summary", "help", "stations", "calls", "watch", "reload", "reopen", "upgrade", "bridge"}
    must(told == {*taken} - simulated | own, f"it has {sorted(told)}")
    bridge.end()


def slow_answers(start, room, program):
    """An operator asks, and says that this is all: he is answered also where the controller takes its time."""
    bridge = start("--control", "control", core=("sh", "-c", 'sleep 2; exec "$0" live "$1"', str(program), str(SITE)))
    it = Asker(room / "control")
    it.ask("open 1 0 0 3\n")
    must("event open 1 0/0/3 -> done" in it.leave(), "no answer")
    bridge.process.send_signal(signal.SIGINT)
    bridge.wait(0)


def unread_answers(start, room, _program):
    """An operator asks for more than he reads: his socket is closed in the end, and others notice nothing."""
    bridge = start("--control", "control")
    bridge.station(FIRST)
    with socket.socket(socket.AF_UNIX) as loud:
        loud.connect(str(room / "control"))
        loud.sendall(b"watch\n" + b"help\n" * 10_000)
        other = Asker(room / "control")
        other.ask("open 1 0 0 3\nstations\n")
        other.expect("^event open 1 0/0/3 -> done$")
        bridge.expect("record 0/0/3 on$")
        # nothing is read: the other end is closed, or there is an error
        end = select.poll()
        end.register(loud, 0)
        must(end.poll(LIMIT * 1000), "his socket stays")
        must(any(line.startswith("station ") for line in other.leave()), "no answer to another operator")
    bridge.process.send_signal(signal.SIGINT)
    bridge.wait(0)


def unread_outputs(_start, _room, _program):
    """Nobody reads what is printed: that is waited for by nobody, lines are left out and counted, and no half of one is."""
    reads, writes = os.pipe()
    writer = Writer(writes)
    for _ in range(10_000):
        writer.put(b"x" * 1_023 + b"\n")
    must(0 < writer.left_out < 10_000, f"{writer.left_out} lines are left out")
    count = 10_000 - writer.left_out
    with open(reads, "rb") as file:
        must(all(len(file.readline()) == 1_024 for _ in range(count)), "another line came")
        writer.put(b"once more\n")
        must(file.readline() == b"once more\n", "it doesn't go on")
        writer.finish(LIMIT)
    os.close(writes)
    must(writer.waiting() == 0, f"{writer.waiting()} octets seem to wait")


def unread_log(_start, room, _program):
    """Nobody reads a log that is no file: the bridge doesn't wait for that, and a comment says where lines are missing."""
    os.mkfifo(room / "log")
    log, given = Log(str(room / "log"), Times()), 0
    while not log.missing:
        given += 1
        log.write(b"clear %d" % given)
    first, came = given, b""
    reads = os.open(room / "log", os.O_RDONLY | os.O_NONBLOCK)
    while log.waiting or select.select([reads], [], [], 0)[0]:
        came += os.read(reads, 1 << 16)
        if given < first + 5:
            given += 1
            log.write(b"clear %d" % given)
        log.flush()
    log.write(b"clear 0")
    came += os.read(reads, 1 << 16)
    log.finish()
    os.close(reads)
    lines = came.decode().split("\n")[:-1]
    wanted = [f"clear {it}" for it in (*range(1, first), 0)]
    must([it for it in lines if not it.startswith("#")] == wanted, f"the log ends by {lines[-8:]}")
    must(re.search("# .* 6 lines are missing here$", lines[-3]), f"the comment stands elsewhere: {lines[-8:]}")


def watchers(start, room, _program):
    """Operators see what comes of all lines, or of a call; who gave a line stands in the log."""
    bridge = start("--control", "control", "--log", "log")
    bridge.station(FIRST)
    one, all_calls, other = (Asker(room / "control") for _ in range(3))
    one.ask("watch 1\nstations\n")
    all_calls.ask("watch\nstations\n")
    for it in (one, all_calls):
        it.expect("^station 6970/0/1")
    other.ask("open 1 0 0 3\n")
    all_calls.expect("^in open 1 0 0 3$", "record 0/0/3 on$")
    other.ask("open 2 0 0 2\n")
    all_calls.expect("^in open 2 0 0 2$", "record 0/0/2 on$")
    other.ask("clear 1\n")
    one.expect("^in open 1 0 0 3$", "^out abis 0 0 0821", "^in abis 0 0 0822", "record 0/0/3 on$", "^in clear 1$", "done$")
    all_calls.expect("^event released 0/0/3 -> done$")
    one.ask("watch off\nwatch twice\n")
    one.expect("^refused: watch")
    other.ask("clear 2\n")
    all_calls.expect("^event released 0/0/2 -> done$")
    for it in (one, all_calls, other):
        it.leave()
    must(not any("2" in line.split()[2:] for line in one.lines.lines if line.startswith("in ")), "he sees another call")
    must(re.search(r"# [0-9-]+ [0-9:.]+ operator 3, user \d+\nopen 1 0 0 3\n", (room / "log").read_text()), "who gave it")
    bridge.process.send_signal(signal.SIGINT)
    bridge.wait(0)


def channels(start, room, program):
    """`calls` says what the book has, as `run --state` does of the log, and where a station has something else."""
    bridge = start("--log", "log", "--t3103", "1000", "--answer", "1000")
    one, _ = bridge.station(FIRST), bridge.station(SECOND, trx=1)
    one.unanswered = {rsl.RELEASE}
    for call, timeslot in ((1, 3), (2, 2)):
        bridge.ask(f"open {call} 0 0 {timeslot}")
        bridge.expect(f"record 0/0/{timeslot} on$")
    bridge.ask("handover 1 1")
    bridge.expect("^event command 1 -> done$", "^out abis 0 0 0301")
    bridge.ask("clear 2")
    bridge.expect("^out abis 0 0 082e010a$")
    bridge.ask("calls")
    bridge.expect("^channel 0/0/2: off since [0-9:]+; station: releasing since [0-9:]+$")
    bridge.expect("^channel 0/0/3: on for call 1 .internal commanded to 1/1/3. since [0-9:]+; station: on since [0-9:]+$")
    bridge.expect("^channel 1/1/3: on for call 1 .internal commanded to 1/1/3. since [0-9:]+; station: on since [0-9:]+$")
    ran = subprocess.run([program, "run", SITE, room / "log", "--state"], capture_output=True, text=True, timeout=LIMIT)
    states = ran.stdout.split("\nend ")[0].split("\nin ")[-1].split("\n")
    wanted = ["0/0/2 off", "0/0/3 on call 1", "1/1/3 on call 1"]
    must([it[14:] for it in states if it.startswith("state channel ")] == wanted, f"the book has {states}")
    # the station hasn't released it, but somebody says so in its place
    bridge.ask("abis 0 0 0833010a")
    bridge.expect("^event released 0/0/2 -> done$")
    bridge.ask("calls")
    bridge.expect("^channel 0/0/2: free; station: releasing since [0-9:]+; THEY DIFFER$")
    must(one.await_message(is_kind(rsl.RELEASE, 0x0A)), "no release")
    bridge.end()


# Scripts of the program's tests in which calls move, come, and leave.
SCRIPTS = (
    "calls/refused_by_its_station_and_ended_by_the_centre.txt",
    "handovers/to_the_end.txt",
    "handovers/target_is_refused.txt",
    "handovers/call_ends_on_the_way.txt",
    "handovers/taken_back_once_the_mobile_was_sent.txt",
    "incoming/call_comes.txt",
    "incoming/having_come_moves_on.txt",
    "incoming/mobile_was_seen_and_does_not_come_in_time.txt",
    "outgoing/call_has_left.txt",
    "outgoing/centre_rejects.txt",
)


def follow_timer(timers, event):
    """A timer of a call is armed, or ends, as the bridge takes it."""
    if event.reply != "refused" and event.name in DISARMING:
        timers.pop(event.about, None)
    elif event.reply != "refused" and event.name in ARMING:
        timers[event.about] = ARMING[event.name]


def the_book(_start, _room, program):
    """What the events tell of channels, of attempts and of timers is what the book has, behind each line."""
    folder = SITE.parent.parent / "tests" / "two_cells"
    for name in SCRIPTS:
        words = [program, "run", folder / "site.toml", folder / name, "--state"]
        ran = subprocess.run(words, capture_output=True, text=True, timeout=LIMIT)
        must(ran.returncode == 0 and "\nstate channel" in ran.stdout, f"{name}: {ran.stderr}")
        calls, timers = Calls(), {}
        for part in f"\n{ran.stdout}".split("\nin ")[1:]:
            lines = part.split("\n")
            for event in filter(None, map(Event.of, lines)):
                calls.follow(event)
                follow_timer(timers, event)
            channels = {f"{it} {used.state}{f' call {used.call}' if used.call else ''}" for it, used in calls.channels.items()}
            must(channels == {it[14:] for it in lines if it.startswith("state channel ")}, f"{name}: {channels}, not\n{part}")
            attempts = {
                " ".join(map(str, (number, call.serving or "-", call.kind, call.stage, call.target)))
                for number, call in calls.calls.items()
                if call.target
            }
            moving = re.findall(r"^state call (\d+) record (\S+) \S+ (internal|incoming) (\S+) (\S+)", part, re.MULTILINE)
            must(attempts == {" ".join(it) for it in moving}, f"{name}: {attempts}, not\n{part}")
            armed = {f"{timer} call {number}" for number, timer in timers.items()}
            must(armed == {it[12:] for it in lines if it.startswith("state timer ")}, f"{name}: {armed}, not\n{part}")


def a_restart(start, room, program):
    """A log goes on behind what it has, and what stands behind its last line feed is cut off; it is for the user alone."""
    log = room / "log"
    log.write_text("open 7 0 0 2\nclear 1")
    # others may read it, as one that another program made
    log.chmod(0o644)
    bridge = start("--log", "log")
    must(any("no line feed: 7 octets are cut off" in it for it in bridge.said.lines), "it is cut off silently")
    bridge.station(FIRST)
    bridge.ask("open 1 0 0 3")
    bridge.expect("record 0/0/3 on$")
    log.rename(room / "old")
    bridge.process.send_signal(signal.SIGHUP)
    bridge.ask("clear 1")
    bridge.expect("^event released 0/0/3 -> done$")
    bridge.end()
    old, new = (room / "old").read_text(), log.read_text()
    time_of_day = r"# \d{4}-\d\d-\d\d \d\d:\d\d:\d\d\.\d{3}"
    who = " operator at standard input"
    begins = f"{time_of_day} the log begins, or goes on, here\n"
    first = f"open 7 0 0 2\n{begins}{time_of_day}{who}\nopen 1 0 0 3\n{time_of_day}\nabis 0 0 0822010b080000\n({begins})?"
    must(re.fullmatch(first, old), f"the log that was moved away:\n{old}")
    then = f"{begins}{time_of_day}{who}\nclear 1\n{time_of_day}\nabis 0 0 0833010b\n"
    must(re.fullmatch(then, new), f"the new log:\n{new}")
    for name in ("old", "log"):
        must((room / name).stat().st_mode & 0o777 == 0o600, f"others may read the log {name!r}")
    ran = subprocess.run([program, "run", SITE, room / "old"], capture_output=True, text=True, timeout=LIMIT)
    must("event open 7 0/0/2 -> done" in ran.stdout and "record 0/0/3 on" in ran.stdout, "run doesn't play it")


def full_log(start, room, _program):
    """No half line stays in the log on a full disk, and it goes on once there is room, with all lines."""
    bridge = start("--log", "log")
    bridge.station(FIRST)
    log = room / "log"
    for room_left in (1, 50):
        # a line of over 50 octets, of which a part fits
        resource.prlimit(bridge.process.pid, resource.RLIMIT_FSIZE, (log.stat().st_size + room_left, resource.RLIM_INFINITY))
        before = log.read_text()
        bridge.ask(f"abis 0 0 0822010b{'00' * 60}")
        bridge.said.expect("the log can't be written now")
        bridge.ask("open 1 0 0 3")
        bridge.expect("^event open 1 0/0/3 -> ")
        came = log.read_text()
        must(came.startswith(before) and came.endswith("\n"), f"half a line stays: {came}")
        must(all(line.startswith("#") for line in came[len(before) :].split("\n")[:-1]), f"more than a comment fits: {came}")
        resource.prlimit(bridge.process.pid, resource.RLIMIT_FSIZE, (resource.RLIM_INFINITY, resource.RLIM_INFINITY))
        # no other line is needed for that
        bridge.said.expect("the log goes on; lines that are missing: 0")
    bridge.end()
    lines = [line for line in log.read_text().split("\n") if line and not line.startswith("#")]
    must(lines == [line[3:] for line in bridge.out.lines if line.startswith("in ")], f"the log has {lines}")


CHECKS = [
    operators,
    two_summaries,
    torn_line,
    torn_at_standard_input,
    the_help,
    slow_answers,
    unread_answers,
    unread_outputs,
    unread_log,
    watchers,
    channels,
    the_book,
    a_restart,
    full_log,
]
