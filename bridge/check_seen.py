"""Checks of what an operator sees: levels of lines, since when something is away, a cell that is full, whose a call is and how it is
heard, units that are swapped, a name that is wrong, and a journal that is lost."""
import os
import resource
import signal
import subprocess
import time

from centre import TestCentre
from check_again import bridge_with, needs_journal, program_that
from check_figures import await_figure
from check_paging import COMMAND, PAGING, RESPONSE
from harness import FIRST, FOLDER, LIMIT, SECOND, SLOW, child, must
from network_harness import NOTHING, SITE, ask_until, assigned, begin, burst, clear, say, sent
from notices import Notices
from stations import Station
from stream import Times

# What is told of a station where nobody comes.
DIDNT_COME = "that were given a channel didn't come: is its carrier the site's,"
# MEASUREMENT RESULT (TS 48.058, 8.4.8): the first, how the station hears the mobile, its power, and the mobile's report. The station
# hears it at level 30, -80 dBm, and quality 3 of all frames.
RESULT = "08280109" + "1b00" + "19031e1e1b" + "0400" + "0b0012"
# MEASUREMENT REPORT (TS 44.018, 10.5.2.20): level 23, -87 dBm, quality 5, as tests/commands/messages_rr.t has it in words; and one
# with a neighbour at the first place of the list, 60, with the colours 1/1; and at the second, 70, with 1/2.
REPORT, OWN, OTHER = (
    "06159796d78119058a39022914731233fffe",
    "06151e1e00680120" + "00" * 10,
    "06151e1e00680940" + "00" * 10,
)


def levels(_start, room, _program):
    """Lines on standard error have a level; those behind --log-level aren't said. Where standard error is systemd's journal the
    level's number stands in front (sd-daemon(3)): 3 for an error, 5 for a notice."""
    words = [FOLDER / "abis", "--port", "0", f"{FIRST}=0/0", "--", "cat"]
    ran = subprocess.run(words, stdin=subprocess.DEVNULL, capture_output=True, text=True, timeout=LIMIT)
    kinds = [line.split(" ")[1] for line in ran.stderr.split("\n")[:-1]]
    must(kinds and {*kinds} <= {"notice:", "info:"}, f"it says {ran.stderr}")
    less = [*words[:1], "--log-level", "warning", *words[1:]]
    ran = subprocess.run(less, stdin=subprocess.DEVNULL, capture_output=True, text=True, timeout=LIMIT)
    must(ran.stderr == "", f"it says {ran.stderr}")
    wrong = [FOLDER / "abis", "--port", "0", "--log", room, f"{FIRST}=0/0", "--", "cat"]
    for command, number, level in ((words, 5, "notice"), (wrong, 3, "error")):
        reads, writes = os.pipe()
        status = os.fstat(writes)
        journal = os.environ | {"JOURNAL_STREAM": f"{status.st_dev}:{status.st_ino}"}
        subprocess.run(command, stdin=subprocess.DEVNULL, stdout=subprocess.DEVNULL, stderr=writes, env=journal, timeout=LIMIT)
        os.close(writes)
        with open(reads) as file:
            lines = file.read().split("\n")[:-1]
        must(any(it.startswith(f"<{number}>") and f" {level}: " in it for it in lines), f"the journal is told {lines}")
        must(all(it[:1] + it[2:3] == "<>" for it in lines), f"the journal is told {lines}")


def since_when(start, _room, _program):
    """`stations` and `calls` say since when a station isn't there, and the controller answers nothing; a line isn't cut."""
    bridge = start("--hang", "40")
    bridge.ask("stations")
    bridge.expect("^station 6969/0/0 .*: not there yet;")
    station = bridge.station(FIRST)
    station.leave()
    bridge.said.expect("warning: station 6969/0/0 .*: its link is lost")
    bridge.ask("stations")
    bridge.expect("^station 6969/0/0 .*: not there since [0-9:]+;")
    bridge.ask("x" * 300)
    bridge.said.expect(f"warning: the controller can't read: {'x' * 300}: ")
    os.kill(child(bridge), signal.SIGSTOP)
    bridge.ask("open 1 0 0 3")
    end = time.monotonic() + LIMIT
    while not any(line.startswith("controller: answers nothing since ") for line in bridge.out.lines):
        must(time.monotonic() < end, "it isn't told")
        bridge.ask("calls")
        time.sleep(0.5)
    os.kill(child(bridge), signal.SIGCONT)
    bridge.expect("^controller: answers nothing since [0-9:]+; lines that wait: 1$", "^event open 1 ")
    before = len(bridge.out.lines)
    bridge.ask("stations")
    bridge.expect("^station 6970/0/1")
    must(not any(line.startswith("controller: ") for line in bridge.out.lines[before:]), "it is told yet")
    bridge.end()


def full_cell(start, room, _program):
    """A cell that is full is told, and for a while no more; then with how often it was since."""
    bridge = start(abis=bridge_with(room, "notices.QUIET", SLOW))
    bridge.station(FIRST)
    for call in (1, 2):
        bridge.ask(f"seize {call} 0 full")
        bridge.expect(f"^event look {call} -> record .* on$")
    for call in (3, 4, 5):
        bridge.ask(f"seize {call} 0 full")
        bridge.expect("^none free 0$")
    told = bridge.said.expect("warning: cell 0 is full: a channel was asked for, and none of the rate is free$")
    must(sum("is full" in line for line in bridge.said.lines) == 1, f"it is told again behind {told[0]}")
    time.sleep(SLOW + 0.5)
    bridge.ask("seize 6 0 full")
    bridge.said.expect("cell 0 is full: .*; 2 times more since that was told last$")
    bridge.end()


def whose_it_is(start, _room, _program):
    """`calls` says whose a call is, as the centre named him when it looked for him, or since; how far away he asked; and what the
    last report says. `help` has `network`."""
    run = start()
    station = run.begin()
    run.centre.send("090003070b04435101fe0443b900fe18" + PAGING)
    sent(station, COMMAND)
    number, connection = begin(run, station, reference="850a0d", update=RESPONSE, delay="07")
    whose = "IMSI 001010000000002, TMSI 3b131e27, timing advance 7"
    ask_until(run, "calls", f"^channel 0/0/1: on for call 1, {whose} since [0-9:]+; station: on since [0-9:]+$")
    say(station, RESULT + REPORT)
    heard = "station hears -80 dBm, quality 3; mobile hears -87 dBm, quality 5"
    ask_until(run, "calls", f"^channel 0/0/1: .*; {heard}$")
    # the L1 information of a mobile that is farther away now (9.3.10): its power level 5, and a timing advance of 9
    say(station, RESULT.replace("0b0012", "0a2809" + "0b0012") + REPORT)
    ask_until(run, "calls", f"^channel 0/0/1: .*, timing advance 7 since .*; {heard}; timing advance 9$")
    # one that no mobile has isn't told
    say(station, RESULT.replace("0b0012", "0a28400b0012") + REPORT)
    ask_until(run, "calls", f"^channel 0/0/1: .*; {heard}$")
    # COMMON ID (TS 48.008, 3.2.1.68)
    run.centre.data(connection, "000b2f08080910100000000010")
    ask_until(run, "calls", "^channel 0/0/1: on for call 1, IMSI 001010000000001, timing advance 7 since")
    ask_until(run, "help", "^network: ")
    clear(run, station, number, connection)
    run.end()


def swapped(start, _room, _program):
    """A mobile that hears its station's own cell as another's is told: two units may be swapped. One that hears another isn't."""
    run = start(site=SITE.replace("ba = [70]", "ba = [60, 70]"))
    station = run.begin()
    burst(station, "050a0d")
    number = assigned(station, "050a0d")
    say(station, RESULT + OTHER)
    say(station, RESULT + OWN)
    run.said.expect("warning: station 6969/0/0 .*hears carrier 60 with colours 1/1, which is this cell, as a neighbour")
    must(not any("carrier 70" in line for line in run.said.lines), "another cell is told")
    run.ask("clear 1")
    sent(station, f"082e01{number}")
    run.end(is_empty=False)


def nobody_comes(start, _room, _program):
    """Ten telephones in a row that are given a channel of a station and don't come are told, once: the station may send on another
    carrier than the site has. One that comes begins the row anew."""
    run = start(t3101=1)
    station = run.begin()
    for count in range(11):
        must(not any("in a row" in line for line in run.said.lines) or count == 10, f"it is told behind {count}")
        burst(station, f"{count:02x}0a0d")
        assigned(station, f"{count:02x}0a0d")
        run.expect("^event clear [0-9]+ -> done$")
    run.said.expect(f"warning: station 6969/0/0 .*: 10 telephones in a row {DIDNT_COME} 60, or is its unit that of another cell.$")
    must(sum("in a row" in line for line in run.said.lines) == 1, "it is told again")
    run.end(is_empty=False)
    noticed, other = Notices(Times()), Station("1/0/0", 0, 0)
    for _ in range(9):
        noticed.missed(other, 60)
    noticed.arrived(other)
    noticed.missed(other, 60)
    must(noticed.vain == {"1/0/0": 1}, f"in a row are {noticed.vain}")


class Strict(TestCentre):
    """A centre that knows another name than the bridge's."""

    def take(self, frame):
        """Takes a frame: where the bridge says its name the link is closed."""
        if frame[:2] == b"\xfe\x05":
            self.lose()
        else:
            super().take(frame)


def wrong_name(start, _room, _program):
    """A centre that closes the link behind our name: that this may be wrong is told."""
    run = start(centre=Strict())
    run.said.expect("error: A: no link to 127.0.0.1, port .*: the link ended; does osmo-stp know an as 'as-bsc1' .centre.name.*$")
    run.end(is_empty=False)


def lost_journal(start, room, program):
    """A controller that loses its journal, and goes on, is told by a figure and by `network`."""
    needs_journal(room, program)
    # writing beyond a limit isn't to kill it
    around = program_that(room, "around", f"#!/bin/sh\ntrap '' XFSZ\nexec '{program}' \"$@\"\n")
    core = [around, "live", "--journal", room / "journal", "--journal-lost", "go-on"]
    run = start(core=core, words=("--figures", room / "figures", "--figures-every", "0.1"))
    run.begin()
    ask_until(run, "network", "^controller: there; started again: 0; journal: noted$")
    await_figure(room / "figures", 1, "gofnild_journal_up")
    resource.prlimit(child(run), resource.RLIMIT_FSIZE, (1, resource.RLIM_INFINITY))
    run.ask(NOTHING)
    run.said.expect("error: controller: .*; the journal ends, and the controller goes on$")
    ask_until(run, "network", "^controller: there; started again: 0; journal: lost since [0-9:]+$")
    # one in its place would have an older book, or none
    run.ask(f"upgrade {around}")
    run.expect("^refused: upgrade .*: the controller has lost its journal, since [0-9:]+: without it its calls would end$")
    await_figure(room / "figures", 0, "gofnild_journal_up")
    run.end(status=2)


OF_NETWORK = [whose_it_is, swapped, nobody_comes, wrong_name, lost_journal]
CHECKS = [levels, since_when, full_cell]
