"""Checks of `reload`: the site and CONFIG change while calls go on (reload.py, kept_site.py). The controller is the program with a
journal around it (test_controller.py), or with its own. What is expected was worked out by hand from TS 44.018 and TS 48.058."""
import os
import signal
import subprocess
import zlib

import rsl
from check_again import CONTROLLER, OFTEN, catch_up, controller, good_on_a_copy, needs_journal, program_that, remove, settle
from check_paging import COMMAND, IMSI, RESPONSE, TMSI, count, paging
from check_succession import EndlessStation, refused, upgrade
from harness import FIRST, FOLDER, LIMIT, SECOND, SITE, Asker, LeftOut, child, is_kind, must
from kept_site import KeptSite
from load import SpeakingCentre
from network_harness import FIRST as ONE
from network_harness import SECOND as OTHER
from network_harness import SITE as TWO_CELLS
from network_harness import UPDATE, assigned, burst, clear, emptied, register, say, sent
from sites import place_of_site
from speech_harness import speak, start_call
from test_controller import record

# A third cell, and its unit.
CELL = """[[cell]]
lac = 23
ci = 103
bcch = 75
ncc = 1
bcc = 4
power = 5
ba = [60]
trx = [{ arfcn = 75, tch = [1, 2] }]
"""
THIRD = "6971/0/0"
STATION = """
[[station]]
unit = "{}"
cell = {}
"""
# The head of the first cell's table, and what is told of the first channel of a mobile there.
HEAD = "[[cell]]\nlac = 23\nci = 100\n"
WHILE = ", while call 1 has channel 0/0/1"
# System information of the first cell up to what changes, and behind that (TS 44.018, 9.1.32, 9.1.35 and 9.1.37): types 2 and 5 up to
# the neighbours, which are carriers 70 and 80 (10.5.2.13.2: bits 70 and 80 from the end), and type 3 up to T3212, of ten tenths of
# an hour. Emergency calls are barred alone (10.5.2.29).
NEIGHBOURS = "00000000000080200000000000000000"
TYPE_2, TYPE_5 = f"0c1101801e02271759061a{NEIGHBOURS}ffe50400", f"101a1e050b001349061d{NEIGHBOURS}"
TYPE_3 = "0c1101801e03271749061b{:04x}00f1100017c8030a274540e504002b2b2b2b"
# How often the site changes under load: with a journal for tests, which is read from the beginning each time, and with the program's.
FEW, MANY = 3, 100
# A controller that has no --site-changed says so, as it says of each option that it doesn't know.
UNKNOWN = "error: unexpected argument '--site-changed' found"


def begun(start, room, program, **options):
    """A network whose controller has a journal."""
    core = (controller(room, program), "live", "--journal", room / "journal")
    return start(words=(*OFTEN, "--log", room / "log"), core=core, **options)


def change(room, name, *pairs):
    """Changes a file, CONFIG or the site."""
    path = room / name
    text = path.read_text()
    for old, new in pairs:
        must(old in text, f"{name} has no {old!r}")
        text = text.replace(old, new)
    path.write_text(text)


def reload(run, *patterns):
    """An operator has the files taken, and is told so."""
    run.ask("reload")
    for pattern in patterns:
        run.out.expect(f"^{pattern}$")


def taken(run, *patterns):
    """They are taken, by a controller that is begun again."""
    tried = r"reload: tried on a copy of the journal: it would go on behind line \d+"
    reload(run, *(f"reload: {it}" for it in patterns), tried, r"reload: goes on behind line \d+")


def told_from(station, count):
    """What a station was sent of RSL, from a place on."""
    station.settle()
    return [message.hex() for stream, message in station.came[count:] if stream != 0xFE]


def reloaded_in_calls(start, room, program):
    """Two calls speak while cells, neighbours, powers, windows, timers and what is broadcast change: the gateway is asked nothing, so
    that no frame is lost; stations are sent what differs in system information alone. A station that is new is served."""
    run = begun(start, room, program)
    station, other = run.begin(), run.station(OTHER)
    calls = [start_call(run, station, reference=it) for it in ("050a0d", "060a0d")]
    for call in calls:
        speak(call)
    run.settle()
    asked, before = len(run.gateway.came), [len(it.came) for it in (station, other)]
    change(room, "site.toml", ("window = 2", "window = 3"), ("ba = [70]", "ba = [70, 80]"), ("[[outside]]", f"{CELL}[[outside]]"))
    change(room, "site.toml", ("power = 5\nba = [60]\ntrx = [{ arfcn = 70", "power = 7\nba = [60]\ntrx = [{ arfcn = 70"))
    change(room, "config.toml", ("[broadcast]", "[broadcast]\nt3212 = 10"), ("t7 = 120", "t7 = 30"))
    (room / "config.toml").write_text((room / "config.toml").read_text() + STATION.format(THIRD, 2))
    taken(
        run,
        "handover: window: 2 -> 3",
        "cell 23/100: ba: 70 -> 70, 80",
        "cell 23/101: power: 5 -> 7",
        "cell 23/103: is new, with the number 2",
        "station 6971/0/0: is new, of cell 2, TRX 0",
        "broadcast.t3212: 5 -> 10",
        "timers.t7: 120 -> 30",
    )
    run.settle()
    must(len(run.gateway.came) == asked, f"the gateway is asked {run.gateway.came[asked:]}")
    for it, count, expected in ((station, before[0], [TYPE_2, TYPE_3.format(100), TYPE_5]), (other, before[1], [TYPE_3.format(101)])):
        came = told_from(it, count)
        must(came == expected, f"{it.unit} is sent {came}")
    must((room / "journal.site").read_text() == (room / "site.toml").read_text(), "another text is kept")
    must("# " in (room / "log").read_text().partition(" the site is another one from here on")[0], "the log doesn't say so")
    third = run.station(THIRD)
    burst(third, "070a0d")
    number = assigned(third, "070a0d", training=4, carrier=75)
    say(third, f"020601{number}02000b{len(UPDATE) // 2:04x}{UPDATE}")
    clear(run, third, number, run.centre.begun(UPDATE, 103))
    for call in calls:
        clear(run, station, call.number, call.connection)
    run.gateway.emptied()
    run.end()


def swapped(text):
    """A site with its two cells in the other order."""
    head, one, rest = text.split("[[cell]]\n")
    other, outside = rest.split("[[outside]]")
    return f"{head}[[cell]]\n{other}[[cell]]\n{one}[[outside]]{outside}"


def refused_in_a_call(start, room, program):
    """Where a call's channel would be another one, its unit another, or a file is faulty, that is told by name, and nothing changes:
    the same controller goes on, over the same text, and stations are sent nothing. A cell without calls may change."""
    run = begun(start, room, program)
    station, other = run.begin(), run.station(OTHER)
    number, connection = register(run, station)
    run.settle()
    site, config = (room / "site.toml").read_text(), (room / "config.toml").read_text()
    process, before = child(run), len(station.came)
    units = config.replace("6969/0/0", "swap").replace(OTHER, ONE).replace("swap", OTHER)
    alone = config.replace(STATION.format(ONE, 0).strip(), "").replace("cell = 1", "cell = 0")
    alone_site = site.replace(site[site.index(HEAD) : site.index("[[cell]]\nlac = 23\nci = 101")], "")
    faulty = f"{room / 'site.toml'}: cell 0.ba: a list of whole numbers from 1 to 124 is allowed, not "
    cases = [
        (swapped(site), config, f"cell 23/100: its number: 0 -> 1{WHILE}"),
        (site.replace(HEAD, CELL + HEAD), config, f"cell 23/100: its number: 0 -> 1{WHILE}"),
        (site.replace("arfcn = 60", "arfcn = 62"), config, f"cell 23/100: TRX 0: arfcn: 60 -> 62{WHILE}"),
        (
            site.replace("arfcn = 60, tch = [1, 2]", "arfcn = 60, tch = [2]"),
            config,
            f"cell 23/100: TRX 0: 0/0/1 is no traffic channel any more{WHILE}",
        ),
        (site.replace("bcc = 1\n", "bcc = 5\n"), config, f"cell 23/100: bcc: 1 -> 5{WHILE}"),
        (alone_site, alone, f"cell 23/100: goes{WHILE}"),
        (site, units, f"TRX 0 of cell 0: its station: 6969/0/0 -> 6970/0/0{WHILE}"),
        (site.replace("ba = [70]", "ba = [700]"), config, faulty + r"\[700\]"),
        (site, config.replace("band = 900", "band = 850"), f"{room / 'config.toml'}: network.band: one of 900, 1800 is allowed, .*"),
    ]
    for text, found, why in cases:
        (room / "site.toml").write_text(text)
        (room / "config.toml").write_text(found)
        reload(run, f"refused: reload: {why}")
    must(child(run) == process and (room / "journal.site").read_text() == site, "another controller goes on, or another text is kept")
    must(not told_from(station, before), f"the station is sent {told_from(station, before)}")
    (room / "site.toml").write_text(site.replace("bcc = 2", "bcc = 5"))
    (room / "config.toml").write_text(config)
    taken(run, "cell 23/101: bcc: 2 -> 5")
    burst(other, "070a0d")
    there = assigned(other, "070a0d", training=5, carrier=70)
    say(other, f"020601{there}02000b{len(UPDATE) // 2:04x}{UPDATE}")
    clear(run, other, there, run.centre.begun(UPDATE, 101))
    clear(run, station, number, connection)
    run.end()


def inserted_in_front(start, room, program):
    """While no call is there a cell is inserted in front, and stations have other cells: each serves its own."""
    run = begun(start, room, program)
    station, other = run.begin(), run.station(OTHER)
    number, connection = register(run, station)
    clear(run, station, number, connection)
    change(room, "site.toml", (HEAD, CELL + HEAD))
    change(room, "config.toml", ("cell = 1", "cell = 2"), ("cell = 0", "cell = 1"))
    (room / "config.toml").write_text((room / "config.toml").read_text() + STATION.format(THIRD, 0))
    before = len(station.came)
    taken(
        run,
        "cell 23/100: its number: 0 -> 1",
        "cell 23/101: its number: 1 -> 2",
        "cell 23/103: is new, with the number 0",
        "station 6969/0/0: cell: 0 -> 1",
        "station 6970/0/0: cell: 1 -> 2",
        "station 6971/0/0: is new, of cell 0, TRX 0",
    )
    must(not told_from(station, before), f"what its mobiles know is sent: {told_from(station, before)}")
    third = run.station(THIRD)
    for place, (it, cell, training, carrier) in enumerate(((third, 103, 4, 75), (station, 100, 1, 60), (other, 101, 2, 70))):
        burst(it, "070a0d")
        number = assigned(it, "070a0d", training=training, carrier=carrier)
        run.expect(f"^event open .* {place}/0/1 -> done$")
        say(it, f"020601{number}02000b{len(UPDATE) // 2:04x}{UPDATE}")
        connection = run.centre.begun(UPDATE, cell)
        run.centre.data(connection, "000420040109")
        sent(it, f"030101{number}02000b0003060d00")
        say(it, f"020901{number}0200")
        run.expect(f"^event released {place}/0/1 -> done$")
        run.centre.release(connection)
    run.ask("stations")
    run.expect(r"^station 6969/0/0 \(cell 1, TRX 0\): there since ", r"^station 6970/0/0 \(cell 2, TRX 0\): there since ")
    run.end()


def meanwhile(start, room, program):
    """While the numbers of cells change a telephone is paged in one of them, another asks for a channel there, and an operator names the
    other one: each is about its cell."""
    run = begun(start, room, program, t3113=0.5, pagings=100)
    station, other = run.begin(), run.station(OTHER)
    paging(run, IMSI, TMSI, "1a050100170064")
    sent(station, COMMAND)
    run.settle()
    change(room, "site.toml", (HEAD, CELL + HEAD))
    change(room, "config.toml", ("cell = 1", "cell = 2"), ("cell = 0", "cell = 1"))
    (room / "journal" / "hold").touch()
    reload(run, r"reload: tried on a copy of the journal: it would go on behind line \d+")
    burst(station, "070a0d")
    run.ask("handover 9 1\nstations")
    run.out.expect("^controller: away since .*; lines that wait: 1$")
    (room / "journal" / "hold").unlink()
    run.expect(r"^reload: goes on behind line \d+$", "^in handover 9 2$", "^event open .* 1/0/1 -> done$")
    number, before = assigned(station, "070a0d"), count(station)
    say(station, f"020601{number}02000b{len(RESPONSE) // 2:04x}{RESPONSE}")
    connection = run.centre.begun(RESPONSE)
    must(before > 1 and count(other) == 0, f"it is paged {before} times, and {count(other)} times in another cell")
    run.centre.data(connection, "000420040109")
    sent(station, f"030101{number}02000b0003060d00")
    say(station, f"020901{number}0200")
    run.expect("^event released 1/0/1 -> done$")
    run.centre.release(connection)
    run.end()


def a_cell_goes(start, room, program):
    """A cell that had no call goes, and its station with it; the next one takes its number, and another unit is named for it."""
    run = begun(start, room, program)
    station, other = run.begin(), run.station(OTHER)
    run.settle()
    change(room, "site.toml", (HEAD, HEAD.replace("100", "109")), ("bcc = 1\n", "bcc = 6\n"))
    change(room, "config.toml", (f'unit = "{ONE}"', f'unit = "{THIRD}"'))
    taken(run, "cell 23/100: goes", "cell 23/109: is new, with the number 0", f"station {ONE}: goes", f"station {THIRD}: is new, .*")
    must(station.await_end() and other.is_there, "the station of a cell that goes stays, or another one doesn't")
    run.stations.remove(station)
    third = run.station(THIRD)
    burst(third, "070a0d")
    number = assigned(third, "070a0d", training=6)
    say(third, f"020601{number}02000b{len(UPDATE) // 2:04x}{UPDATE}")
    connection = run.centre.begun(UPDATE, 109)
    run.centre.data(connection, "000420040109")
    sent(third, f"030101{number}02000b0003060d00")
    say(third, f"020901{number}0200")
    run.expect("^event released 0/0/1 -> done$")
    run.centre.release(connection)
    run.end()


def config_alone(start, room, _program):
    """CONFIG changes, and the site doesn't: the same controller goes on, which needs no journal. Addresses are named, and stay; while
    they do no other bridge takes the place. Once they are what they were one does."""
    run = start()
    station, port = run.begin(), run.centre.port
    run.settle()
    process, before = child(run), len(station.came)
    change(room, "config.toml", (f"port = {port}", "port = 4999"), ("awaited = 4", "awaited = 2"))
    change(room, "config.toml", ("[broadcast]", "[broadcast]\nt3212 = 10\nbarred_classes = [3]"))
    reload(run, "reload: broadcast.t3212: 5 -> 10", "reload: broadcast.barred_classes: none -> 3", "reload: awaited: 4 -> 2")
    stays = f"reload: centre.port: {port} -> 4999; stays as it was until the bridge begins anew"
    for pattern in (stays, "reload: done, by the same controller"):
        run.out.expect(f"^{pattern}$")
    # class 3 is bit 3 of the second octet
    came = [it for it in told_from(station, before) if "e50408" not in it]
    must(not came and child(run) == process, f"the station is sent {came}, or another controller goes on")
    sent(station, TYPE_3.format(100).replace("e50400", "e50408"))
    refused(run, "", f"{room / 'config.toml'} has changed since the bridge began")
    change(room, "config.toml", ("port = 4999", f"port = {port}"))
    reload(run, "reload: nothing changes")
    upgrade(run)
    reload(run, "reload: nothing changes")
    run.end()


def without_the_option(start, room, program):
    """A controller that has no --site-changed is named, and goes on; and so does one that has none and no journal."""
    refuses = f'case "$*" in *--site-changed*) echo "{UNKNOWN}" >&2; exit 2;; esac'
    other = program_that(room, "other", f'#!/bin/sh\n{refuses}\nexec "{CONTROLLER}" "{program}" "$@"\n')
    for core, why in (
        ((other, "live", "--journal", room / "journal"), f"tried on a copy of the journal: it ended with status 2: {UNKNOWN}"),
        ((program, "live"), "the controller has no journal"),
    ):
        run = start(core=core)
        station = run.begin()
        number, connection = register(run, station)
        change(room, "site.toml", ("window = 2", "window = 3"))
        process = child(run)
        reload(run, f"refused: reload: {why}")
        must(child(run) == process, "another controller goes on")
        clear(run, station, number, connection)
        run.end()


def an_option_of_tomorrow(start, room, program):
    """The program itself: where it has no --site-changed that is told by name, and its call goes on."""
    needs_journal(room, program)
    if has_option(program):
        raise LeftOut("the program has --site-changed")
    run = start(core=(program, "live", "--journal", room / "journal"))
    station = run.begin()
    number, connection = register(run, station)
    change(room, "site.toml", ("window = 2", "window = 3"))
    reload(run, "reload: handover: window: 2 -> 3", f"refused: reload: tried on a copy .* status 2: {UNKNOWN}.*")
    must((room / "journal.site").read_text() == TWO_CELLS, "another text is kept")
    clear(run, station, number, connection)
    run.end()


def has_option(program):
    """Whether a program goes on over a changed site, as its help says."""
    ran = subprocess.run([program, "live", "--help"], capture_output=True, text=True, timeout=LIMIT)
    return "--site-changed" in ran.stdout


def needs_option(room, program):
    """A check that wants a program which goes on over a changed site is left out where it doesn't."""
    needs_journal(room, program)
    if not has_option(program):
        raise LeftOut("the program has no --site-changed")


def refused_late(start, room, program):
    """A controller that would go on over a copy and doesn't over the journal is none: the old one goes on, and is told that."""
    lines = f'case "$*" in *--site-changed*) exit 2;; esac\nexec "{CONTROLLER}" "{program}" "$@"'
    core = (good_on_a_copy(room, program, "other", lines), "live", "--journal", room / "journal")
    run = start(words=OFTEN, core=core)
    station = run.begin()
    number, connection = register(run, station)
    change(room, "site.toml", ("window = 2", "window = 3"))
    reload(run, "refused: reload: it ended with status 2, and the old one goes on")
    must(sorted(it.name for it in room.glob("journal.*")) == ["journal.site", "journal.stations"], "the other text is left")
    must((room / "journal.site").read_text() == TWO_CELLS, "another text is kept")
    clear(run, station, number, connection)
    run.end()


def killed_as_it_goes_on(start, room, program):
    """The controller is killed once its journal is of the new site, and hasn't said so: another one goes on over that."""
    run = begun(start, room, program)
    station = run.begin()
    number, connection = register(run, station)
    change(room, "site.toml", ("window = 2", "window = 3"))
    (room / "journal" / "die").touch()
    taken(run, "handover: window: 2 -> 3")
    must(any(it.endswith("reload: it ended with status -9, and is started again") for it in run.said.lines), "it isn't killed")
    must((room / "journal.site").read_text() == (room / "site.toml").read_text(), "another text is kept")
    os.killpg(child(run), signal.SIGKILL)
    run.said.expect("has ended with status -9 behind line")
    clear(run, station, number, connection)
    run.end()


def edited(start, room, program):
    """The site's file is edited, or goes: a controller that is killed, and the controller of the next bridge, go on with the text of
    before, of which is told. Its call is there with the first, and ends with the second, as always."""
    site = room / "site.toml"
    site.write_text(SITE.read_text())
    core = (controller(room, program), "live", site, "--journal", "journal")
    bridge = start(*OFTEN, core=core)
    bridge.station(FIRST)
    bridge.ask("open 1 0 0 3")
    bridge.expect("record 0/0/3 on$")
    for text in (SITE.read_text() + "# a comment\n", "no site", None):
        if text is None:
            site.unlink()
        else:
            site.write_text(text)
        os.killpg(child(bridge), signal.SIGKILL)
        bridge.said.expect("controller: resumed after line")
        settle(bridge)
    must((room / "journal.site").read_text() == SITE.read_text(), "another text is kept")
    bridge.process.kill()
    bridge.process.wait(LIMIT)
    site.write_text(SITE.read_text() + "# a comment\n")
    bridge = start(*OFTEN, core=core)
    bridge.said.find(f"warning: {site} has changed since the controller was given it: `reload` takes it$", 0)
    bridge.said.expect("calls of before are over: 1, with 1 channels$")
    catch_up(bridge)
    bridge.ask("reload")
    bridge.expect("^reload: nothing changes$")
    bridge.end()


def of_stations_alone(start, room, program):
    """At the bridge of stations a site changes in a call; then another controller, and another bridge, go on with the new one."""
    site = room / "site.toml"
    site.write_text(SITE.read_text())
    core = (controller(room, program), "live", site, "--journal", "journal")
    bridge = start(*OFTEN, "--control", "control", core=core)
    station = bridge.station(FIRST)
    bridge.ask("open 1 0 0 3")
    bridge.expect("record 0/0/3 on$")
    operator = Asker(room / "control")
    change(room, "site.toml", ("window = 2", "window = 5"))
    operator.ask("reload\n")
    for pattern in ("handover: window: 2 -> 5", r"tried on a copy .* line \d+", r"goes on behind line \d+"):
        operator.expect(f"^reload: {pattern}$")
    upgrade(bridge)
    os.killpg(child(bridge), signal.SIGKILL)
    bridge.said.expect("controller: resumed after line")
    operator.ask("reload\n")
    operator.expect("^reload: nothing changes$")
    change(room, "site.toml", ("tch = [", "tch = [0, "))
    operator.ask("reload\n")
    operator.expect(f"^refused: reload: {site}: .*tch: a list of whole numbers from 1 to 7 is allowed, not ")
    operator.leave()
    must(station.is_there, "its link is lost")
    bridge.ask("clear 1")
    bridge.expect("^event released 0/0/3 -> done$")
    bridge.process.send_signal(signal.SIGTERM)
    bridge.wait(0)


def the_text_after_a_crash(_start, room, _program):
    """Whenever the machine stops while a text takes the place of another, the journal's head says whose text is the controller's."""
    journal, site = room / "journal", room / "site.toml"
    journal.mkdir()
    command = ["lab", "live", "--keep", "3", str(site), "--journal", str(journal)]
    must(command[place_of_site(command)] == str(site) and place_of_site(["lab", "live", "--keep", "3"]) is None, "another place")
    site.write_bytes(b"edited")
    head = {it: b"gofnild journal 1\n" + record(0, [b"site %d\n" % zlib.crc32(it)]) for it in (b"old", b"new", b"lost")}
    for kept, following, of, expected in (
        (None, None, None, b"edited"),
        (b"old", None, b"old", b"old"),
        (b"old", b"new", b"old", b"old"),
        (b"old", b"new", b"new", b"new"),
        (b"new", b"new", b"new", b"new"),
        (b"old", b"new", None, b"edited"),
        (b"old", b"new", b"lost", b"edited"),
    ):
        paths = (room / "journal.site", room / "journal.site.new", journal / f"{0:020}.journal")
        for path, text in zip(paths, (kept, following, head.get(of))):
            path.unlink(missing_ok=True)
            if text is not None:
                path.write_bytes(text)
        it = KeptSite(command)
        must(it.text == expected, f"{kept}, {following}, {of}: {it.text}")
        path = site if of == b"lost" else room / "journal.site"
        must(it.given(command) == ["lab", "live", "--keep", "3", str(path), "--journal", str(journal)], f"{it.given(command)}")
        must(path.read_bytes() == expected, f"{kept}, {following}, {of}: the controller is given {path.read_bytes()}")
        must(of == b"lost" or not (room / "journal.site.new").exists(), "the other text stays")
    remove(journal)


def checked(start, room, program):
    """`--check` tells what `reload` would change of the site, beside a bridge that runs, and whether the controller would go on."""
    run = begun(start, room, program)
    station = run.begin()
    number, connection = register(run, station)
    run.settle()
    config, site = (room / "config.toml").read_text(), (room / "site.toml").read_text()
    (room / "site.toml").write_text(site + "# a comment\n")
    check(room, 0, "", "")
    (room / "site.toml").write_text(site.replace("window = 2", "window = 3"))
    check(room, 0, "reload: handover: window: 2 -> 3\n", "")
    (room / "site.toml").write_text(swapped(site))
    lines = "reload: cell 23/100: its number: 0 -> 1\nreload: cell 23/101: its number: 1 -> 0\n"
    why = "controller: --journal: tried on a copy with --site-changed: it ended with status 2: "
    check(room, 1, lines, f"{room / 'config.toml'}: {why}")
    (room / "journal.site").write_text("no text that is known\n")
    check(room, 1, "", f": of another site than {room / 'site.toml'}: ")
    (room / "site.toml").write_text(site)
    (room / "config.toml").write_text(config)
    check(room, 0, "", "")
    clear(run, station, number, connection)
    run.end()


def check(room, status, printed, said):
    """What `--check` prints and says."""
    ran = subprocess.run([FOLDER / "network", room / "config.toml", "--check"], capture_output=True, text=True, timeout=LIMIT)
    must(ran.returncode == status and ran.stdout == printed, f"status {ran.returncode}: {ran.stdout}{ran.stderr}")
    must(said in ran.stderr and bool(said) == bool(ran.stderr), f"{ran.stderr} has no {said!r}")


def changed_for_one_another(start, room, program):
    """A bridge ends, and the next one begins with a cell in front of the others: where its stations are numbered so, the controller
    goes on over the new site; where they are those of before, it goes on over the old one."""
    site, text = room / "site.toml", SITE.read_text()
    site.write_text(text)
    core = (controller(room, program), "live", site, "--journal", "journal")
    start(*OFTEN, core=core).end()
    at = text.index("[[cell]]")
    for stations, place, told in (
        ((f"{FIRST}=0/0", f"{SECOND}=1/1"), 0, f"{site} has changed since the controller was given it: `reload` takes it$"),
        ((f"{FIRST}=1/0", f"{SECOND}=2/1", f"{THIRD}=0/0"), 1, f"the stations and {site} have changed: the controller goes on"),
        ((f"{FIRST}=1/0", f"{SECOND}=2/1", f"{THIRD}=0/0"), 1, "controller: resumed after line"),
    ):
        site.write_text(text[:at] + CELL.replace("[1, 2]", "[1, 2, 3]") + text[at:])
        bridge = start(*OFTEN, core=core, stations=stations)
        bridge.said.find(told, 0)
        station = bridge.station(FIRST)
        bridge.ask(f"open 1 {place} 0 3")
        bridge.expect(f"record {place}/0/3 on$")
        must(station.count(is_kind(rsl.ACTIVATION)) == 1, "another station is asked")
        bridge.ask("clear 1")
        bridge.expect(f"^event released {place}/0/3 -> done$")
        bridge.end()
    must((room / "journal.site").read_text() == site.read_text(), "another text is kept")


def of_its_own(start, room, program):
    """The program's own journal goes on over a changed site: with a call in a cell, another cell is put in front in vain, and behind it
    is taken. Once no call is there cells are swapped."""
    needs_option(room, program)
    core = (program, "live", "--journal", room / "journal")
    run = start(words=(*OFTEN, "--log", room / "log"), core=core)
    station, other = run.begin(), run.station(OTHER)
    call = start_call(run, station)
    speak(call)
    run.settle()
    asked, site = len(run.gateway.came), (room / "site.toml").read_text()
    (room / "site.toml").write_text(site.replace(HEAD, CELL + HEAD))
    reload(run, f"refused: reload: cell 23/100: its number: 0 -> 1{WHILE}")
    (room / "site.toml").write_text(site.replace("[[outside]]", CELL + "[[outside]]").replace("margin = 3", "margin = 4"))
    taken(run, "handover: margin: 3 -> 4", "cell 23/103: is new, with the number 2")
    must(len(run.gateway.came) == asked, f"the gateway is asked {run.gateway.came[asked:]}")
    os.killpg(child(run), signal.SIGKILL)
    run.said.expect("has ended with status -9 behind line")
    clear(run, station, call.number, call.connection)
    run.gateway.emptied()
    (room / "site.toml").write_text(swapped(site))
    change(room, "config.toml", ("cell = 1", "cell = 2"), ("cell = 0", "cell = 1"), ("cell = 2", "cell = 0"))
    taken(run, "cell 23/100: its number: 0 -> 1", "cell 23/101: its number: 1 -> 0", "cell 23/103: goes")
    upgrade(run)
    for place, (it, training, carrier) in enumerate(((other, 2, 70), (station, 1, 60))):
        burst(it, "070a0d")
        number = assigned(it, "070a0d", training=training, carrier=carrier)
        run.expect(f"^event open .* {place}/0/1 -> done$")
        say(it, f"020601{number}02000b{len(UPDATE) // 2:04x}{UPDATE}")
        connection = run.centre.begun(UPDATE, 101 - place)
        run.centre.data(connection, "000420040109")
        sent(it, f"030101{number}02000b0003060d00")
        say(it, f"020901{number}0200")
        run.expect(f"^event released {place}/0/1 -> done$")
        run.centre.release(connection)
    run.end()


def in_a_row(name, count, is_own):
    """A check that has the site change so often under load, with the program's own journal or with that for tests."""

    def check(start, room, program):
        if is_own:
            needs_option(room, program)
        site = (FOLDER / "network_site.toml").read_text()
        command = (program, "live", "--keep", "3") if is_own else (controller(room, program), "live")
        core = (*command, "--journal", room / "journal")
        run = start(words=OFTEN, core=core, centre=SpeakingCentre(), site=site, awaited=6, t3111=0.01)
        run.said.expect("A: the centre is there")
        stations = [EndlessStation(run.port, unit, 100_000, 4) for unit in (ONE, OTHER)]
        for station in stations:
            must(station.known.wait(LIMIT), f"{station.unit} isn't acknowledged")
            station.begin()
        for place in range(count):
            (room / "site.toml").write_text(site.replace("margin = 3", f"margin = {4 + place % 50}"))
            reload(run, r"reload: goes on behind line \d+")
        for station in stations:
            station.is_over = True
        emptied(run)
        run.gateway.emptied()
        calls = sum(len(station.took) for station in stations)
        must(calls > count, f"{calls} calls while the site changes {count} times")
        must(all(station.is_there for station in stations) and run.centre.links == 1, "a link was lost")
        run.end()

    check.__name__ = name
    check.__doc__ = f"""Calls get speech and are cleared, four at once in each of two cells, while the site changes {count} times, with a
    {"journal of the program's own" if is_own else "journal for tests"}: all calls come to their end, no link is lost, and nothing is left."""
    return check


CHECKS = [edited, of_stations_alone, the_text_after_a_crash, changed_for_one_another]
OF_NETWORK = [reloaded_in_calls, refused_in_a_call, inserted_in_front, meanwhile, a_cell_goes, config_alone]
OF_NETWORK += [without_the_option, an_option_of_tomorrow]
OF_NETWORK += [refused_late, killed_as_it_goes_on, checked, of_its_own]
OF_NETWORK += [in_a_row("a_few_under_load", FEW, False), in_a_row("a_hundred_under_load", MANY, True)]
