"""A bridge of a network that runs, with a switching centre (centre.py) and base stations (station.py) of its own: what the
checks play with.

What is expected are octets that osmo-bsc, osmo-msc and osmo-bts sent one another, and what the layouts of the standards
make of them for other channels and numbers.
"""
import json
import os
import re
import time

from centre import TestCentre
from harness import FOLDER, LIMIT, NEVER_HANGS, PATIENT, Bridge, Unmet, must
from test_gateway import TestGateway

# The units of the two cells.
FIRST, SECOND = "6969/0/0", "6970/0/0"
SITE = """
[handover]
window = 2
margin = 3
minimum = 10
[[cell]]
lac = 23
ci = 100
bcch = 60
ncc = 1
bcc = 1
power = 5
ba = [70]
trx = [{ arfcn = 60, tch = [1, 2] }]
[[cell]]
lac = 23
ci = 101
bcch = 70
ncc = 1
bcc = 2
power = 5
ba = [60]
trx = [{ arfcn = 70, tch = [1, 2] }]
[[outside]]
lac = 24
ci = 200
bcch = 80
ncc = 1
bcc = 3
"""
CONFIG = """
controller = {controller}
site = "site.toml"
awaited = {awaited}
emergency_reserve = {emergency_reserve}
pagings = {pagings}
[network]
mcc = "001"
mnc = "01"
band = {band}
[broadcast]
neci = {neci}
{broadcast}
[abis]
port = 0
[centre]
transport = "{transport}"
port = {port}
name = "as-bsc1"
own = "0.42.1"
peer = "0.23.1"
[gateway]
port = {gateway}
{terminal}
[timers]
retry = 0.2
{timers}
[[station]]
unit = "6969/0/0"
cell = 0
[[station]]
unit = "6970/0/0"
cell = 1
{more}
"""
# Timers of a network that don't run out where they are no matter of a check: on a busy machine the mobile, the centre, the
# gateway and the check itself may be slow.
OF_MOBILES, OF_CENTRE = ("t3101", "t3109", "t3113", "t10", "establish"), ("connect", "release", "clearing", "settle", "repeat")
OF_GATEWAY = ("gateway", "gateway-repeat", "gateway-audit")
# What is asked for of CONFIG beside timers, and what it is where that isn't asked for; `broadcast` and `terminal` are more lines of
# that table and of the gateway's, and `more` are other tables.
KEYS = {"neci": 1, "awaited": 4, "emergency_reserve": 0, "pagings": 4, "band": 900, "transport": "ipa"}
KEYS |= {"broadcast": "", "terminal": "", "more": ""}
# An operator's line of which nothing comes, but that it is printed: the site has no such cell.
NOTHING = "handover 65535 63"
# What a mobile says first, and what the centre answers, as in a location update of osmo-bsc and osmo-msc.
UPDATE, ACCEPT, COMPLETE = "05087000f110001757080910100000000010", "050200f11000171705f44595ef80", "055b"
CLEAR, CLEARED = "000420040109", "000121"
# HANDOVER REQUEST of osmo-msc, from the cell 24/200 into the cell 23/100, and what answers it: HANDOVER REQUEST ACKNOWLEDGE
# with the HANDOVER COMMAND into the channel 0/0/1 (TS 44.018, 9.1.15), and what is known of speech: a full rate channel, no
# encryption, version 1, where the gateway has it for the centre, and the codec. Then the command into the channel 1/0/1.
REQUEST = (
    "003d100b07010aa19181a5050a0101120357188105080000f110001800c805050100170064"
    "04010c080809101000000000107c067f0000010fb27f03000080"
)
SPEAKS = "21982c0140017c067f000001....7e0180"
TAKEN, MOVE = f"001d121709062b093c09203c0005{SPEAKS}", "062b0a460940460005"


class Run(Bridge):
    """A network that runs, with its centre and its stations."""

    def __init__(
        self, program, room, port=None, acknowledges=True, centre=None, site=SITE, path=None, words=(), core=None,
        network=FOLDER / "network", **options
    ):
        """`path` is where programs are looked for, `words` are options of the command line, `core` is the controller's command
        without its site, `network` is the bridge; others are keys of CONFIG."""
        self.centre = centre or TestCentre()
        self.centre.acknowledges = acknowledges
        self.gateway = TestGateway()
        # how many lines there were when the controller had last done all that it was given
        self.done = 0
        self.room = room
        patient = PATIENT | {name: 120 for name in (*OF_MOBILES, *OF_CENTRE, *OF_GATEWAY)}
        options = patient | {"t3111": 0.1, "t13": 0.1} | options
        keys = {name: options.pop(name, value) for name, value in KEYS.items()}
        lines = "\n".join(f"{name} = {seconds}" for name, seconds in options.items())
        (room / "site.toml").write_text(site)
        ports = {"port": port or self.centre.port, "gateway": self.gateway.port}
        controller = json.dumps([str(word) for word in core or (program, "live")])
        config = CONFIG.format(controller=controller, timers=lines, **ports, **keys)
        (room / "config.toml").write_text(config)
        settings = f"PATH={path or os.environ['PATH']}"
        self.run(["env", settings, network, room / "config.toml", *NEVER_HANGS, *words], room)

    def begin(self):
        """Waits for the centre; the first station, once that is there."""
        self.said.expect("A: the centre is there")
        return self.station(FIRST)

    def catch_up(self):
        """Waits until the controller has done all that it was given by now, and has printed that; how many lines there are then.
        """
        self.ask(NOTHING)
        _, self.done = self.out.find(f"^in {NOTHING}$", self.done)
        return self.done

    def settle(self):
        """Waits until the controller has done all that it was given by now, and what stations answer to that."""
        self.catch_up()
        for station in self.stations:
            station.settle()
        self.catch_up()

    def end(self, status=0, is_empty=True):
        """Ends it; by then the book is empty. What is to be answered yet is answered before: behind the end nothing is."""
        if is_empty and self.process.poll() is None:
            self.settle()
        super().end(status)
        self.centre.stop()
        end = [line for line in self.out.lines if line.startswith("end ")]
        if is_empty and end != ["end channels=0 calls=0 references=0 timers=0"]:
            raise Unmet(f"something is left: {end}")

    def stop(self):
        """Stops it, if it is running still."""
        super().stop()
        self.centre.stop()
        self.gateway.stop()


def sent(station, pattern, seconds=LIMIT):
    """Waits until a station is sent a message that a pattern describes, behind those that were waited for before; the
    match."""
    at = getattr(station, "at", 0)

    def find():
        for place in range(station.at, len(station.came)):
            if found := re.fullmatch(pattern, station.came[place][1].hex()):
                station.at = place + 1
                return found
        return None

    station.at = at
    with station.changed:
        found = station.changed.wait_for(find, seconds)
    must(found, f"the station isn't sent {pattern}, but {[it[1].hex() for it in station.came[station.at :]][-8:]}")
    return found


def say(station, text):
    """A station sends a message of RSL."""
    station.say(bytes.fromhex(text))


def burst(station, reference, delay="00"):
    """An access burst is heard: CHANNEL REQUIRED, with the request reference."""
    say(station, f"0c130188" f"13{reference}11{delay}")


def assigned(station, reference, delay="00", training=1, carrier=60):
    """Waits for a channel's activation and its assignment to a mobile, and gives its number: TS 48.058, 8.4.1 (activation
    type 00, speech at full rate, the timing advance) and 8.5.6 with TS 44.018, 9.1.18."""
    number = sent(station, f"082101(..)0300060400010801" f"18{delay}")[1]
    description = f"{number}{training << 5:02x}{carrier:02x}"
    sent(station, f"0c1601902b172d063f03{description}{reference}{delay}00" + "2b" * 11)
    return number


def begin(run, station, reference="050a0d", update=UPDATE, delay="00"):
    """A mobile makes itself known; its channel, and its connection."""
    burst(station, reference, delay)
    number = assigned(station, reference, delay)
    say(station, f"020601{number}02000b{len(update) // 2:04x}{update}")
    return number, run.centre.begun(update)


def down(run, station, number, connection, message):
    """The centre says something to a mobile."""
    run.centre.data(connection, f"0100{len(message) // 2:02x}{message}")
    sent(station, f"030101{number}02000b{len(message) // 2:04x}{message}")


def up(run, station, number, connection, message):
    """A mobile says something to the centre."""
    said(station, number, message)
    length = len(message) // 2
    run.centre.expect(f"06{connection}0001{length + 3:02x}0100{length:02x}{message}")


def said(station, number, message):
    """A mobile says something: DATA INDICATION."""
    say(station, f"030201{number}02000b{len(message) // 2:04x}{message}")


def register(run, station, **options):
    """A mobile registers, up to the centre's CLEAR COMMAND; its channel and its connection."""
    number, connection = begin(run, station, **options)
    down(run, station, number, connection, ACCEPT)
    up(run, station, number, connection, COMPLETE)
    return number, connection


def leave(run, station, number, cause=0):
    """The mobile hears CHANNEL RELEASE, and leaves; then its channel is released."""
    sent(station, f"030101{number}02000b0003060d{cause:02x}")
    say(station, f"020901{number}0200")
    sent(station, f"082e01{number}")
    freed(run, station, number)


def freed(run, station, number):
    """The release of a channel, which its station was sent, is answered, and the channel is free: what was released before
    doesn't count."""
    station.settle()
    end = run.catch_up()
    cell = int(station.unit[:4]) - 6969
    channel = f"{cell}/{station.trx}/{int(number, 16) & 7}"
    lines = run.out.lines[:end]
    asked = max(place for place, line in enumerate(lines) if line == f"out abis {cell} {station.trx} 082e01{number}")
    answer = f"event released {channel} -> done"
    must(answer in lines[asked:], f"channel {channel} stays, but:\n    " + "\n    ".join(lines[-15:]))
    run.out.at = max(run.out.at, lines.index(answer, asked) + 1)


def clear(run, station, number, connection):
    """The centre clears a call, and ends its connection."""
    run.centre.data(connection, CLEAR)
    leave(run, station, number)
    run.centre.expect(f"06{connection}000103{CLEARED}")
    run.centre.release(connection)
    run.centre.expect(f"05{connection}{connection}")


def rejected(station, reference):
    """Waits for IMMEDIATE ASSIGNMENT REJECT (TS 44.018, 9.1.20) with T3122 of 10 seconds, the reference four times."""
    sent(station, "0c1601902b174d063a03" + f"{reference}0a" * 4 + "2b2b2b")


def passed(run, *kinds):
    """What a station sent that nobody takes is told at the end."""
    run.end()
    line = run.said.expect("station 6969/0/0 .*: passed over: (.*)")[1]
    for kind in kinds:
        must(kind in line.split(", "), f"{kind!r} isn't counted, but {line!r}")


def emptied(run):
    """Waits until no channel is in use."""
    ask_until(run, "calls", "^no channel is in use$")


def ask_until(run, question, pattern):
    """An operator asks again and again, until the answer has a line that a pattern describes."""
    end, is_answered = time.monotonic() + LIMIT, False
    while not is_answered:
        before = run.catch_up()
        run.ask(question)
        answer = run.out.lines[before : run.catch_up()]
        is_answered = any(re.search(pattern, line) for line in answer)
        must(is_answered or time.monotonic() < end, f"no answer to {question!r} has {pattern!r}, but {answer}")
        time.sleep(0.0 if is_answered else 0.2)
