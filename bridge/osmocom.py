"""Programs of Osmocom that a script runs, and the virtual air of osmo-bts-virtual: multicast of GSMTAP on loopback."""
import socket
import struct
import subprocess
import time
import typing

# Stations hear the first, and are heard on the second.
HEARD_BY_STATIONS, HEARD_BY_MOBILES, PORT = "239.193.23.2", "239.193.23.1", 4729
# GSMTAP: its version, the length of its head in words of four octets, and its type for a frame of the radio path.
VERSION, WORDS, RADIO_PATH = 2, 4, 1
# The head, and in an uplink's carrier the mark of one.
HEAD, UPLINK, LOUD, CLEAR = struct.Struct(">BBBBHBBIBBBB"), 0x4000, 200, 20


# Where osmo-bsc is, which sets stations up (OML), and where the bridge and a second one listen for them.
SETTING_UP, BRIDGE, SECOND_BRIDGE = "127.0.0.1", "127.0.0.2", "127.0.0.3"


def band_of(arfcn):
    """The band of a carrier."""
    return "DCS1800" if arfcn > 500 else "GSM900"


def cell_settings(number, unit, arfcn, colours, common, rates, place=None, controller=BRIDGE):
    """The settings of a cell for osmo-bsc: what its timeslot 0 carries, and by number what others do; its location area and
    identity, where these aren't 23 and 100 with its number; and where its controller is."""
    lac, ci = place or (23, 100 + number)
    traffic = "".join(f"   timeslot {timeslot}\n    phys_chan_config {rate}\n" for timeslot, rate in rates.items())
    return f""" bts {number}
  type osmo-bts
  band {band_of(arfcn)}
  cell_identity {ci}
  location_area_code {lac}
  base_station_id_code {colours}
  ipa unit-id {unit} 0
  ipa rsl-ip {controller}
  oml ipa stream-id 255 line 0
  trx 0
   arfcn {arfcn}
   nominal power 23
   max_power_red 20
   rsl e1 tei 0
   timeslot 0
    phys_chan_config {common}
{traffic}"""


def controller_settings(cells):
    """The settings of osmo-bsc, with those of its cells."""
    return f"""e1_input
 e1_line 0 driver ipa
 ipa bind {SETTING_UP}
network
 network country code 1
 mobile network code 1
{"".join(cells)}"""


def station_settings(number, unit, arfcn, room):
    """The settings of a station."""
    return f"""log stderr
 logging filter all 1
 logging timestamp 0
line vty
 no login
 bind 127.0.0.{11 + number}
ctrl
 bind 127.0.0.{11 + number}
e1_input
 e1_line 0 driver ipa
phy 0
 virtual-um net-device lo
 virtual-um ttl 0
 instance 0
bts 0
 band {band_of(arfcn)}
 ipa unit-id {unit} 0
 oml remote-ip {SETTING_UP}
 pcu-socket {room}/pcu{number}
 trx 0
  phy 0 instance 0
"""


class Programs:
    """Programs that run, each with a log of its own."""

    def __init__(self, room):
        self.room, self.processes = room, {}

    def start(self, name, *words, settings=None):
        """Starts a program; `settings` are its environment, where that isn't this script's."""
        with open(self.room / f"{name}.log", "ab") as log:
            self.processes[name] = subprocess.Popen(
                [str(word) for word in words], cwd=self.room, stdin=subprocess.DEVNULL, stdout=log, stderr=log, env=settings
            )

    def kill(self, name):
        """Kills a program, as a power cut would."""
        if process := self.processes.pop(name, None):
            process.kill()
            process.wait()

    def stop(self):
        """Ends all that was started."""
        for process in reversed(self.processes.values()):
            process.terminate()
        for process in self.processes.values():
            try:
                process.wait(5)
            except subprocess.TimeoutExpired:
                process.kill()
                process.wait()


class Frame(typing.NamedTuple):
    """A frame on the air: its carrier, timeslot and channel, which half of that, its number, and its octets."""

    arfcn: int
    timeslot: int
    channel: int
    half: int
    number: int
    octets: bytes


class Clock:
    """Something that is done again after each so many seconds; what was missed is made up for."""

    def __init__(self, seconds, action):
        self.seconds, self.action = seconds, action
        self.next = time.monotonic()

    def seconds_left(self):
        """How long it is until it is to be done."""
        return max(0.0, self.next - time.monotonic())

    def run(self):
        """Does it, as often as it is due."""
        while self.next <= time.monotonic():
            self.next += self.seconds
            self.action()


class Radio:
    """What mobiles send and hear with. Who has a channel listens there while anybody waits for something; what is to be done
    again and again is done then, too."""

    def __init__(self):
        # by carrier, timeslot and half: who listens there; who hears all; and what is done again and again
        self.places, self.hearers, self.clocks = {}, [], []
        self.sends = socket.socket(socket.AF_INET, socket.SOCK_DGRAM)
        self.sends.setsockopt(socket.IPPROTO_IP, socket.IP_MULTICAST_TTL, 0)
        self.sends.setsockopt(socket.IPPROTO_IP, socket.IP_MULTICAST_IF, socket.inet_aton("127.0.0.1"))
        self.hears = socket.socket(socket.AF_INET, socket.SOCK_DGRAM)
        self.hears.setsockopt(socket.SOL_SOCKET, socket.SO_REUSEADDR, 1)
        self.hears.setsockopt(socket.SOL_SOCKET, socket.SO_RCVBUF, 1 << 20)
        self.hears.bind((HEARD_BY_MOBILES, PORT))
        group = socket.inet_aton(HEARD_BY_MOBILES) + socket.inet_aton("127.0.0.1")
        self.hears.setsockopt(socket.IPPROTO_IP, socket.IP_ADD_MEMBERSHIP, group)
        # the number of the last frame that was heard on each carrier: each station has its own
        self.numbers = {}

    def put(self, arfcn, timeslot, channel, octets, half=0):
        """Sends a burst or a frame, under the number of the carrier's frame."""
        numbers = (timeslot, arfcn | UPLINK, LOUD, CLEAR, self.number_on(arfcn), channel, 0, half, 0)
        head = HEAD.pack(VERSION, WORDS, RADIO_PATH, *numbers)
        self.sends.sendto(head + octets, (HEARD_BY_STATIONS, PORT))

    def number_on(self, arfcn):
        """The number of a carrier's frame."""
        return self.numbers.get(arfcn, 0)

    def frame(self, seconds):
        """The next frame that is heard; None where none is for so long."""
        self.hears.settimeout(max(0.001, seconds))
        try:
            octets = self.hears.recv(4096)
        except TimeoutError:
            return None
        if len(octets) < HEAD.size:
            return None
        _, _, _, timeslot, arfcn, _, _, number, channel, _, half, _ = HEAD.unpack(octets[: HEAD.size])
        return Frame(arfcn & 0x3FFF, timeslot, channel, half, number, octets[HEAD.size :])

    def listen(self, place, mobile):
        """A mobile is on a channel from now on, and nowhere else."""
        self.ignore(mobile)
        self.places[place] = mobile

    def ignore(self, mobile):
        """A mobile is on no channel any more."""
        self.places = {place: it for place, it in self.places.items() if it is not mobile}

    def hear(self, take, seconds):
        """Hears for so long, or until `take` gives something of a frame that isn't None; that."""
        end = time.monotonic() + seconds
        while (left := end - time.monotonic()) > 0:
            frame = self.frame(min([left, *(clock.seconds_left() for clock in self.clocks)]))
            for clock in list(self.clocks):
                clock.run()
            for mobile in list(self.places.values()):
                mobile.tick()
            if frame is None:
                continue
            self.numbers[frame.arfcn] = frame.number
            if mobile := self.places.get((frame.arfcn, frame.timeslot, frame.half)):
                mobile.listen(frame)
            for hearer in list(self.hearers):
                hearer(frame)
            if (found := take(frame)) is not None:
                return found
        return None

    def wait(self, seconds):
        """Hears for so long."""
        self.hear(lambda _frame: None, seconds)
