"""A small network of Osmocom's around the bridge: osmo-stp, osmo-hlr, osmo-mgw and osmo-msc on the centre's side, osmo-bsc and
osmo-bts-virtual on that of stations. osmo-bsc sets the stations up (OML), and is the controller of the last two of them, from
which calls are handed over.

A kernel without SCTP will do: sctp_over_tcp.c is preloaded then, and M3UA between osmo-stp and osmo-msc goes over TCP.
"""
import os
import socket
import time
import typing

import c_programs
from osmocom import BRIDGE, SECOND_BRIDGE, SETTING_UP, Programs, cell_settings, controller_settings, station_settings

# Where osmo-stp is, the bridges' media gateway, and that of osmo-msc and osmo-bsc.
TRANSFER, GATEWAY, CENTRE_GATEWAY = "127.0.0.5", "127.0.0.6", "127.0.0.1"


class Place(typing.NamedTuple):
    """A cell: its unit, carrier, colours, location area and identity; where its controller listens for it, and which of its
    timeslots carry halves."""

    unit: int
    arfcn: int
    colours: int
    lac: int
    ci: int
    controller: str
    halves: tuple = ()


# The cells: two of network_site.toml, one of second_site.toml, and two of osmo-bsc's own.
CELLS = (
    Place(6969, 60, 9, 23, 100, BRIDGE),
    Place(6970, 70, 10, 23, 101, BRIDGE),
    Place(6971, 80, 11, 24, 200, SECOND_BRIDGE, (6, 7)),
    Place(6972, 90, 12, 25, 300, SETTING_UP),
    Place(6973, 95, 13, 25, 301, SETTING_UP),
)
OSMO_CELLS = (3, 4)
# The location area that osmo-bsc is told of cells which aren't its own: only the station's setup is.
OTHERS_AREA = 99
# The point codes of the controllers: the bridge over IPA and over M3UA, a second one, and osmo-bsc.
FIRST_POINT, M3UA_POINT, SECOND_POINT, OSMO_POINT = "0.42.1", "0.42.2", "0.42.3", "0.42.4"
# How many seconds a program may take until it is there.
LIMIT = 60
# The terminals of osmo-hlr, osmo-msc, osmo-bsc and osmo-mgw.
REGISTER_TERMINAL, CENTRE_TERMINAL, OSMO_TERMINAL, GATEWAY_TERMINAL = 4258, 4254, 4242, 4243
LOG = """log stderr
 logging filter all 1
 logging color 0
 logging print category 1
 logging timestamp 0
 logging level set-all info
"""
TRANSFER_SETTINGS = f"""{LOG}line vty
 bind 127.0.0.1
cs7 instance 0
 xua rkm routing-key-allocation dynamic-permitted
 as as-gofnild ipa
  routing-key 0 {FIRST_POINT}
  point-code override dpc 0.23.1
 as as-second ipa
  routing-key 0 {SECOND_POINT}
  point-code override dpc 0.23.1
 route-table system
  update route {FIRST_POINT} 7.255.7 linkset as-gofnild
  update route {SECOND_POINT} 7.255.7 linkset as-second
 listen m3ua 2905
  local-ip {TRANSFER}
  accept-asp-connections dynamic-permitted
 listen ipa 5000
  local-ip {TRANSFER}
  accept-asp-connections dynamic-permitted
"""
REGISTER_SETTINGS = f"""{LOG}line vty
 no login
 bind 127.0.0.1
ctrl
 bind 127.0.0.1
hlr
 gsup
  bind ip 127.0.0.1
"""
CENTRE_SETTINGS = f"""{LOG}line vty
 no login
 bind 127.0.0.1
ctrl
 bind 127.0.0.1
network
 network country code 001
 mobile network code 01
 encryption a5 0
 authentication optional
 rrlp mode none
 mm info 0
cs7 instance 0
 point-code 0.23.1
 asp asp-clnt-OsmoMSC-A-Iu 2905 0 m3ua
  remote-ip {TRANSFER}
  role asp
  sctp-role client
msc
 cs7-instance-a 0
 cs7-instance-iu 0
 mgw remote-ip 127.0.0.1
 mgw remote-port 2427
 mgw local-port 2728
 assign-tmsi
 check-imei-rqd 0
 neighbor a lac-ci 23 100 ran-pc {FIRST_POINT}
 neighbor a lac-ci 23 101 ran-pc {FIRST_POINT}
 neighbor a lac-ci 24 200 ran-pc {SECOND_POINT}
 neighbor a lac-ci 25 300 ran-pc {OSMO_POINT}
hlr
 remote-ip 127.0.0.1
 remote-port 4222
"""
# What osmo-bsc has to know as a controller: behind its cells, and, in front of them, how it reaches the centre.
OSMO_SETTINGS = """ encryption a5 0
 neci 1
 handover 1
msc 0
 codec-list fr1
 msc-addr msc
 asp-protocol m3ua
 mgw remote-ip 127.0.0.1
 mgw remote-port 2427
 mgw local-port 2727
bsc
 mid-call-timeout 0
"""
OSMO_TERMINAL_SETTINGS = """line vty
 no login
 bind 127.0.0.1
"""
OSMO_LINK = f"""cs7 instance 0
 point-code {OSMO_POINT}
 asp asp-clnt-msc-0 2905 0 m3ua
  remote-ip {TRANSFER}
  role asp
  sctp-role client
 sccp-address msc
  routing-indicator PC
  point-code 0.23.1
"""


def gateway_settings(address):
    """The settings of a media gateway at an address."""
    return f"""{LOG}line vty
 no login
 bind {address}
ctrl
 bind {address}
mgcp
 bind ip {address}
 bind port 2427
 rtp port-range 4002 16001
 rtp bind-ip {address}
 number endpoints 31
 loop 0
 force-realloc 1
 rtp-patch ssrc
 rtp-patch timestamp
"""


def has_sctp():
    """Whether the kernel has SCTP."""
    try:
        socket.socket(socket.AF_INET, socket.SOCK_STREAM, socket.IPPROTO_SCTP).close()
    except OSError:
        return False
    return True


def build_library(room, *words):
    """Builds the library by which M3UA goes over TCP, with more words for the compiler; raises OSError where that can't be done."""
    library = room / "sctp_over_tcp.so"
    words = ("-shared", "-fPIC", "-ldl", *words)
    c_programs.build("a kernel without SCTP", library, "sctp_over_tcp.c", words, "libsctp-dev")
    return library


def preloading(library):
    """The environment in which a library is preloaded."""
    return os.environ | {"LD_PRELOAD": str(library)}


def preloaded(room):
    """The environment in which M3UA goes over TCP, by a library that is built in a folder; None where the kernel has SCTP.
    Raises OSError where it can't be built."""
    return None if has_sctp() else preloading(build_library(room))


class CoreNetwork(Programs):
    """The programs."""

    def __init__(self, room):
        super().__init__(room)
        self.settings = preloaded(room)
        settings = {"stp": TRANSFER_SETTINGS, "hlr": REGISTER_SETTINGS, "msc": CENTRE_SETTINGS}
        settings |= {"mgw": gateway_settings(GATEWAY), "mscmgw": gateway_settings(CENTRE_GATEWAY)}
        cells = controller_settings(self.cell(number) for number in range(len(CELLS)))
        settings["bsc"] = LOG + OSMO_TERMINAL_SETTINGS + OSMO_LINK + cells + OSMO_SETTINGS
        for number, cell in enumerate(CELLS):
            settings[f"bts{number}"] = station_settings(number, cell.unit, cell.arfcn, room)
        for name, text in settings.items():
            (room / f"{name}.cfg").write_text(text)

    @staticmethod
    def cell(number):
        """The settings of a cell for osmo-bsc."""
        it = CELLS[number]
        rates = {timeslot: "TCH/H" if timeslot in it.halves else "TCH/F" for timeslot in range(1, 8)}
        # another controller's cells have an area of their own, or osmo-bsc would look for them here in a handover
        lac = it.lac if it.controller == SETTING_UP else OTHERS_AREA
        text = cell_settings(number, it.unit, it.arfcn, it.colours, "CCCH", rates, (lac, it.ci), it.controller)
        if it.controller == SETTING_UP:
            # it has telephones of its own, which may go to its other cell, and to the first of all
            others = [f"  neighbor bts {other}\n" for other in OSMO_CELLS if other != number]
            own = "  codec-support fr\n  gprs mode none\n  neighbor lac-ci 23 100 arfcn 60 bsic 9\n"
            text = text.replace("  trx 0\n", own + "".join(others) + "  trx 0\n")
        return text

    def start_centre(self):
        """Starts what is on the centre's side; waits until it is there."""
        self.start("stp", "osmo-stp", "-c", "stp.cfg", settings=self.settings)
        if "hlr" not in self.processes:
            self.start("hlr", "osmo-hlr", "-c", "hlr.cfg", "-l", "hlr.db")
            await_port(REGISTER_TERMINAL)
            self.start_centre_gateway()
            self.start_gateway()
        await_port(5000, TRANSFER)
        self.start_switch()

    def start_gateway(self):
        """Starts the bridges' media gateway, an osmo-mgw of its own."""
        self.start("mgw", "osmo-mgw", "-c", "mgw.cfg")
        await_port(GATEWAY_TERMINAL, GATEWAY)

    def start_centre_gateway(self):
        """Starts the media gateway of osmo-msc and osmo-bsc. One that is there is killed: it would take the questions of an
        osmo-msc that began anew for those of the one before."""
        self.kill("mscmgw")
        self.start("mscmgw", "osmo-mgw", "-c", "mscmgw.cfg")
        await_port(GATEWAY_TERMINAL, CENTRE_GATEWAY)

    def start_switch(self):
        """Starts osmo-msc alone; waits until osmo-stp sends it what is for it."""
        self.start("msc", "osmo-msc", "-c", "msc.cfg", settings=self.settings)
        await_port(CENTRE_TERMINAL)
        end = time.monotonic() + LIMIT
        while "ASP_ACTIVE" not in ask(CENTRE_TERMINAL, "show cs7 instance 0 asp"):
            if time.monotonic() > end:
                raise OSError("osmo-msc isn't active at osmo-stp")
            time.sleep(0.2)

    def start_controller(self):
        """Starts osmo-bsc, which sets stations up."""
        self.start("bsc", "osmo-bsc", "-c", "bsc.cfg", settings=self.settings)
        await_port(3002, SETTING_UP)

    def restart_controller(self):
        """Starts osmo-bsc again, which doesn't hear that the centre began anew; waits until the centre takes it."""
        self.kill("bsc")
        log = self.room / "bsc.log"
        begin, end = log.stat().st_size, time.monotonic() + LIMIT
        self.start_controller()
        while b"RESET ACK from MSC" not in log.read_bytes()[begin:]:
            if time.monotonic() > end:
                raise OSError("osmo-bsc isn't taken by the centre")
            time.sleep(0.2)

    def start_stations(self, numbers=(0, 1)):
        """Starts stations, those of network_site.toml where no others are named."""
        for number in numbers:
            self.start_station(number)

    def stop_stations(self):
        """Ends the stations, as a power cut would."""
        for number in range(len(CELLS)):
            self.kill(f"bts{number}")

    def start_station(self, number):
        """Starts a station."""
        self.start(f"bts{number}", "osmo-bts-virtual", "-c", f"bts{number}.cfg")

    def subscribe(self, imsi, number=None):
        """Makes a subscriber known, perhaps with the number by which he is called."""
        ask(REGISTER_TERMINAL, f"subscriber imsi {imsi} create")
        if number:
            ask(REGISTER_TERMINAL, f"subscriber imsi {imsi} update msisdn {number}")


def await_port(port, address="127.0.0.1", seconds=LIMIT):
    """Waits until something listens there."""
    end = time.monotonic() + seconds
    while True:
        try:
            socket.create_connection((address, port), 1).close()
            return
        except OSError:
            if time.monotonic() > end:
                raise
            time.sleep(0.1)


def ask(port, line, address="127.0.0.1"):
    """What a program answers at its terminal."""
    with socket.create_connection((address, port), 10) as terminal:
        terminal.settimeout(10)
        for text, prompt in (("", b"> "), ("enable\r\n", b"# "), (f"{line}\r\n", b"# ")):
            terminal.sendall(text.encode())
            answer = b""
            while not answer.endswith(prompt):
                if not (piece := terminal.recv(4096)):
                    break
                answer += piece
    return answer.decode(errors="replace")
