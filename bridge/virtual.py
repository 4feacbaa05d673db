"""Two base stations of Osmocom on a virtual air, and a mobile for it.

osmo-bts-virtual has its radio as multicast of GSMTAP on loopback: it hears 239.193.23.2 and is heard on 239.193.23.1. It
begins only where a base station controller sets it up (OML), which osmo-bsc does here, and nothing else: the address that it
names for RSL is the bridge's.
"""
import time
import typing

from osmocom import Programs, Radio, cell_settings, controller_settings, station_settings

# The carrier and the colour code of each cell, as in demo.toml; the units are 6969 and 6970.
CELLS = ((60, 9), (871, 21))
# Channels of GSMTAP: the fast one of a timeslot, and of a half of one; with this beside it, the slow one.
FULL, HALF, SLOW = 0x09, 0x0A, 0x80
# The timeslot of each cell that carries two halves.
HALVES = 7
# Octets that fill a frame of layer 2, and how many it has.
FILL, FRAME = b"\x2b", 23


class Slot(typing.NamedTuple):
    """A timeslot, or a half of one."""

    timeslot: int
    half: int = None

    def __str__(self):
        return f"{self.timeslot}" if self.half is None else f"{self.timeslot}/{self.half}"

    def number(self):
        """Its channel number (TS 48.058 clause 9.3.1)."""
        return self.timeslot | (0x08 if self.half is None else 0x10 | self.half << 3)


def cell_of(cell):
    """The settings of a cell for osmo-bsc."""
    rates = {number: "TCH/H" if number == HALVES else "TCH/F" for number in range(1, 8)}
    return cell_settings(cell, 6969 + cell, *CELLS[cell], "CCCH+SDCCH4", rates)


class Osmocom(Programs):
    """osmo-bsc, and the stations."""

    def __init__(self, room):
        super().__init__(room)
        (room / "bsc.cfg").write_text(controller_settings(cell_of(cell) for cell in range(len(CELLS))))
        self.start("bsc", "osmo-bsc", "-c", room / "bsc.cfg", "-s")
        time.sleep(1.5)
        for cell in range(len(CELLS)):
            (room / f"bts{cell}.cfg").write_text(station_settings(cell, 6969 + cell, CELLS[cell][0], room))
            self.start_station(cell)

    def start_station(self, cell):
        """Starts a station."""
        self.start(f"bts{cell}", "osmo-bts-virtual", "-c", self.room / f"bts{cell}.cfg")

    def kill_station(self, cell):
        """Kills a station, as a power cut would."""
        self.kill(f"bts{cell}")


class Mobile(Radio):
    """A mobile on the virtual air, as far as layer 2: it makes itself known, and sends messages and reports."""

    reports = number = 0

    def number_on(self, _arfcn):
        """The number of a frame: what is sent has that of the last report."""
        return self.number

    def send(self, cell, slot, layer2, slow=0):
        """Sends a frame on the fast channel of a slot of a cell, or on the slow one."""
        channel = (FULL if slot.half is None else HALF) | slow
        self.put(CELLS[cell][0], slot.timeslot, channel, layer2.ljust(FRAME, FILL), slot.half or 0)

    def call_in(self, cell, slot):
        """Makes itself known on a channel: SABM, without a message."""
        self.send(cell, slot, b"\x01\x3f\x01")

    def leave(self, cell, slot):
        """Ends its link on a channel: DISC."""
        self.send(cell, slot, b"\x01\x53\x01")

    def say(self, cell, slot, message, received=0):
        """Sends a message of the radio path in an I frame, the first; so many were received."""
        self.send(cell, slot, bytes([0x01, received << 5, len(message) << 2 | 1]) + message)

    def report(self, cell, slot, report):
        """Sends a measurement report on the slow channel, at a time when that is sent."""
        self.reports += 1
        self.number = 104 * (5000 + 2 * self.reports) + 51
        self.send(cell, slot, bytes([0x05, 0x00, 0x01, 0x03, len(report) << 2 | 1]) + report, SLOW)

    def heard(self, cell, slot, message, seconds=10.0):
        """Whether a message of the radio path comes on a slot of a cell."""
        place = (CELLS[cell][0], slot.timeslot, slot.half or 0)

        def take(frame):
            return True if (frame.arfcn, frame.timeslot, frame.half) == place and message in frame.octets else None

        return bool(self.hear(take, seconds))
