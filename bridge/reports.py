"""What a station's MEASUREMENT RESULT (TS 48.058, 8.4.8) says, as far as operators are told: how it and the mobile hear one another,
and which neighbours the mobile hears (TS 44.018, 10.5.2.20)."""
from __future__ import annotations

import dataclasses

from page import keeps

# Elements (TS 48.058, 9.3): result number, uplink measurements, BS power, L1 information, L3 information. What stands behind the
# identifier of those without a length.
UPLINK, L1, L3, WITHOUT_LENGTH = 0x19, 0x0A, 0x0B, {0x1B: 1, 0x04: 1, 0x0A: 2}
# The timing advance is the second octet of the L1 information (9.3.10), as osmo-bts writes it: a number of bit periods up to this one.
FARTHEST = 63
# MEASUREMENT REPORT (TS 44.018, 9.1.21), and how many octets its results have.
REPORT, RESULTS = b"\x06\x15", 16
# Of the results (behind the message's type, bits from 0 on) the bit that is set where they aren't valid, where the number of
# neighbours stands, of three bits, and the first neighbour; how many bits of each are its level, its place in the list of carriers,
# and its colours; and the number that says that there is none.
NOT_VALID, COUNT, FIRST, LEVEL_BITS, PLACE_BITS, COLOUR_BITS, NONE = 0x40, 23, 26, 6, 5, 6, 7
# A level of 0 is -110 dBm, and each more is one dB more (TS 45.008, 8.1.4).
LOWEST = -110


@keeps()
@dataclasses.dataclass(frozen=True)
class Heard:
    """How one side hears the other: the level, and the quality, 0 the best and 7 the worst (TS 45.008, 8.2.4)."""

    level: int
    quality: int

    def __str__(self):
        return f"{self.level + LOWEST} dBm, quality {self.quality}"


@keeps()
@dataclasses.dataclass(frozen=True)
class Report:
    """A report: how the station hears the mobile, and the mobile the station, where that is told; the neighbours that the mobile
    hears, each by its place in the list of carriers and its colours; and the timing advance, where that is told."""

    up: Heard | None
    down: Heard | None
    neighbours: tuple
    advance: int | None

    def __str__(self):
        up, down = self.up or "not told", self.down or "not told"
        advance = "" if self.advance is None else f"; timing advance {self.advance}"
        return f"station hears {up}; mobile hears {down}{advance}"


def report_in(message):
    """The report of a MEASUREMENT RESULT; what is cut there isn't told."""
    up, down, neighbours, advance, at = None, None, (), None, 4
    while at + 1 < len(message):
        identifier, at = message[at], at + 1
        if identifier in WITHOUT_LENGTH:
            end = at + WITHOUT_LENGTH[identifier]
            if identifier == L1 and end <= len(message) and message[end - 1] <= FARTHEST:
                advance = message[end - 1]
            at = end
            continue
        wide = 2 if identifier == L3 else 1
        begin = at + wide
        at = begin + int.from_bytes(message[at:begin], "big")
        value = message[begin:at]
        if identifier == UPLINK and len(value) >= 3:
            up = Heard(value[0] & 0x3F, value[2] >> 3 & 7)
        elif identifier == L3 and value[:2] == REPORT and len(value) >= 2 + RESULTS:
            down, neighbours = results_in(value[2 : 2 + RESULTS])
    return Report(up, down, neighbours, advance)


def results_in(octets):
    """How the mobile hears its station, where that is valid; and its neighbours."""
    down = None if octets[1] & NOT_VALID else Heard(octets[0] & 0x3F, octets[2] >> 4 & 7)
    bits = "".join(f"{it:08b}" for it in octets)
    count, found, at = int(bits[COUNT:FIRST], 2), [], FIRST
    for _ in range(0 if count == NONE else count):
        place = at + LEVEL_BITS
        colour = place + PLACE_BITS
        at = colour + COLOUR_BITS
        found.append((int(bits[place:colour], 2), int(bits[colour:at], 2)))
    return down, tuple(found)
