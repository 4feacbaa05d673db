"""System information (TS 44.018, 9.1.31 to 9.1.40): what a cell's mobiles are told on its broadcast channel, by BCCH
INFORMATION, and on the slow channel of each call, by SACCH FILLING (TS 48.058, 8.5.1 and 8.6.2)."""

from barring import EMERGENCY
from page import keeps
from rsl import CHANNEL_NUMBER, COMMON, LAYER_3, TRX

# On Abis: types, elements, and the channel number of the broadcast channel.
BROADCAST, FILLING, KIND, FULL, BCCH = 0x11, 0x1A, 0x1E, 0x27, 0x80
# On the air: types, behind the discriminator 06.
TYPES = {1: 0x19, 2: 0x1A, 3: 0x1B, 4: 0x1C, 5: 0x1D, 6: 0x1E}
FILL, FRAME = b"\x2b", 23
# Those from this one on go on the slow channels.
FIRST_SLOW = 5
# All networks' colours are permitted (10.5.2.27).
ALL_COLOURS = b"\xff"
# Cell options (10.5.2.3): no power control, mobiles don't stop sending in silence, radio link timeout of 32 frames.
OPTIONS = b"\x27"
# Cell selection (10.5.2.4): a hysteresis of 4 dB, in steps of 2 dB, in front of the largest power; no more is asked of a
# mobile's receiving.
HYSTERESIS, NECI_BIT = 2 << 5, 0x40
# Random access (10.5.2.29): 7 repetitions, spread over 12 slots, the cell isn't barred, calls aren't re-established. Two octets
# with a bit for each class that is barred stand behind that.
RANDOM_ACCESS = 0xE5


class DoesNotFit(Exception):
    """Carriers that no format has which is written here."""


def bitmap(arfcns):
    """A list of carriers of GSM 900 in the format bitmap 0 (10.5.2.13.2): bit N - 1 from the end is carrier N."""
    if not all(1 <= it <= 124 for it in arfcns):
        raise DoesNotFit
    return sum(1 << it - 1 for it in set(arfcns)).to_bytes(16, "big")


def variable_bitmap(arfcns):
    """A list of carriers in the format variable bitmap (10.5.2.13.7): one of them, and whether it is there of each of the
    111 that follow it, modulo 1024."""
    for origin in sorted(set(arfcns)):
        places = [(it - origin) % 1024 for it in set(arfcns)]
        if max(places) <= 111:
            bits = sum(1 << 111 - it for it in places if it)
            # the format's mark is 10 and 111, between which stand EXT-IND and BA-IND; 10 bits of the origin follow
            return (0b1000_111 << 121 | origin << 111 | bits).to_bytes(16, "big")
    raise DoesNotFit


def carriers(arfcns, band):
    """A list of carriers, in the format of the band; an empty one fits each."""
    return bitmap(arfcns) if band == 900 or not arfcns else variable_bitmap(arfcns)


@keeps("barred", wired=("plmn", "broadcast"))
class Information:
    """The system information of a network."""

    def __init__(self, plmn, broadcast):
        self.plmn, self.broadcast = plmn, broadcast
        # the access classes that are barred, and emergency calls under their bit (barring.py)
        self.barred = self.barred_by(broadcast)

    @staticmethod
    def barred_by(broadcast):
        """What CONFIG bars."""
        return frozenset(broadcast.barred) | (frozenset() if broadcast.emergency else {EMERGENCY})

    def common_channels(self):
        """Control Channel Description (10.5.2.11): a centre of release 99, IMSI attach and detach."""
        it = self.broadcast
        return bytes([0b11 << 6 | it.blocks << 3 | it.common, it.multiframes - 2, it.t3212])

    def selection(self):
        """Cell Selection Parameters (10.5.2.4)."""
        return bytes([HYSTERESIS | self.broadcast.power, NECI_BIT if self.broadcast.neci else 0])

    def access(self):
        """RACH Control Parameters (10.5.2.29)."""
        return bytes([RANDOM_ACCESS]) + sum(1 << it for it in self.barred).to_bytes(2, "big")

    def place(self, cell):
        """The location area identification of a cell (10.5.1.3)."""
        return self.plmn + cell.lac.to_bytes(2, "big")

    def bodies(self, cell):
        """What each type says of a cell, up to its rest octets."""
        band, place, identity = self.broadcast.band, self.place(cell), cell.ci.to_bytes(2, "big")
        neighbours = carriers(cell.neighbours, band)
        yield 1, carriers(cell.carriers, band) + self.access()
        yield 2, neighbours + ALL_COLOURS + self.access()
        yield 3, identity + place + self.common_channels() + OPTIONS + self.selection() + self.access()
        yield 4, place + self.selection() + self.access()
        yield 5, neighbours
        yield 6, identity + place + OPTIONS + ALL_COLOURS

    def messages(self, cell, trx):
        """What a TRX is sent: the first has the broadcast channel, and each the slow channels of its calls."""
        if trx == 0:
            yield from self.broadcast_messages(cell)
        yield from self.slow_messages(cell)

    def broadcast_messages(self, cell):
        """What is told on the broadcast channel, which has all that is barred."""
        for number, octets in self.octets(cell):
            if number < FIRST_SLOW:
                yield bytes([COMMON, BROADCAST, CHANNEL_NUMBER, BCCH, KIND, number, FULL, FRAME]) + octets.ljust(FRAME, FILL)

    def slow_messages(self, cell):
        """What is told on the slow channels."""
        for number, octets in self.octets(cell):
            if number >= FIRST_SLOW:
                # the rest of type 6 has an octet, that of type 5 none
                octets += FILL * (number - FIRST_SLOW)
                yield bytes([TRX, FILLING, KIND, number, LAYER_3]) + len(octets).to_bytes(2, "big") + octets

    def octets(self, cell):
        """Each type with its octets up to the rest, in front of which the pseudo length (10.5.2.19) counts them."""
        for number, body in self.bodies(cell):
            octets = bytes([0x06, TYPES[number]]) + body
            yield number, bytes([len(octets) << 2 | 1]) + octets


def faults(cells, band):
    """A line for each list of the site that fits no format, with its key."""
    for cell in cells:
        for key, arfcns in (("ba", cell.neighbours), ("trx", cell.carriers)):
            try:
                carriers(arfcns, band)
            except DoesNotFit:
                allowed = "carriers that lie within 112 of one another are allowed"
                yield f"cell {cell.number}.{key}: {allowed}, not {sorted(arfcns)}"
