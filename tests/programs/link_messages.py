"""The messages that a channel and its station exchange, as lines of a controller with its links have them (TS 48.058), and
the site that is played: that of tests/two_cells.
"""
import re
from pathlib import Path

SITE = Path(__file__).resolve().parents[1] / "two_cells" / "site.toml"
# Its traffic channels, and its TRX.
CHANNELS = ("0/0/2", "0/0/3", "1/1/3")
TRX = ("0 0", "1 0", "1 1")
# What the page names, by a message's discriminator without its bit 1, and its type (clauses 9.1 and 9.2).
NAMES = {
    (2, 0x02): "DATA INDICATION",
    (2, 0x06): "ESTABLISH INDICATION",
    (2, 0x09): "RELEASE INDICATION",
    (8, 0x22): "ACTIVATION ACK",
    (8, 0x23): "ACTIVATION NACK",
    (8, 0x24): "CONNECTION FAILURE",
    (8, 0x27): "HANDOVER DETECTION",
    (8, 0x28): "MEASUREMENT RESULT",
    (8, 0x33): "RELEASE ACK",
}
# What a mobile says in a DATA INDICATION on link 0 (TS 44.018 clause 10.4).
SAID = {0x2C: "HANDOVER COMPLETE", 0x28: "HANDOVER FAILURE"}
# Of an element the octets of its value; of one that isn't here the first octet says how many follow (docs/CODECS.md).
FORMS = {**dict.fromkeys((0x01, 0x02, 0x03, 0x04, 0x09, 0x0D, 0x11, 0x18, 0x1B, 0x25), 1), 0x08: 2, 0x0A: 2}
LAYER_3 = 0x0B


def place(channel):
    """A channel as lines name it."""
    return channel.replace("/", " ")


def trx_of(channel):
    return place(channel.rsplit("/", 1)[0])


def channel_at(trx, octet):
    """The channel of a TRX that a channel number of full rate names (clause 9.3.1); nothing for any other type."""
    return f"{trx.replace(' ', '/')}/{octet & 7}" if octet >> 3 == 1 else None


def about(head, channel, elements=""):
    """Octets about a channel: a head of two octets, the channel number, and further elements."""
    return f"{head}010{8 + int(channel[-1]):x}{elements}"


def of_station(head, channel, elements=""):
    """The line by which a message about a channel comes."""
    return f"abis {trx_of(channel)} {about(head, channel, elements)}"


def of_mobile(channel, layer3, link="00"):
    """The line by which what a mobile says comes, on this link."""
    return of_station("0302", channel, f"02{link}0b{len(layer3) // 2:04x}{layer3}")


def acknowledged(channel):
    return of_station("0822", channel, "080000")


def refused(channel):
    return of_station("0823", channel, "1a0120")


def unreadable_ack(channel):
    """An acknowledgement without its frame number."""
    return of_station("0822", channel)


def unreadable_nack(channel):
    """A refusal without its cause."""
    return of_station("0823", channel)


def failed(channel):
    return of_station("0824", channel, "1a0101")


def detected(channel):
    return of_station("0827", channel, "1100")


def measured(channel, neighbour="00000000"):
    """A report of a mobile that hears its cell at level 30, and perhaps a neighbour (TS 44.018 clause 10.5.2.20)."""
    return of_station("0828", channel, f"1b001903001e0004000b001206151e1e{neighbour}{'00' * 10}")


def released(channel):
    return of_station("0833", channel)


def established(channel):
    return of_station("0206", channel, "02000b000105")


def left(channel, link="00"):
    """The mobile has left a link."""
    return of_station("0209", channel, f"02{link}")


def completed(channel):
    return of_mobile(channel, "062c00")


def returned(channel):
    return of_mobile(channel, "062800")


def spoken(channel):
    """The mobile says what no row of a channel is about."""
    return of_mobile(channel, "0511")


# In a station's place (causes: clause 9.3.26).
IN_PLACE = {
    "for NACK": lambda channel: f"for {of_station('0823', channel, '1a0120')}",
    "for RELEASE ACK": lambda channel: f"for {of_station('0833', channel)}",
    "for FAILURE": lambda channel: f"for {of_station('0824', channel, '1a0120')}",
}


def elements_of(octets):
    """The values of elements, by identifier: of two the first; nothing if one is cut."""
    found = {}
    while octets:
        identifier, *octets = octets
        size = FORMS.get(identifier)
        if size is None:
            counted = 2 if identifier == LAYER_3 else 1
            if len(octets) < counted:
                return None
            size, octets = int.from_bytes(octets[:counted], "big"), octets[counted:]
        if len(octets) < size:
            return None
        found.setdefault(identifier, bytes(octets[:size]))
        octets = octets[size:]
    return found


def heard(octets):
    """What a message says to the rows of a channel, and its channel number. Nothing if it is no message, or names no channel. The
    name is '' if no row has it."""
    if len(octets) < 2 or octets[0] & 0xFE not in (2, 8):
        return None
    found = elements_of(octets[2:])
    if found is None or 1 not in found:
        return None
    name, number = NAMES.get((octets[0] & 0xFE, octets[1]), ""), found[1][0]
    is_main = found.get(2, b"\xff")[0] & 0xE7 == 0
    layer3 = found.get(LAYER_3, b"")
    if name == "DATA INDICATION" and is_main and layer3[:1] == b"\x06" and len(layer3) > 1:
        name = SAID.get(layer3[1], name)
    if name == "RELEASE INDICATION" and not is_main:
        name = ""
    return name, number


# What a controller or its links say to a station, by the first octets.
KINDS = {"0821": "ACT", "082e": "REL", "0825": "DEACTIVATE SACCH", "0301": "DATA REQUEST"}


def sent(line):
    """Of a line `out abis ..` or `said abis ..`: what it is, and on which channel."""
    _, _, cell, trx, octets = line.split(" ")
    kind, channel = KINDS.get(octets[:4], ""), channel_at(f"{cell} {trx}", int(octets[6:8], 16))
    is_release = kind == "DATA REQUEST" and re.search("^.{12}0b....060d", octets)
    return "RELEASE MOBILE" if is_release else kind, channel
