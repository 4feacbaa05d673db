"""Of Abis (TS 48.058, 8.3) the messages that carry what a mobile and the network say to one another, on the main link of
SAPI 0, and on that of SAPI 3, which short messages have."""
import typing

import rsl
from rsl import CHANNEL_NUMBER, LAYER_3, LINK_IDENTIFIER, MAIN_LINK, RADIO_LINK

# The service access points of the two links, and the identifier of the second: a traffic channel has it on its slow channel
# (TS 48.058, 9.3.2).
MAIN_SAPI, SHORT_SAPI, SHORT_LINK = 0, 3, 0x43
# The release mode (9.3.20): the station's end alone.
RELEASE_MODE, LOCAL_END = 0x14, 0x01
# The cause of ERROR INDICATION (9.3.22). By these a link goes on: an answer that nobody asked for, a frame that is wrong in
# itself, and SABM where the link is there.
CAUSE, GOES_ON = 0x16, (0x03, 0x04, 0x06, 0x08, 0x09, 0x0A, 0x0B, 0x0C, 0x0D, 0x0E)
# The service access point of each link.
SAPIS = {MAIN_LINK: MAIN_SAPI, SHORT_LINK: SHORT_SAPI}

# How many octets a message of layer 3 may have (TS 44.006, 5.8.5), and one that begins a link (a frame's).
LONGEST, LONGEST_FIRST = 251, 23


class Said(typing.NamedTuple):
    """What a mobile said: the type of the message, the channel's number, the link, and layer 3, which may be empty; or what is
    wrong with the link, by a cause, None where there is none."""

    type: int
    channel: int
    link: int
    layer_3: bytes
    cause: int | None = None


def said_in(message):
    """What a message of the link layer has; None where it is another, or is cut."""
    if len(message) < 6 or message[0] & 0xFE != RADIO_LINK or (message[2], message[4]) != (CHANNEL_NUMBER, LINK_IDENTIFIER):
        return None
    layer_3, cause = b"", None
    if message[6:7] == bytes([CAUSE]) and len(message) > 8 and message[7]:
        cause = message[8]
    if message[6:7] == bytes([LAYER_3]):
        length = int.from_bytes(message[7:9], "big")
        layer_3 = message[9 : 9 + length]
        if len(message) < 9 or len(layer_3) < length:
            return None
    return Said(message[1], message[3], message[5], layer_3, cause)


def data_request(channel, layer_3, link=MAIN_LINK):
    """DATA REQUEST, a message for the mobile on a channel; it is transparent, which the discriminator's lowest bit says."""
    head = bytes([RADIO_LINK | 1, rsl.DATA_REQUEST, CHANNEL_NUMBER, channel, LINK_IDENTIFIER, link, LAYER_3])
    return head + len(layer_3).to_bytes(2, "big") + layer_3


def establish_request(channel, link):
    """ESTABLISH REQUEST: the station is to establish a link on a channel (8.3.3)."""
    return bytes([RADIO_LINK, rsl.ESTABLISH_REQUEST, CHANNEL_NUMBER, channel, LINK_IDENTIFIER, link])


def local_release(channel, link):
    """RELEASE REQUEST of the station's end alone: the mobile isn't told (8.3.9)."""
    head = bytes([RADIO_LINK, rsl.RELEASE_REQUEST, CHANNEL_NUMBER, channel, LINK_IDENTIFIER, link])
    return head + bytes([RELEASE_MODE, LOCAL_END])

