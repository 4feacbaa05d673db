"""Of RSL (TS 48.058) what the bridge has to know: what messages and causes are called, which of them are for the controller,
and how those are written that are given or sent in another's place. All else of a message is the controller's business.
"""
import re
import typing

from page import keeps

# Message discriminators (clause 9.1). The lowest bit of the octet says whether the message is transparent.
RADIO_LINK, DEDICATED, COMMON, TRX = 0x02, 0x08, 0x0C, 0x10
# Types of messages (clause 9.2), of the radio link layer, of dedicated channel management, and of TRX management.
DATA_REQUEST, DATA_INDICATION, ERROR_INDICATION, RELEASE_CONFIRM, RELEASE_INDICATION = 0x01, 0x02, 0x03, 0x08, 0x09
ESTABLISH_REQUEST, ESTABLISH_CONFIRM, ESTABLISH_INDICATION, RELEASE_REQUEST = 0x04, 0x05, 0x06, 0x07
ACTIVATION, ACTIVATION_ACK, ACTIVATION_NACK, CONNECTION_FAILURE = 0x21, 0x22, 0x23, 0x24
DEACTIVATE_SACCH, HANDOVER_DETECTION, MEASUREMENT_RESULT = 0x25, 0x27, 0x28
RELEASE, RELEASE_ACK = 0x2E, 0x33
ERROR_REPORT = 0x1C
# The names of what stations send, by discriminator and type.
NAMES = {
    (RADIO_LINK, 0x02): "DATA INDICATION",
    (RADIO_LINK, 0x03): "ERROR INDICATION",
    (RADIO_LINK, 0x05): "ESTABLISH CONFIRM",
    (RADIO_LINK, 0x06): "ESTABLISH INDICATION",
    (RADIO_LINK, 0x08): "RELEASE CONFIRM",
    (RADIO_LINK, 0x09): "RELEASE INDICATION",
    (RADIO_LINK, 0x0B): "UNIT DATA INDICATION",
    (COMMON, 0x12): "CCCH LOAD INDICATION",
    (COMMON, 0x13): "CHANNEL REQUIRED",
    (COMMON, 0x14): "DELETE INDICATION",
    (COMMON, 0x1E): "CBCH LOAD INDICATION",
    (DEDICATED, 0x22): "CHANNEL ACTIVATION ACKNOWLEDGE",
    (DEDICATED, 0x23): "CHANNEL ACTIVATION NEGATIVE ACKNOWLEDGE",
    (DEDICATED, 0x24): "CONNECTION FAILURE INDICATION",
    (DEDICATED, 0x27): "HANDOVER DETECTION",
    (DEDICATED, 0x28): "MEASUREMENT RESULT",
    (DEDICATED, 0x2A): "MODE MODIFY ACKNOWLEDGE",
    (DEDICATED, 0x2B): "MODE MODIFY NEGATIVE ACKNOWLEDGE",
    (DEDICATED, 0x2D): "PHYSICAL CONTEXT CONFIRM",
    (DEDICATED, 0x32): "PREPROCESSED MEASUREMENT RESULT",
    (DEDICATED, 0x33): "RF CHANNEL RELEASE ACKNOWLEDGE",
    (DEDICATED, 0x35): "TALKER DETECTION",
    (DEDICATED, 0x36): "LISTENER DETECTION",
    (TRX, 0x19): "RF RESOURCE INDICATION",
    (TRX, 0x1B): "OVERLOAD",
    (TRX, 0x1C): "ERROR REPORT",
}
# Those for which the controller has a row.
TAKEN = {(RADIO_LINK, DATA_INDICATION)} | {
    (DEDICATED, it)
    for it in (ACTIVATION_ACK, ACTIVATION_NACK, CONNECTION_FAILURE, HANDOVER_DETECTION, MEASUREMENT_RESULT, RELEASE_ACK)
}
# Causes (clause 9.3.26).
CAUSES = {
    0x00: "radio interface failure",
    0x01: "radio link failure",
    0x02: "handover access failure",
    0x03: "talker access failure",
    0x07: "O&M intervention",
    0x0F: "normal event, unspecified",
    0x20: "equipment failure",
    0x21: "radio resource not available",
    0x22: "terrestrial channel failure",
    0x23: "CCCH overload",
    0x24: "ACCH overload",
    0x25: "processor overload",
    0x27: "BTS not equipped",
    0x28: "remote transcoder failure",
    0x29: "notification overflow",
    0x2F: "resource not available, unspecified",
    0x30: "requested transcoding/rate adaption not available",
    0x3F: "service or option not available, unspecified",
    0x40: "encryption algorithm not implemented",
    0x4F: "service or option not implemented, unspecified",
    0x50: "radio channel already activated/allocated",
    0x5F: "invalid message, unspecified",
    0x60: "message discriminator error",
    0x61: "message type error",
    0x62: "message sequence error",
    0x63: "general information element error",
    0x64: "mandatory information element error",
    0x65: "optional information element error",
    0x66: "information element non-existent",
    0x67: "information element length error",
    0x68: "invalid information element contents",
    0x6F: "protocol error, unspecified",
    0x7F: "interworking, unspecified",
}
# The identifiers of elements (clause 9.3): channel number, link identifier, layer 3 information, cause.
CHANNEL_NUMBER, LINK_IDENTIFIER, LAYER_3, CAUSE = 0x01, 0x02, 0x0B, 0x1A
# What a station says that refuses a channel which it doesn't have as the site says.
MANDATORY_ELEMENT = 0x64
# The cause that is said in a station's place: equipment failure.
FAILURE = bytes([CAUSE, 1, 0x20])
# The main signalling link of a channel (clause 9.3.2: FACCH or SDCCH, SAPI 0).
MAIN_LINK = 0x00
# CHANNEL RELEASE (TS 44.018 clauses 9.1.7, 10.4): protocol discriminator and type.
CHANNEL_RELEASE = bytes([0x06, 0x0D])
# How many octets of a message a script line has room for.
LONGEST = 32_000
# A channel in words, as 0/0/3, or 0/0/3/1 for a half of a timeslot.
WORDS = re.compile(r"(\d+)/(\d+)/([0-7])(?:/([01]))?")


@keeps()
class Channel(typing.NamedTuple):
    """A channel of a site: its cell, its TRX, and its channel number (clause 9.3.1), an octet."""

    cell: int
    trx: int
    number: int

    @classmethod
    def of(cls, words):
        """The channel that the controller writes so."""
        if not (found := WORDS.fullmatch(words)):
            raise ValueError(f"no channel: {words}")
        cell, trx, timeslot, half = found.groups()
        kind = 0x08 if half is None else 0x10 | int(half) << 3
        return cls(int(cell), int(trx), kind | int(timeslot))

    def __str__(self):
        half = f"/{self.number >> 3 & 1}" if self.number & 0xF0 == 0x10 else ""
        return f"{self.cell}/{self.trx}/{self.number & 7}{half}"


def kind(message):
    """The discriminator and the type of a message; None where it is shorter."""
    return (message[0] & 0xFE, message[1]) if len(message) >= 2 else None


def is_taken(message):
    """Whether the controller has a row for messages like this one."""
    return kind(message) in TAKEN


def name(message):
    """What a message is called; where it has no name, its first two octets."""
    return NAMES.get(kind(message)) or message[:2].hex() or "empty"


def cause(message):
    """The cause of a message in words, whose first element that is, or the first behind the channel number; '' where it has
    none there."""
    rest = message[4:] if message[2:3] == bytes([CHANNEL_NUMBER]) else message[2:]
    if len(rest) < 3 or rest[0] != CAUSE or not rest[1]:
        return ""
    return f"{rest[2]:02x} ({CAUSES.get(rest[2], 'no cause of the standard')})"


def about_channel(message):
    """The type of a message of dedicated channel management, and the channel number that it names, an octet that stands
    behind the element's identifier; None where it is another message."""
    if len(message) < 4 or message[0] & 0xFE != DEDICATED or message[2] != CHANNEL_NUMBER:
        return None
    return message[1], message[3]


def is_report(message):
    """Whether a message is a channel's MEASUREMENT RESULT."""
    return (about_channel(message) or (None, None))[0] == MEASUREMENT_RESULT


def on_main_link(message):
    """The type of a message of the radio link layer on the main link of a channel, and the channel number; None where it is
    another message."""
    if len(message) < 6 or message[0] & 0xFE != RADIO_LINK:
        return None
    if message[2] != CHANNEL_NUMBER or message[4:6] != bytes([LINK_IDENTIFIER, MAIN_LINK]):
        return None
    return message[1], message[3]


def released_channel(message):
    """The number of the channel whose mobile a message to a station sends away: a DATA REQUEST (clause 8.3.1) with CHANNEL
    RELEASE; None where it is another message."""
    sent = on_main_link(message)
    if sent and sent[0] == DATA_REQUEST and message[6:7] == bytes([LAYER_3]) and message[9:11] == CHANNEL_RELEASE:
        return sent[1]
    return None


def channel_message(message_type, number, elements=b""):
    """A message of dedicated channel management about a channel."""
    return bytes([DEDICATED, message_type, CHANNEL_NUMBER, number]) + elements
