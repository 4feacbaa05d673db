"""Of BSSMAP and DTAP (TS 48.008, TS 48.006) what the bridge itself says, or has to tell apart; all else is the
controller's.

A message of BSSMAP is 00, its length and its octets, of which the first is its type. One of DTAP, between mobile and
centre, is 01, the data link (DLCI), its length and its octets.
"""
import enum

from page import keeps


@keeps()
class Type(enum.IntEnum):
    """The types of messages that are told apart (TS 48.008, 3.2.2.1)."""

    ASSIGNMENT_REQUEST = 0x01
    ASSIGNMENT_COMPLETE = 0x02
    ASSIGNMENT_FAILURE = 0x03
    HANDOVER_REQUEST = 0x10
    HANDOVER_REQUIRED = 0x11
    HANDOVER_REQUEST_ACKNOWLEDGE = 0x12
    HANDOVER_COMMAND = 0x13
    HANDOVER_SUCCEEDED = 0x15
    HANDOVER_FAILURE = 0x16
    HANDOVER_REQUIRED_REJECT = 0x1A
    CLEAR_COMMAND = 0x20
    CLEAR_COMPLETE = 0x21
    CLEAR_REQUEST = 0x22
    SAPI_N_REJECT = 0x25
    COMMON_ID = 0x2F
    RESET = 0x30
    RESET_ACKNOWLEDGE = 0x31
    PAGING = 0x52
    CIPHER_MODE_COMMAND = 0x53
    CLASSMARK_UPDATE = 0x54
    CIPHER_MODE_COMPLETE = 0x55
    COMPLETE_LAYER_3 = 0x57
    CLASSMARK_REQUEST = 0x58
    CIPHER_MODE_REJECT = 0x59


@keeps()
class Cause(enum.IntEnum):
    """Causes (TS 48.008, 3.2.2.5)."""

    RADIO_MESSAGE_FAILURE = 0x00
    RADIO_INTERFACE_FAILURE = 0x01
    OPERATOR = 0x07
    CALL_CONTROL = 0x09
    EQUIPMENT_FAILURE = 0x20
    NO_RADIO_RESOURCE = 0x21
    NO_TERRESTRIAL_RESOURCE = 0x22
    PROCESSOR_OVERLOAD = 0x24
    NOT_EQUIPPED = 0x25
    MOBILE_NOT_EQUIPPED = 0x26
    NO_SUCH_VERSION = 0x33
    NO_SUCH_CODEC = 0x35
    NO_SUCH_INTERFACE = 0x36
    NO_SUCH_CIPHER = 0x40
    INVALID_CONTENTS = 0x51
    ELEMENT_MISSING = 0x52
    INCORRECT_VALUE = 0x53
    PROTOCOL_ERROR = 0x60


# Elements (3.2.2): cause, cell identifier, layer 3 information, DLCI, classmarks of types 2 and 3.
CAUSE, CELL, LAYER_3, DLCI, CLASSMARK_2, CLASSMARK_3 = 0x04, 0x05, 0x17, 0x18, 0x12, 0x13
# And of speech (AoIP): the speech version, the address of RTP, a list of codecs, and the chosen codec.
SPEECH_VERSION, ADDRESS, CODECS, CODEC = 0x40, 0x7C, 0x7D, 0x7E
# The chosen channel (3.2.2.33), with what it is for in its upper half; and the chosen encryption algorithm: none (3.2.2.44).
CHOSEN_CHANNEL, FOR_SIGNALLING, FOR_SPEECH = 0x21, 0x80, 0x90
NOT_CIPHERED = b"\x2c\x01"
# A cell identifier with the whole cell global identification (3.2.2.17).
WHOLE_CELL = 0x00
# Layer 3's protocol discriminator of radio resources, and of its messages CLASSMARK CHANGE (TS 44.018, 9.1.11) and the whole of
# CLASSMARK ENQUIRY (9.1.12).
RADIO_RESOURCES, CLASSMARK_CHANGE, CLASSMARK_ENQUIRY = 0x06, 0x16, b"\x06\x13"
# The centre's messages of which nothing comes: whose call it is, what its mobile is able to do, and that the mobile has
# arrived at the other controller.
TOLD = (Type.COMMON_ID, Type.CLASSMARK_UPDATE, Type.HANDOVER_SUCCEEDED)
# The centre's answers to a HANDOVER REQUIRED.
ANSWERS = (Type.HANDOVER_COMMAND, Type.HANDOVER_REQUIRED_REJECT)


def message(kind, *elements):
    """A message of BSSMAP."""
    body = bytes([kind]) + b"".join(elements)
    return bytes([0x00, len(body)]) + body


def element(identifier, value):
    """An element with its length."""
    return bytes([identifier, len(value)]) + value


def cause(value):
    """A cause."""
    return element(CAUSE, bytes([value]))


def reset():
    """RESET, which each side says when it begins anew (3.2.1.23)."""
    return message(Type.RESET, cause(Cause.EQUIPMENT_FAILURE))


def clear_command(value):
    """CLEAR COMMAND (3.2.1.21), in the centre's place."""
    return message(Type.CLEAR_COMMAND, cause(value))


def clear_request(value):
    """CLEAR REQUEST (3.2.1.20), in the controller's place."""
    return message(Type.CLEAR_REQUEST, cause(value))


def complete_layer_3(plmn, cell, layer_3, codec):
    """COMPLETE LAYER 3 INFORMATION (3.2.1.32): a mobile's first message, the cell where it came, and the codec that there is
    on its channel."""
    place = plmn + cell.lac.to_bytes(2, "big") + cell.ci.to_bytes(2, "big")
    parts = element(CELL, bytes([WHOLE_CELL]) + place), element(LAYER_3, layer_3)
    return message(Type.COMPLETE_LAYER_3, *parts, element(CODECS, bytes([codec.element])))


def chosen_channel(what_for, channel):
    """The chosen channel: what it is for, and its rate."""
    return bytes([CHOSEN_CHANNEL, what_for | channel])


def handover_failure(value):
    """HANDOVER FAILURE (3.2.1.16), in the controller's place."""
    return message(Type.HANDOVER_FAILURE, cause(value))


def dtap(layer_3, sapi):
    """DTAP of a link, by its service access point (TS 48.006, 9.3.2)."""
    return bytes([0x01, sapi, len(layer_3)]) + layer_3


def classmark_update(change):
    """CLASSMARK UPDATE (3.2.1.29) with what a CLASSMARK CHANGE says; None where that is cut."""
    end = 3 + change[2] if len(change) > 2 else 0
    if not 3 < end <= len(change):
        return None
    parts = [element(CLASSMARK_2, change[3:end])]
    if change[end : end + 1] == b"\x20" and len(change) > end + 1 and len(change) >= end + 2 + change[end + 1]:
        parts.append(element(CLASSMARK_3, change[end + 2 : end + 2 + change[end + 1]]))
    return message(Type.CLASSMARK_UPDATE, *parts)


def kind_of(octets):
    """The type of a message of BSSMAP, a number; None where it is none that is whole."""
    if len(octets) < 3 or octets[0] != 0x00 or octets[1] != len(octets) - 2:
        return None
    return octets[2]


def dtap_in(octets):
    """The data link and the layer 3 message of DTAP; None where it is none that is whole."""
    if len(octets) < 4 or octets[0] != 0x01 or octets[2] != len(octets) - 3:
        return None
    return octets[1], octets[3:]


def sapi_reject(link, value):
    """SAPI "N" REJECT (3.2.1.34): a message on another link than that of SAPI 0 didn't go."""
    return message(Type.SAPI_N_REJECT, bytes([DLCI, link]), cause(value))
