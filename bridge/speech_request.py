"""What ASSIGNMENT REQUEST and HANDOVER REQUEST ask for (TS 48.008, 3.2.1.1 and 3.2.1.8): a channel type, where the centre has
the speech, and how it may be coded."""
import enum
import typing

from bssmap import Cause
from elements import elements_in
from page import keeps
from rtp import Address, codec_of

# Elements: channel type, encryption information, the algorithm in use, transport address, list of codecs.
CHANNEL_TYPE, ENCRYPTION, CHOSEN_ENCRYPTION, ADDRESS, CODECS = 0x0B, 0x0A, 0x2C, 0x7C, 0x7D
# The bits of a channel type (3.2.2.11) that say what it is for.
KIND = 0x0F
# Its rates: a full rate channel alone, a half rate one alone; and those that permit both.
FULL, HALF, EITHER = 0x08, 0x09, (0x0A, 0x0B, 0x0F, 0x1A, 0x1B, 0x1F)
# The versions where none is named: those that every mobile has.
FIRST_VERSIONS = (0x01, 0x05)
# How many octets follow the first one of a codec, by its type (3.2.2.103): sets of configurations, or an extended type.
CONFIGURED = {0x3: 2, 0x4: 2, 0xB: 2, 0x9: 1, 0xC: 1, 0xD: 1, 0xF: 2}


@keeps()
class Kind(enum.IntEnum):
    """What a channel is for (3.2.2.11)."""

    SPEECH = 1
    DATA = 2
    SIGNALLING = 3
    SPEECH_AND_TEXT = 4


class Unserved(Exception):
    """What is asked for isn't to be had, by a cause."""

    def __init__(self, cause):
        super().__init__(cause.name)
        self.cause = cause


@keeps()
class Wanted(typing.NamedTuple):
    """What is asked for: its kind, the rate as it stands there, the versions of speech that are permitted, the codecs that
    are, None where none is named; and where the centre has the speech, None where there is none."""

    kind: Kind
    rate: int
    versions: tuple
    codecs: tuple | None
    address: Address | None


def wanted_by(message):
    """What a request asks for; raises Unserved."""
    elements = elements_in(message)
    if elements is None:
        raise Unserved(Cause.INVALID_CONTENTS)
    kind, rate, versions = channel_type(elements.get(CHANNEL_TYPE))
    if kind == Kind.SIGNALLING:
        return Wanted(kind, rate, (), None, None)
    return Wanted(kind, rate, versions, codecs_in(elements.get(CODECS)), address_in(elements.get(ADDRESS)))


def is_for_speech(octets):
    """Whether a channel type asks for speech."""
    return bool(octets) and octets[0] & KIND == Kind.SPEECH


def channel_type(octets):
    """The kind, the rate and the versions of a channel type."""
    if octets is None:
        raise Unserved(Cause.ELEMENT_MISSING)
    if len(octets) < 2:
        raise Unserved(Cause.INVALID_CONTENTS)
    if octets[0] & KIND not in tuple(Kind):
        raise Unserved(Cause.INCORRECT_VALUE)
    kind = Kind(octets[0] & KIND)
    if kind in (Kind.DATA, Kind.SPEECH_AND_TEXT):
        raise Unserved(Cause.NOT_EQUIPPED)
    versions = []
    for octet in octets[2:]:
        versions.append(octet & 0x7F)
        if not octet & 0x80:
            break
    return kind, octets[1], tuple(versions) or FIRST_VERSIONS


def address_in(octets):
    """Where the centre has the speech. Without that it is on a circuit, which there isn't here."""
    if octets is None:
        raise Unserved(Cause.NO_SUCH_INTERFACE)
    if len(octets) == 18:
        # an address of IP, version 6
        raise Unserved(Cause.NO_TERRESTRIAL_RESOURCE)
    if len(octets) != 6:
        raise Unserved(Cause.INVALID_CONTENTS)
    address = Address.of(octets)
    if not address.is_somewhere:
        raise Unserved(Cause.INCORRECT_VALUE)
    return address


def codecs_in(octets):
    """The first octets of the codecs of a list; None where there is no list."""
    if octets is None:
        return None
    found, at = [], 0
    while at < len(octets):
        found.append(octets[at])
        at += 1 + CONFIGURED.get(octets[at] & 0x0F, 0)
    if at > len(octets):
        raise Unserved(Cause.INVALID_CONTENTS)
    return tuple(found)


def codec_on(wanted, number):
    """The codec for what is asked for on a channel, by its number; raises Unserved where that isn't permitted there. A rate
    that we don't know asks for a full rate channel (docs/DECISIONS.md)."""
    codec = codec_of(number)
    is_full = number & 0xF8 == 0x08
    if wanted.rate == HALF and is_full or not is_full and wanted.rate not in (HALF, *EITHER):
        raise Unserved(Cause.NO_RADIO_RESOURCE)
    if codec.version not in wanted.versions:
        raise Unserved(Cause.NO_SUCH_VERSION)
    if wanted.codecs is not None and all(it & 0x8F != codec.element for it in wanted.codecs):
        raise Unserved(Cause.NO_SUCH_CODEC)
    return codec
