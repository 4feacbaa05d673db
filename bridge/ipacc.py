"""Of Abis the messages of ip.access by which a station is told where it has a channel's speech, as RTP, and says so. They
stand beside RSL (discriminator 7E), in no standard: the octets are those of osmo-bsc and osmo-bts."""
import enum
import typing

from rsl import CAUSE, CAUSES, CHANNEL_NUMBER
from rtp import Address

DISCRIMINATOR = 0x7E
# Elements: where the other side has the speech, and the station; RTP's payload type, the speech mode, and the connection.
REMOTE_HOST, REMOTE_PORT, PAYLOAD, LOCAL_PORT, MODE, LOCAL_HOST, CONNECTION = 0xF0, 0xF1, 0xF2, 0xF3, 0xF4, 0xF5, 0xF8
# How long the values of those are that have no length in front.
FIXED = {
    CHANNEL_NUMBER: 1,
    REMOTE_HOST: 4,
    REMOTE_PORT: 2,
    PAYLOAD: 1,
    LOCAL_PORT: 2,
    MODE: 1,
    LOCAL_HOST: 4,
    CONNECTION: 2,
    0xFC: 1,
}
# The speech mode has the codec in its low half, and in the high one whether the station sends too.
BOTH_WAYS, RECEIVES_ONLY = 0x00, 0x10


class Type(enum.IntEnum):
    """The types of messages."""

    CREATE = 0x70
    CREATED = 0x71
    NOT_CREATED = 0x72
    MODIFY = 0x73
    MODIFIED = 0x74
    NOT_MODIFIED = 0x75
    ENDED = 0x76
    DELETE = 0x77
    DELETED = 0x78
    NOT_DELETED = 0x79


class Said(typing.NamedTuple):
    """What a station said: of which channel, by its number, the connection's number, where it has the speech, and why it
    refuses; None where these don't stand there."""

    type: Type
    channel: int
    connection: bytes | None = None
    local: Address | None = None
    cause: str | None = None


def is_of_speech(message):
    """Whether a message is one of these."""
    return message[:1] == bytes([DISCRIMINATOR])


def said_in(message):
    """What a message says; None where it is cut, or of no known type."""
    if len(message) < 4 or message[1] not in tuple(Type) or message[2] != CHANNEL_NUMBER:
        return None
    found, at = {}, 2
    while at < len(message):
        identifier, at = message[at], at + 1
        length = FIXED.get(identifier)
        if length is None:
            if at == len(message):
                return None
            length, at = message[at], at + 1
        found[identifier] = message[at : at + length]
        at += length
    if at > len(message):
        return None
    local = None
    if LOCAL_HOST in found and LOCAL_PORT in found:
        address = Address.of(found[LOCAL_HOST] + found[LOCAL_PORT])
        local = address if address.is_somewhere else None
    cause = found.get(CAUSE, b"")[:1]
    text = cause and f"{cause[0]:02x} ({CAUSES.get(cause[0], 'no cause of the standard')})"
    return Said(Type(message[1]), message[3], found.get(CONNECTION), local, text or None)


def create(number, codec):
    """Has a station make a connection for a channel, which only receives at first."""
    return about(Type.CREATE, number) + bytes([MODE, RECEIVES_ONLY | codec.mode, PAYLOAD, codec.payload])


def modify(number, connection, codec, remote):
    """Tells it where the other side is; it sends from now on."""
    octets = remote.octets()
    where = bytes([REMOTE_HOST]) + octets[:4] + bytes([REMOTE_PORT]) + octets[4:]
    how = bytes([MODE, BOTH_WAYS | codec.mode, PAYLOAD, codec.payload])
    return about(Type.MODIFY, number) + named(connection) + where + how


def delete(number, connection):
    """Has it end a connection."""
    return about(Type.DELETE, number) + named(connection)


def about(kind, number):
    """The head of a message about a channel."""
    return bytes([DISCRIMINATOR, kind, CHANNEL_NUMBER, number])


def named(connection):
    """A connection's number, as the station gave it."""
    return bytes([CONNECTION]) + connection if connection is not None else b""
