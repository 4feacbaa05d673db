"""Speech as it goes over IP (RTP): how it is coded, version 1 at full rate or at half rate, with what each standard calls that;
and where it goes."""
import enum
import socket
import typing

from page import keeps


@keeps()
class Codec(enum.Enum):
    """By the rate of the channel. `version` is that of the channel type and of the speech version (TS 48.008, 3.2.2.11 and
    3.2.2.51), `kind` the codec type in a codec element (3.2.2.103), `channel` the low half of the chosen channel (3.2.2.33).
    `mode` is ip.access's speech mode on Abis, `payload` and `text` are RTP's (TS 48.103, 5.4.2.2)."""

    FULL = (0x01, 0x00, 0x08, 0x00, 3, "GSM")
    HALF = (0x05, 0x01, 0x09, 0x03, 111, "GSM-HR-08")

    def __init__(self, version, kind, channel, mode, payload, text):
        self.version, self.kind, self.channel = version, kind, channel
        self.mode, self.payload, self.text = mode, payload, text

    @property
    def element(self):
        """The codec in a list of codecs: coded so over all of the A interface, by IP (FI)."""
        return 0x80 | self.kind


def codec_of(number):
    """The codec of a channel, by its number on Abis (TS 48.058, 9.3.1)."""
    return Codec.FULL if number & 0xF8 == 0x08 else Codec.HALF


@keeps()
class Address(typing.NamedTuple):
    """Where RTP goes: an address of IP, version 4, in words, and a port."""

    host: str
    port: int

    @classmethod
    def of(cls, octets):
        """The address of six octets: those of IP, and the port."""
        return cls(socket.inet_ntoa(octets[:4]), int.from_bytes(octets[4:6], "big"))

    @property
    def is_somewhere(self):
        """Whether anything can be sent there."""
        return self.port > 0 and self.host != "0.0.0.0"

    def octets(self):
        """It as octets."""
        return socket.inet_aton(self.host) + self.port.to_bytes(2, "big")

    def __str__(self):
        return f"{self.host}:{self.port}"
