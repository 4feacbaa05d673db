"""IPA, by which base stations carry Abis over TCP: frames, and what a station says of itself.

A frame is the length of its message in two octets, the number of its stream in one, and the message. On the link of a TRX
the stream of RSL is the number of the TRX; stream FE is IPA's own.
"""
from page import keeps

# IPA's own stream, and the types of its messages.
OWN = 0xFE
PING = b"\x00"
PONG = b"\x01"
IDENTITY_REQUEST = b"\x04"
IDENTITY = b"\x05"
ACKNOWLEDGEMENT = b"\x06"
# The number of a unit, among what a station may be asked to say of itself.
UNIT = 0x08
ASKED = (UNIT, 0x07, 0x02, 0x03, 0x04, 0x05, 0x01, 0x00)
# More of a unit isn't of use: none that is known is so long.
LONGEST_UNIT = 100


def frame(stream, message):
    """A message in its frame."""
    return len(message).to_bytes(2, "big") + bytes([stream]) + message


def identity_request():
    """What asks a station who it is: each thing that is asked for has a length, 1, in front."""
    return IDENTITY_REQUEST + b"".join(bytes([1, asked]) for asked in ASKED)


def unit_in(identity):
    """The number of the unit that an identity tells, as 6969/0/0; None where it tells none."""
    rest = identity[1:]
    while len(rest) >= 3:
        length = int.from_bytes(rest[:2], "big")
        if length >= 1 and rest[2] == UNIT:
            return rest[3 : 2 + length].split(b"\0")[0][:LONGEST_UNIT].decode("ascii", "replace")
        rest = rest[2 + length :]
    return None


@keeps("octets")
class Frames:
    """The frames of a stream of octets, in whatever pieces these come."""

    def __init__(self):
        self.octets = bytearray()

    def add(self, octets):
        """Adds octets."""
        self.octets += octets

    def length(self):
        """How many octets the first frame has; None where it isn't whole."""
        if len(self.octets) < 3:
            return None
        length = 3 + int.from_bytes(self.octets[:2], "big")
        return length if len(self.octets) >= length else None

    def next(self):
        """Takes out the first frame, as its stream and its message; None where it isn't whole."""
        length = self.length()
        if length is None:
            return None
        stream, message = self.octets[2], bytes(self.octets[3:length])
        del self.octets[:length]
        return stream, message

    def has_whole(self):
        """Whether there is a frame that is whole."""
        return self.length() is not None

    def is_torn(self):
        """Whether a frame has begun that isn't whole."""
        return bool(self.octets) and not self.has_whole()
