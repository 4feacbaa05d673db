"""A mobile asks for a channel (TS 44.018, 3.3.1): the messages of that on Abis (TS 48.058) and on the air."""
import dataclasses
import enum
import itertools

from page import keeps
from rsl import CHANNEL_NUMBER, COMMON, kind

# Common channel management, by type (TS 48.058, 8.5).
CHANNEL_REQUIRED, IMMEDIATE_ASSIGN = 0x13, 0x16
# Elements (9.3): request reference, access delay, timing advance, immediate assignment.
REFERENCE, ACCESS_DELAY, TIMING_ADVANCE, ASSIGNMENT = 0x13, 0x11, 0x18, 0x2B
# The channel numbers of the channel that mobiles ask on, and of that on which they are answered (9.3.1).
RACH, ANSWERS = 0x88, 0x90
# The largest timing advance (TS 44.018, 10.5.2.40).
FARTHEST = 63
# Of IMMEDIATE ASSIGNMENT and its REJECT (TS 44.018, 9.1.18 and 9.1.20) the discriminator and the type, page mode 'same as
# before' (10.5.2.26) with a dedicated channel, what fills the rest of a frame, and how long that is; and how many requests a
# REJECT has.
ASSIGNED, REJECTED, SAME_AS_BEFORE, FILL, FRAME, MOST_REJECTED = b"\x06\x3f", b"\x06\x3a", b"\x03", b"\x2b", 23, 4


class Cause(enum.Enum):
    """Why a mobile asks (TS 44.018, table 9.1.8.1), whether half a channel will do where NECI is 1, and whether it is
    answered: the reserved values may be ignored, and there are no channels for packets."""

    EMERGENCY = ("an emergency call", False, True)
    RE_ESTABLISHMENT = ("re-establishment", False, True)
    RE_ESTABLISHMENT_HALF = ("re-establishment of half a channel", True, True)
    PAGED = ("an answer to paging", False, True)
    PAGED_EITHER = ("an answer to paging for any rate", True, True)
    CALL = ("a call", False, True)
    CALL_HALF = ("a call for which half a channel will do", True, True)
    LOCATION = ("a location update", False, True)
    OTHER = ("another procedure", False, True)
    PACKETS = ("packets", False, False)
    UNKNOWN = ("a reserved cause", False, False)

    def __init__(self, text, takes_half, is_answered):
        self.text, self.takes_half, self.is_answered = text, takes_half, is_answered

    def __str__(self):
        return self.text


# The causes by the bits that a request begins with; the first that fits. The other bits are random. A mobile that answers
# paging says more only where it has both rates (table 9.1.8.2).
BEGINNINGS = (
    ("101", Cause.EMERGENCY),
    ("110", Cause.RE_ESTABLISHMENT),
    ("01101", Cause.RE_ESTABLISHMENT_HALF),
    ("100", Cause.PAGED),
    ("0010", Cause.PAGED),
    ("0011", Cause.PAGED_EITHER),
    ("111", Cause.CALL),
    ("010", Cause.CALL_HALF),
    ("0000", Cause.LOCATION),
    ("0001", Cause.OTHER),
    ("01111111", Cause.UNKNOWN),
    ("01111", Cause.PACKETS),
    ("01110", Cause.PACKETS),
)


@keeps()
@dataclasses.dataclass(frozen=True)
class Request:
    """CHANNEL REQUIRED: the request reference, which is the mobile's octet and the time, and the delay of its burst."""

    reference: bytes
    delay: int

    @property
    def cause(self):
        """Why the mobile asks."""
        bits = f"{self.reference[0]:08b}"
        return next((cause for beginning, cause in BEGINNINGS if bits.startswith(beginning)), Cause.UNKNOWN)


def is_required(message):
    """Whether a message is CHANNEL REQUIRED."""
    return kind(message) == (COMMON, CHANNEL_REQUIRED)


def request_in(message):
    """The request of a CHANNEL REQUIRED (TS 48.058, 8.5.3); None where an element is missing, or another stands there. More
    may follow behind the delay."""
    if len(message) < 10 or (message[2], message[4], message[8]) != (CHANNEL_NUMBER, REFERENCE, ACCESS_DELAY):
        return None
    return Request(message[5:8], message[9])


def on_answers(octets):
    """IMMEDIATE ASSIGN COMMAND (TS 48.058, 8.5.6) with a frame for the channel on which mobiles are answered."""
    frame = octets.ljust(FRAME, FILL)
    return bytes([COMMON, IMMEDIATE_ASSIGN, CHANNEL_NUMBER, ANSWERS, ASSIGNMENT, len(frame)]) + frame


def described(channel, arfcn, training):
    """The Channel Description of a channel that doesn't hop (TS 44.018, 10.5.2.5): its number as on Abis, the training
    sequence, and the carrier."""
    return bytes([channel.number, training << 5 | arfcn >> 8, arfcn & 0xFF])


def assignment(request, description):
    """IMMEDIATE ASSIGNMENT (TS 44.018, 9.1.18) of a channel that doesn't hop, by its description."""
    body = ASSIGNED + SAME_AS_BEFORE + description + request.reference + bytes([request.delay, 0])
    return on_answers(bytes([len(body) << 2 | 1]) + body)


def rejection(requests, wait):
    """IMMEDIATE ASSIGNMENT REJECT (9.1.20) of one to four requests: their mobiles ask no more for so many seconds (T3122). Where
    there are fewer than four, they stand again, the first ones first (9.1.20.3)."""
    references = itertools.islice(itertools.cycle(it.reference for it in requests), MOST_REJECTED)
    body = REJECTED + SAME_AS_BEFORE + b"".join(it + bytes([wait]) for it in references)
    return on_answers(bytes([len(body) << 2 | 1]) + body)


def with_advance(activation, advance):
    """CHANNEL ACTIVATION with a timing advance (TS 48.058, 8.4.1), which stands behind all that the controller writes."""
    return activation + bytes([TIMING_ADVANCE, advance])
