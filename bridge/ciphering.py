"""Ciphering (TS 48.008, 3.1.14), of which there is none here: a centre that permits a call in clear (A5/0) gets it, any other
is refused."""
import bssmap
from bssmap import Cause, Type
from elements import elements_in
from sccp import LONGEST_DATA

# Elements: encryption information, the answer that the mobile is to give, what it answered, the algorithm in use.
ENCRYPTION, RESPONSE_MODE, CONTENTS, CHOSEN = 0x0A, 0x23, 0x20, 0x2C
# The bit of the permitted algorithms that is for none (3.2.2.10), and no encryption as the chosen algorithm (3.2.2.44).
IN_CLEAR, NONE = 0x01, 0x01
# Of the radio path (TS 44.018, 9.1.9 and 9.1.10) CIPHERING MODE COMMAND, whose octet says 'no ciphering', and in its upper half
# whether the mobile is to tell its IMEISV; and the type of CIPHERING MODE COMPLETE.
COMMAND, WITH_IMEISV, COMPLETE = b"\x06\x35", 0x10, 0x32
# How long the mobile's message may be: beside it CIPHER MODE COMPLETE has seven octets, with its discriminator and its length.
LONGEST_CONTENTS = LONGEST_DATA - 7


class Ciphering:
    """How all calls are ciphered. `relay` has the centre and the air."""

    def __init__(self, relay):
        self.relay = relay

    def commanded(self, call, message):
        """CIPHER MODE COMMAND came."""
        if call.is_over or call.is_clearing:
            self.relay.count("CIPHER MODE COMMAND for a call that is over")
            return
        elements = elements_in(message)
        if elements is None:
            self.reject(call, Cause.INVALID_CONTENTS)
        elif ENCRYPTION not in elements:
            self.reject(call, Cause.ELEMENT_MISSING)
        elif not permits_clear(elements[ENCRYPTION]):
            self.reject(call, Cause.NO_SUCH_CIPHER)
        else:
            is_asked = elements.get(RESPONSE_MODE, b"\0")[0] & 0x01
            call.is_ciphering = True
            self.relay.air.tell(call, COMMAND + bytes([WITH_IMEISV if is_asked else 0]))

    def reject(self, call, cause):
        """Says CIPHER MODE REJECT (3.2.1.48)."""
        self.relay.a_side.send(call, bssmap.message(Type.CIPHER_MODE_REJECT, bssmap.cause(cause)))

    def completed(self, station, call, layer_3):
        """CIPHERING MODE COMPLETE came. Where more stands in it, as the IMEISV, all of it is passed on (3.2.1.31), as osmo-bsc does
        and osmo-msc reads it; what a message to the centre has no room for is left out."""
        if call is None or not call.is_ciphering:
            station.pass_over("CIPHERING MODE COMPLETE that isn't awaited")
            return
        call.is_ciphering = False
        contents = [bssmap.element(CONTENTS, layer_3)] if 2 < len(layer_3) <= LONGEST_CONTENTS else []
        self.relay.a_side.send(call, bssmap.message(Type.CIPHER_MODE_COMPLETE, *contents, bssmap.NOT_CIPHERED))


def permits_clear(encryption):
    """Whether encryption information permits a call in clear."""
    return bool(encryption) and bool(encryption[0] & IN_CLEAR)


def was_in_clear(elements):
    """Whether a call that comes by HANDOVER REQUEST was in clear: its mobile isn't told to stop ciphering. Whether it may be in
    clear the controller asks."""
    return elements.get(CHOSEN, bytes([NONE]))[0] == NONE
