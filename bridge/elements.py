"""The elements of a message of BSSMAP (TS 48.008, 3.2.2): told apart by their identifiers, of which the standard says whether
a length follows. And the identities of mobiles (3.2.2.6; TS 24.008, 10.5.1.4)."""

# Identifiers: IMSI, TMSI, cell identifier list, channel needed.
IMSI, TMSI, CELLS, CHANNEL_NEEDED = 0x08, 0x09, 0x1A, 0x24
# The elements that have no length, and how many octets stand behind the identifier of each (3.2.2.1).
WITHOUT_LENGTH = {
    0x01: 2,  # circuit identity code
    0x03: 21,  # resource available
    0x14: 1,  # interference band to be used
    0x15: 1,  # RR cause
    0x18: 1,  # DLCI
    0x19: 1,  # downlink DTX flag
    0x1B: 0,  # response request
    0x1C: 1,  # resource indication method
    0x1D: 1,  # classmark information type 1
    0x21: 1,  # chosen channel
    0x22: 4,  # total resource accessible
    0x23: 1,  # cipher response mode
    0x24: 1,  # channel needed
    0x25: 1,  # trace type
    0x27: 2,  # trace reference
    0x2B: 1,  # forward indicator
    0x2C: 1,  # chosen encryption algorithm
    0x2D: 1,  # circuit pool
    0x2F: 1,  # time indication
    0x31: 1,  # current channel type 1
    0x32: 1,  # queueing indicator
    0x33: 1,  # assignment requirement
    0x35: 0,  # talker flag
    0x36: 0,  # connection release requested
    0x38: 1,  # eMLPP priority
    0x39: 1,  # configuration evolution indication
    0x3F: 1,  # LSA access control suppression
    0x40: 1,  # speech version
    0x7F: 4,  # call identifier
    0x83: 16,  # Kc128
    0x8A: 1,  # LCLS configuration
    0x8B: 1,  # LCLS connection status control
    0x8C: 0,  # LCLS correlation not needed
    0x8D: 1,  # LCLS BSS status
    0x8E: 0,  # LCLS break request
    0x8F: 0,  # CSFB indication
    0x95: 3,  # last used E-UTRAN PLMN
}
# The kinds of identities (TS 24.008, 10.5.1.4), in the lowest three bits; and the bit that says that digits are odd in number.
KIND, OF_IMSI, OF_TMSI, ODD = 0x07, 1, 4, 0x08


def elements_in(message):
    """The elements of a message of BSSMAP, by identifier, the first of each; None where one is torn."""
    found: dict[int, bytes] = {}
    at = 3
    while at < len(message):
        identifier, at = message[at], at + 1
        length = WITHOUT_LENGTH.get(identifier)
        if length is None:
            if at == len(message):
                return None
            length, at = message[at], at + 1
        if at + length > len(message):
            return None
        found.setdefault(identifier, message[at : at + length])
        at += length
    return found


def imsi_in(identity):
    """The digits of an IMSI; None where the identity is another, or isn't written as one."""
    if not identity or identity[0] & KIND != OF_IMSI:
        return None
    digits = f"{identity[0] >> 4:x}" + "".join(f"{octet & 15:x}{octet >> 4:x}" for octet in identity[1:])
    if not identity[0] & ODD:
        digits, rest = digits[:-1], digits[-1:]
        if rest != "f":
            return None
    return digits if digits.isdecimal() and 6 <= len(digits) <= 15 else None


def tmsi_in(identity):
    """The octets of a TMSI; None where the identity is another."""
    if len(identity) != 5 or identity[0] & KIND != OF_TMSI:
        return None
    return identity[1:]
