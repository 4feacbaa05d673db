"""The messages of SCCP that A needs (ITU-T Q.713): read and written by one table of their layouts.

A message is its type, a fixed part, and pointers: one to each mandatory variable part, which has its length in front, and
one to the optional part, whose parameters have a name and a length each, up to an octet 00.
"""
import dataclasses
import enum


class Type(enum.IntEnum):
    """The types of messages (Q.713, table 1)."""

    CONNECTION_REQUEST = 0x01
    CONNECTION_CONFIRM = 0x02
    CONNECTION_REFUSED = 0x03
    RELEASED = 0x04
    RELEASE_COMPLETE = 0x05
    DATA_FORM_1 = 0x06
    UNITDATA = 0x09
    UNITDATA_SERVICE = 0x0A
    PROTOCOL_ERROR = 0x0F
    INACTIVITY_TEST = 0x10


# Fixed fields, each with its length (Q.713, clause 4).
DESTINATION, SOURCE, CLASS, CAUSE = ("destination", 3), ("source", 3), ("class", 1), ("cause", 1)
SEGMENTING, SEQUENCING, CREDIT = ("segmenting", 1), ("sequencing", 2), ("credit", 1)
# Of each type the fixed fields, the variable parts, and whether there is an optional part.
LAYOUTS = {
    Type.CONNECTION_REQUEST: ((SOURCE, CLASS), ("called",), True),
    Type.CONNECTION_CONFIRM: ((DESTINATION, SOURCE, CLASS), (), True),
    Type.CONNECTION_REFUSED: ((DESTINATION, CAUSE), (), True),
    Type.RELEASED: ((DESTINATION, SOURCE, CAUSE), (), True),
    Type.RELEASE_COMPLETE: ((DESTINATION, SOURCE), (), False),
    Type.DATA_FORM_1: ((DESTINATION, SEGMENTING), ("data",), False),
    Type.UNITDATA: ((CLASS,), ("called", "calling", "data"), False),
    Type.UNITDATA_SERVICE: ((CAUSE,), ("called", "calling", "data"), False),
    Type.PROTOCOL_ERROR: ((DESTINATION, CAUSE), (), True),
    Type.INACTIVITY_TEST: ((DESTINATION, SOURCE, CLASS, SEQUENCING, CREDIT), (), False),
}
# Types whose messages come in pieces, or have pieces in them: this end doesn't put any together.
SEGMENTED = {0x11: "XUDT", 0x12: "XUDTS", 0x13: "LUDT", 0x14: "LUDTS"}
# Optional parameters by their names (Q.713, table 2).
CALLING, DATA = 0x04, 0x0F
# The subsystem of A (TS 29.002, clause 6: BSSAP), the class of connections, and causes (Q.713, 3.11 and 3.15).
BSSAP, CONNECTION_ORIENTED = 0xFE, 2
END_USER_ORIGINATED, END_USER_FAILURE, SUBSYSTEM_CONGESTION = 0x00, 0x02, 0x0B
# How many octets a connection request and DATA FORM 1 have room for (Q.713, 4.2 and 4.7).
LONGEST_REQUEST, LONGEST_DATA = 130, 255


class Unreadable(Exception):
    """Octets that are no message of SCCP, or one that isn't put together here; why."""


@dataclasses.dataclass
class Message:
    """A message: its type, its fixed fields as numbers, its variable parts, its optional parameters."""

    type: Type
    fields: dict
    parts: dict = dataclasses.field(default_factory=dict)
    options: dict = dataclasses.field(default_factory=dict)

    def data(self):
        """Its data, which stand in a variable part or in the optional one."""
        return self.parts.get("data") or self.options.get(DATA, b"")

    def written(self):
        """Its octets."""
        fixed, names, has_options = LAYOUTS[self.type]
        head = bytes([self.type]) + b"".join(self.fields[name].to_bytes(length, "big") for name, length in fixed)
        pointers, body = bytearray(), b""
        count = len(names) + has_options
        for place, name in enumerate(names):
            pointers.append(count - place + len(body))
            body += bytes([len(self.parts[name])]) + self.parts[name]
        if has_options:
            # the last pointer is an octet in front of what it points to; 0 says that there is nothing
            pointers.append(1 + len(body) if self.options else 0)
        if self.options:
            body += b"".join(bytes([name, len(it)]) + it for name, it in self.options.items()) + b"\0"
        return head + bytes(pointers) + body


def address(point=None):
    """An address that is routed by its subsystem number, which it has; with a point code where one is given (3.4)."""
    if point is None:
        return bytes([0x42, BSSAP])
    return bytes([0x43]) + point.to_bytes(2, "little") + bytes([BSSAP])


def part_at(octets, at):
    """The variable part that the pointer at a place points to."""
    begin = at + octets[at]
    end = begin + 1 + octets[begin]
    if octets[at] == 0 or end > len(octets):
        raise Unreadable("a pointer to nothing")
    return octets[begin + 1 : end]


def options_at(octets, at):
    """The optional parameters that the pointer at a place points to, the first of each name."""
    found: dict[int, bytes] = {}
    if octets[at] == 0:
        return found
    at += octets[at]
    while octets[at] != 0:
        end = at + 2 + octets[at + 1]
        if end > len(octets):
            raise Unreadable("an optional parameter is torn")
        found.setdefault(octets[at], octets[at + 2 : end])
        at = end
    return found


def read(octets):
    """The message that these octets are; raises Unreadable."""
    if octets[:1] and octets[0] in SEGMENTED:
        raise Unreadable(f"{SEGMENTED[octets[0]]}, a message that may be segmented")
    try:
        kind = Type(octets[0])
        fixed, names, has_options = LAYOUTS[kind]
        at, message = 1, Message(kind, {})
        for name, length in fixed:
            message.fields[name] = int.from_bytes(octets[at : at + length], "big")
            at += length
        for name in names:
            message.parts[name] = part_at(octets, at)
            at += 1
        if has_options:
            message.options = options_at(octets, at)
        elif at > len(octets):
            raise Unreadable("cut")
        return message
    except IndexError as error:
        raise Unreadable("cut") from error
    except ValueError as error:
        raise Unreadable(f"type {octets[0]:02x}") from error
