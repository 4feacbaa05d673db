"""Paging (TS 48.008, 3.1.10; TS 44.018, 3.3.2): the centre looks for a mobile, which is called in the cells that the centre
names, in the blocks to which it listens, until it answers or was called often enough."""
import collections

import elements
from page import keeps
from rsl import CHANNEL_NUMBER, COMMON

# PAGING COMMAND (TS 48.058, 8.5.5), the channel number of what it goes on, and its elements: paging group, identity of the
# mobile, channel needed.
COMMAND, CALLED_ON, GROUP, IDENTITY, NEEDED = 0x15, 0x90, 0x0E, 0x0C, 0x28
# How many blocks of common control there are in 51 frames: on a timeslot of their own, and beside signalling channels (TS
# 45.002, clause 6.5.1).
BLOCKS = {0: 9, 1: 3}
# How many mobiles may be looked for at once; more are left out.
MOST = 10_000
# PAGING RESPONSE (TS 44.018, 9.1.25), a mobile's first message: its discriminator and type.
RESPONSE = b"\x06\x27"
# The cells that a list names, by its discriminator (TS 48.008, 3.2.2.17 and 3.2.2.27): how many octets an entry has, and
# where in it the network, the location area and the cell stand.
PLACES = {
    0x0: (7, slice(0, 3), slice(3, 5), slice(5, 7)),
    0x1: (4, None, slice(0, 2), slice(2, 4)),
    0x2: (2, None, None, slice(0, 2)),
    0x4: (5, slice(0, 3), slice(3, 5), None),
    0x5: (2, None, slice(0, 2), None),
}


def cells_named(plmn, cells, octets):
    """The numbers of the cells that a cell identifier list names. One of all cells, or in a form that isn't known, names all:
    a mobile is rather called in vain than not at all. None where it is torn."""
    if not octets:
        return None
    if (form := PLACES.get(octets[0] & 0x0F)) is None:
        return [cell.number for cell in cells]
    length, *parts = form
    if len(octets) == 1 or (len(octets) - 1) % length:
        return None
    entries = [octets[at : at + length] for at in range(1, len(octets), length)]

    def is_named(cell):
        own = (plmn, cell.lac.to_bytes(2, "big"), cell.ci.to_bytes(2, "big"))
        return any(all(part is None or it[part] == octet for part, octet in zip(parts, own)) for it in entries)

    return [cell.number for cell in cells if is_named(cell)]


def group_of(imsi, broadcast):
    """The paging group of a mobile (TS 45.002, clause 6.5.2), where one timeslot has the common channels."""
    blocks = BLOCKS[broadcast.common] - broadcast.blocks
    return int(imsi[-3:]) % (blocks * broadcast.multiframes)


def command(group, identity, needed):
    """PAGING COMMAND."""
    head = bytes([COMMON, COMMAND, CHANNEL_NUMBER, CALLED_ON, GROUP, group, IDENTITY, len(identity)])
    return head + identity + bytes([NEEDED, needed])


def identity_in(layer_3):
    """The identity of who answers, where a first message is PAGING RESPONSE: behind its key's number and its classmark, each
    with a length; None where it is another message, or cut."""
    if layer_3[:2] != RESPONSE or len(layer_3) < 4 or len(layer_3) <= (at := 4 + layer_3[3]):
        return None
    identity = layer_3[at + 1 : at + 1 + layer_3[at]]
    return identity if len(identity) == layer_3[at] else None


@keeps("imsi", "tmsi", "cells", "message", "times")
class Sought:
    """A mobile that is looked for: its IMSI, its TMSI if it has one, the cells, and what is sent there how many times yet."""

    def __init__(self, imsi, tmsi, cells, message, times):
        self.imsi, self.tmsi, self.cells, self.message, self.times = imsi, tmsi, cells, message, times

    def known(self):
        """What the centre calls it."""
        return f"IMSI {self.imsi}" + (f", TMSI {self.tmsi.hex()}" if self.tmsi else "")


@keeps("by_imsi", "by_tmsi", "counts", wired=("relay", "times", "seconds", "config"))
class Paging:
    """The mobiles that are looked for. `relay` has the stations."""

    def __init__(self, relay, times, seconds, config):
        self.relay, self.times, self.seconds, self.config = relay, times, seconds, config
        self.by_imsi, self.by_tmsi = {}, {}
        self.counts: collections.Counter = collections.Counter()

    def resume(self):
        """Goes on with the times that another bridge has set."""
        for sought in self.by_imsi.values():
            if self.times.was_set(("t3113", sought.imsi)):
                self.run_t3113(sought)

    def renumber(self, numbers):
        """Cells have other numbers, or go."""
        for sought in self.by_imsi.values():
            sought.cells = [number for it in sought.cells if (number := numbers.get(it, it)) is not None]

    def asked(self, octets):
        """PAGING came. Where the mobile is looked for already, that begins anew."""
        found = elements.elements_in(octets) or {}
        imsi, tmsi = elements.imsi_in(found.get(elements.IMSI)), found.get(elements.TMSI)
        cells = cells_named(self.config.plmn, self.config.cells, found.get(elements.CELLS))
        if imsi is None or cells is None or tmsi is not None and len(tmsi) != 4:
            self.relay.count("PAGING that is torn")
            return
        self.end(self.by_imsi.get(imsi))
        if not cells or len(self.by_imsi) >= MOST:
            self.relay.count("PAGING, which has no room" if cells else "PAGING for no cell of this controller")
            return
        identity = bytes([0xF0 | elements.OF_TMSI]) + tmsi if tmsi else found[elements.IMSI]
        needed = found.get(elements.CHANNEL_NEEDED, b"\0")[0] & 0x03
        message = command(group_of(imsi, self.config.broadcast), identity, needed)
        sought = self.by_imsi[imsi] = Sought(imsi, tmsi, cells, message, self.config.pagings)
        if tmsi:
            self.by_tmsi[tmsi] = sought
        self.counts["sought"] += 1
        self.call(sought)

    def call(self, sought):
        """Calls a mobile in all its cells, of which the first TRX has the common channels; T3113 runs until it is called again.
        """
        if sought.times < self.config.pagings:
            for cell in sought.cells:
                self.relay.tallies.expired(cell, "T3113")
        if sought.times == 0:
            self.counts["given up"] += 1
            self.end(sought)
            return
        sought.times -= 1
        for cell in sought.cells:
            if station := self.relay.places.get((cell, 0)):
                self.relay.pass_on(station, sought.message)
        self.run_t3113(sought)

    def run_t3113(self, sought):
        """It is called again after a while."""
        self.times.set(("t3113", sought.imsi), self.seconds["t3113"], lambda: self.call(sought), self.relay.once_read)

    def hear(self, layer_3):
        """A mobile's first message came: where it answers, it is looked for no more. What the centre calls it, empty where it isn't
        looked for."""
        identity = identity_in(layer_3)
        if identity is None:
            return ""
        sought = self.by_imsi.get(elements.imsi_in(identity)) or self.by_tmsi.get(elements.tmsi_in(identity))
        if sought:
            self.counts["answered"] += 1
            self.end(sought)
        return sought.known() if sought else ""

    def end(self, sought):
        """A mobile isn't looked for any more."""
        if sought is None:
            return
        self.times.forget(("t3113", sought.imsi))
        del self.by_imsi[sought.imsi]
        if self.by_tmsi.get(sought.tmsi) is sought:
            del self.by_tmsi[sought.tmsi]

    def end_all(self):
        """No mobile is looked for any more: the centre has begun anew, or isn't there."""
        for sought in list(self.by_imsi.values()):
            self.end(sought)

    def known(self):
        """What is known of it, for operators."""
        counts = self.counts
        return f"paged: {counts['sought']}, of which {counts['answered']} answered, {counts['given up']} didn't"
