"""Figures of each cell: its channels, and what was counted of it (tallies.py)."""
import collections

import access
import tallies
from admission import Rejected
from exposition import COUNTER, GAUGE, Family
from rsl import CAUSES
from sites import RATES, free_in
from stations import CLOSING

# Between which states of channels figures tell; so that each is there also where it is 0.
CHANNELS = ("held", "pending", "on", "off")
# What is counted, by the name of the counts: the family, its help, its labels behind the cell, and of these the values that are
# there from the beginning, so that a reader sees the first of each.
COUNTED = {
    "given": ("channels_given", "Channels that were given, by what for.", ("for",), [(it,) for it in tallies.PURPOSES]),
    "none_free": (
        "none_free",
        "How often a channel was asked for and none of its rate was free, by what for.",
        ("for",),
        [(it,) for it in tallies.PURPOSES],
    ),
    "handovers": (
        "handovers",
        "Attempts at handover that have ended, by kind, outcome and cause.",
        ("kind", "outcome", "cause"),
        [(kind, tallies.DONE, tallies.NO_CAUSE) for kind in tallies.KINDS],
    ),
    "expiries": ("timer_expiries", "Timers that ran out.", ("timer",), [(it,) for it in tallies.TIMERS]),
    "reports": ("reports", "Measurement reports that the controller took.", (), [()]),
    "lost": (
        "lost_channels",
        "Channels that their station lost, by its cause.",
        ("cause",),
        [(CAUSES[it],) for it in (0x01, 0x20)],
    ),
    "faults": ("faulty_messages", "Messages that the controller couldn't read.", (), [()]),
}
COUNTED_OF_NETWORK = {
    "requests": (
        "requests",
        "Requests of mobiles for a channel, by cause.",
        ("cause",),
        [(it.text,) for it in access.Cause if it.is_answered],
    ),
    "rejected": ("rejected_requests", "Requests that were rejected, by reason.", ("reason",), [(it.value,) for it in Rejected]),
    "assignments": (
        "assignments",
        "Assignments that have ended, by kind, outcome and cause.",
        ("kind", "outcome", "cause"),
        [(kind, "complete", tallies.NO_CAUSE) for kind in ("speech", "signalling")],
    ),
}


def of_cells(relay):
    """The figures of all cells, at the bridge of stations."""
    return [*of_channels(relay), barred(relay), *counted(relay, COUNTED)]


def of_cells_of_network(relay):
    """Those that a network has beside."""
    awaited = Family("gofnild_cell_awaited_mobiles", GAUGE, "Calls that await their mobile.")
    for cell in cells_of(relay):
        awaited.add(relay.talks.awaited(cell), cell=cell)
    waiting = Family("gofnild_cell_waiting_requests", GAUGE, "Requests of mobiles for a channel that wait for their turn.")
    for cell in cells_of(relay):
        waiting.add(relay.air.admission.waiting(cell), cell=cell)
    return [awaited, waiting, *counted(relay, COUNTED_OF_NETWORK)]


def cells_of(relay):
    """The cells that there are: those of the site, or of the stations where it isn't to be read."""
    return sorted(relay.site or {station.cell for station in relay.places.values()})


def of_channels(relay):
    """The channels of each cell that are in use, and those that are free."""
    in_use = Family("gofnild_cell_channels", GAUGE, "Channels in use, by their state in the book.")
    free = Family("gofnild_cell_free_channels", GAUGE, "Traffic channels that are free, by their rate.")
    used = collections.defaultdict(list)
    for channel in relay.calls.channels:
        used[channel.cell].append(channel)
    for cell in cells_of(relay):
        states = collections.Counter(relay.calls.channels[it].state for it in used[cell])
        for state in CHANNELS:
            in_use.add(states[state], cell=cell, state=state)
        for rate in RATES if relay.site else ():
            free.add(len(free_in(relay.site[cell][rate], used[cell])), cell=cell, rate=rate)
    return [in_use, free]


def barred(relay):
    """The channels of each cell that nobody gets, though the book has them free."""
    text = "Channels that nobody gets, since their station hasn't acknowledged the last release."
    family, closing = Family("gofnild_cell_barred_channels", GAUGE, text), collections.Counter()
    for station in relay.places.values():
        closing[station.cell] += sum(use.state == CLOSING for use in station.channels.values())
    for cell in cells_of(relay):
        family.add(closing[cell], cell=cell)
    return family


def counted(relay, families):
    """What was counted."""
    found = []
    for name, (title, text, labels, always) in families.items():
        counts = getattr(relay.tallies, name)
        family = Family(f"gofnild_cell_{title}", COUNTER, text)
        first = [(cell, *values) for cell in cells_of(relay) for values in always]
        for cell, *values in dict.fromkeys([*first, *sorted(counts)]):
            family.add(counts[cell, *values], cell=cell, **dict(zip(labels, values)))
        found.append(family)
    return found
