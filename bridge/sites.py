"""The site of a controller, as far as the bridge reads it: which cells, TRX and traffic channels there are. The controller checks it."""
import dataclasses

import site_rest
from journal import VALUED
from rsl import Channel

# The carriers (ARFCN) of each band (TS 45.005, clause 2).
BANDS = {900: (1, 124), 1800: (512, 885)}
# Of a channel number on Abis (TS 48.058, 9.3.1) the timeslot, and the rest for a full channel and for both halves; and by rate the
# key of a TRX that has its timeslots.
TIMESLOT, FULL, HALVES = 0x07, 0x08, (0x10, 0x18)
RATES = {"full": ("tch", (FULL,)), "half": ("half", HALVES)}


@dataclasses.dataclass
class Cell:
    """What the bridge has to know of a cell of the site."""

    number: int
    lac: int
    ci: int
    bcch: int
    colours: int
    neighbours: list
    carriers: list


def place_of_site(core):
    """Which of the words of a controller's command is the path of the site, behind `live`, counted from the end; None where there is
    none."""
    first = core.index("live") + 1 if "live" in core else len(core)
    words = range(first, len(core))
    places = (it for it in words if not core[it].startswith("-") and (it == first or core[it - 1] not in VALUED))
    return next((it - len(core) for it in places), None)


def table_of(text):
    """The table of a site's text; None where that can't be read, which the controller says better."""
    try:
        # from Python 3.11 on
        import tomllib

        return tomllib.loads(text.decode())
    except (ImportError, AttributeError, ValueError):
        return None


def cells_in(table):
    """The cells of a site's table, each with the tables of its TRX; None where they can't be read."""
    try:
        return [list(cell["trx"]) for cell in table["cell"]]
    except (KeyError, TypeError):
        return None


def traffic_channels(table):
    """By cell the traffic channels of each rate in a site's table (docs/BOOK.md); None where that isn't to be read."""
    cells = cells_in(table)
    if not cells:
        return None
    try:
        return {number: {rate: channels_in(cell, number, rate) for rate in RATES} for number, cell in enumerate(cells)}
    except (AttributeError, TypeError):
        return None


def channels_in(cell, number, rate):
    """The channels of a rate in a cell, by the tables of its TRX."""
    key, kinds = RATES[rate]
    places = [(trx, timeslot) for trx, table in enumerate(cell) for timeslot in table.get(key, ())]
    return [Channel(number, trx, kind | timeslot) for trx, timeslot in places for kind in kinds]


def free_in(channels, used):
    """Which of some channels are free, where others are in use: a full channel and a half of its timeslot conflict."""
    return [it for it in channels if not any(conflicts(it, other) for other in used)]


def conflicts(one, other):
    """Whether two channels can't be in use at once."""
    is_whole = FULL in (one.number & ~TIMESLOT, other.number & ~TIMESLOT)
    same_timeslot = one[:2] == other[:2] and one.number & TIMESLOT == other.number & TIMESLOT
    return same_timeslot and (is_whole or one == other)


def unknown_place(path, text, stations):
    """What is wrong with the first station whose cell or TRX a site's text lacks, which is of a file; None where there is none, or
    where the text isn't to be read."""
    cells = cells_in(table_of(text))
    if not cells:
        return None
    for station in stations:
        if station.cell >= len(cells):
            return f"{station.place()}: CELL is 0 to {len(cells) - 1} in {path}, found {station.cell}"
        if station.trx >= (count := len(cells[station.cell])):
            return f"{station.place()}: TRX is 0 to {count - 1} in cell {station.cell} of {path}, found {station.trx}"
    return None


def cells_of(site, band, rest):
    """The cells of a site, of which only what is broadcast is looked at: the controller reads all of it. Faults of the other keys go
    to `rest`."""
    low, high = BANDS.get(band, (0, 1023))
    cells = []
    for number, table in enumerate(site.tables("cell")):
        lac, ci = table.whole("lac", 0, 65535), table.whole("ci", 0, 65535)
        bcch, ncc, bcc = table.whole("bcch", low, high), table.whole("ncc", 0, 7), table.whole("bcc", 0, 7)
        neighbours = table.whole_list("ba", low, high)
        tables = table.tables("trx")
        carriers = [it.whole("arfcn", low, high) for it in tables]
        site_rest.look_at_cell(table, tables, rest)
        if None not in (lac, ci, bcch, ncc, bcc, neighbours, *carriers):
            cells.append(Cell(number, lac, ci, bcch, ncc << 3 | bcc, neighbours, carriers))
    site_rest.look_at(site, rest)
    return cells
