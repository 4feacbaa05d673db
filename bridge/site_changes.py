"""What differs between two sites, or two CONFIGs, in words; and whether the channels that are in use are the same in both sites. Cells
are told apart by what mobiles know them by, never by their place in the file."""
import dataclasses

from sites import traffic_channels

# By which keys a cell is the same to a call, and by which it is found again where others of its keys change.
SAME, FOUND_BY = ("lac", "ci", "bcch", "ncc", "bcc"), ("lac", "ci")
# The tables of a site that have cells, and the number of the first of each.
LISTS = {"cell": 0, "outside": 64}
# The keys of CONFIG of which a bridge takes what is new, by the attributes that have them, and those of which it doesn't before it
# begins anew.
OF_BROADCAST = {
    "blocks": "bs_ag_blks_res",
    "multiframes": "bs_pa_mfrms",
    "common": "ccch_conf",
    "neci": "neci",
    "t3212": "t3212",
    "power": "power",
    "emergency": "emergency",
    "barred": "barred_classes",
}
LIMITS = ("awaited", "emergency_reserve", "pagings")
STAYING = {"bind": "abis.bind", "port": "abis.port"}
STAYING_TABLES = ("centre", "gateway")
STAYS = "stays as it was until the bridge begins anew"


def told(value):
    """A value of a key, in words."""
    if isinstance(value, (list, tuple)):
        return ", ".join(map(told, value)) or "none"
    if isinstance(value, float):
        return f"{value:g}"
    return "none" if value is None else str(value)


def differs(key, old, new):
    """The line of a key whose value differs, in a list; else an empty one."""
    return [f"{key}: {told(old)} -> {told(new)}"] if old != new else []


def tables_differ(key, old, new, without=()):
    """The lines of the keys of two tables."""
    for name in dict.fromkeys((*old, *new)):
        if name not in without:
            yield from differs(f"{key}: {name}", old.get(name), new.get(name))


# Sites


def sites_differ(old, new):
    """A line for each thing that differs between the tables of two sites; none where both are one site."""
    for name in sorted({*old, *new} - {*LISTS}):
        one, other = old.get(name), new.get(name)
        if isinstance(one, dict) and isinstance(other, dict):
            yield from tables_differ(name, one, other)
        else:
            yield from differs(name, one, other)
    for name, first in LISTS.items():
        yield from cells_differ(name, first, by_place(old.get(name, ())), by_place(new.get(name, ())))


def by_place(cells):
    """The cells of a list by location area and cell identity, each with its place."""
    return {identity(cell, FOUND_BY): (place, cell) for place, cell in enumerate(cells)}


def identity(cell, keys=SAME):
    """What a cell is known by."""
    return tuple(cell.get(key) for key in keys)


def named(name, cell):
    """A cell in words."""
    return f"{name} {cell.get('lac')}/{cell.get('ci')}"


def cells_differ(name, first, old, new):
    """The lines of the cells of a list, whose first has a number."""
    for known, (place, cell) in old.items():
        if known not in new:
            yield f"{named(name, cell)}: goes"
            continue
        other, after = new[known]
        yield from differs(f"{named(name, cell)}: its number", place + first, other + first)
        yield from tables_differ(named(name, cell), cell, after, ("trx",))
        yield from carriers_differ(named(name, cell), cell.get("trx", ()), after.get("trx", ()))
    for known, (place, cell) in new.items():
        if known not in old:
            yield f"{named(name, cell)}: is new, with the number {place + first}"


def carriers_differ(key, old, new):
    """The lines of the TRX of a cell."""
    for place in range(max(len(old), len(new))):
        if place >= len(new):
            yield f"{key}: TRX {place}: goes"
        elif place >= len(old):
            yield f"{key}: TRX {place}: is new, on carrier {new[place].get('arfcn')}"
        else:
            yield from tables_differ(f"{key}: TRX {place}", old[place], new[place])


def numbers(old, new):
    """For each number of a cell in a site the number that the cell has in another one; None where it isn't there."""
    places = {identity(cell, FOUND_BY): place for place, cell in enumerate(new["cell"])}
    return {place: places.get(identity(cell, FOUND_BY)) for place, cell in enumerate(old["cell"])}


def channel_differs(old, new, channel):
    """The first thing that differs of a channel between two sites, as a line; None where it is the same channel of the same cell."""
    cell = old["cell"][channel.cell]
    name, number = named("cell", cell), numbers(old, new)[channel.cell]
    if number is None:
        return f"{name}: goes"
    after, trx = new["cell"][number], f"{name}: TRX {channel.trx}"
    lines = differs(f"{name}: its number", channel.cell, number)
    for key in SAME:
        lines += differs(f"{name}: {key}", cell.get(key), after.get(key))
    if channel.trx >= len(after["trx"]):
        return [*lines, f"{trx}: goes"][0]
    lines += differs(f"{trx}: arfcn", *(it["trx"][channel.trx].get("arfcn") for it in (cell, after)))
    if not any(channel._replace(cell=number) in rates for rates in traffic_channels(new)[number].values()):
        lines.append(f"{trx}: {channel} is no traffic channel any more")
    return next(iter(lines), None)


# CONFIG


def digits(plmn):
    """Country and network code in words, of a location area identification (TS 24.008, 10.5.1.3)."""
    swapped = "".join(f"{it & 15:x}{it >> 4:x}" for it in plmn)
    return f"{swapped[:3]} {swapped[4:]}{swapped[3].strip('f')}"


def configs_differ(old, new):
    """The lines of what differs between two CONFIGs and is taken."""
    yield from differs("network: mcc and mnc", digits(old.plmn), digits(new.plmn))
    yield from differs("network.band", old.broadcast.band, new.broadcast.band)
    for name, key in OF_BROADCAST.items():
        yield from differs(f"broadcast.{key}", getattr(old.broadcast, name), getattr(new.broadcast, name))
    for name in LIMITS:
        yield from differs(name, getattr(old, name), getattr(new, name))
    for name in old.timers:
        yield from differs(f"timers.{name}", old.timers[name], new.timers[name])


def configs_stay(old, running, new):
    """The lines of what differs between two CONFIGs and isn't taken; `running` is the controller's command without its site, which
    may be that of another program since."""
    lines = differs("controller", old.core[:-1], new.core[:-1]) if new.core[:-1] != running else []
    for name, key in STAYING.items():
        lines += differs(key, getattr(old, name), getattr(new, name))
    for name in STAYING_TABLES:
        one, other = (dataclasses.asdict(getattr(it, name)) for it in (old, new))
        for key in one:
            lines += differs(f"{name}.{key}", one[key], other[key])
    return [f"{line}; {STAYS}" for line in lines]


def stations_differ(old, new):
    """The lines of two lists of stations."""
    before, after = ({it.unit: it for it in stations} for stations in (old, new))
    for unit, it in before.items():
        if (other := after.get(unit)) is None:
            yield f"station {unit}: goes"
            continue
        yield from differs(f"station {unit}: cell", it.cell, other.cell)
        yield from differs(f"station {unit}: trx", it.trx, other.trx)
        yield from differs(f"station {unit}: addresses", it.addresses, other.addresses)
    for unit, it in after.items():
        if unit not in before:
            yield f"station {unit}: is new, of cell {it.cell}, TRX {it.trx}"
