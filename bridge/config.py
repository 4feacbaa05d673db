"""What CONFIG, the TOML text of bridge/network, says; and what the bridge has to know of the site."""
import dataclasses
import ipaddress
import os
import pathlib
import tomllib

from barring import CLASSES
from kept_site import KeptSite
from sites import BANDS, cells_of
from stations import Station
from timers import OF_NETWORK, OF_STATIONS
from toml_keys import Faults, Table, shown

# The power control level of each band at which a telephone of the usual class sends as loud as it can: 33 dBm for class 4 of
# GSM 900, 30 dBm for class 1 of GSM 1800 (TS 45.005, 4.1.1).
LOUDEST = {900: 5, 1800: 0}
# A point code as Osmocom writes it: 3, 8 and 3 bits.
POINT_CODE = r"[0-7]\.([0-9]{1,2}|1[0-9][0-9]|2[0-4][0-9]|25[0-5])\.[0-7]"


# What may change while a bridge runs, beside the cells, the stations and the timers.
TAKEN = ("plmn", "broadcast", "awaited", "emergency_reserve", "pagings", "stations", "text")


class ConfigError(Exception):
    """CONFIG or the site can't be used: a line for each fault."""


@dataclasses.dataclass
class Centre:
    """How the switching centre is reached."""

    transport: str
    address: str
    port: int
    name: str
    own: int
    peer: int


@dataclasses.dataclass
class Gateway:
    """How the media gateway is reached, and under which name it has its endpoints; and where its terminal is, whose port is None
    where that isn't to be asked."""

    address: str
    port: int
    domain: str
    terminal_address: str
    terminal: int | None


@dataclasses.dataclass
class Broadcast:
    """What the system information of all cells says, beside what the site does (TS 44.018, 10.5.2.11; TS 45.002, 3.3.2.3).
    """

    band: int
    blocks: int
    multiframes: int
    common: int
    neci: int
    t3212: int
    # the level at which telephones send at most until they are told another
    power: int
    # whether mobiles may make emergency calls, and which access classes are barred
    emergency: int
    barred: tuple


@dataclasses.dataclass
class Config:
    """All of CONFIG, with the cells of its site."""

    core: list
    plmn: bytes
    broadcast: Broadcast
    bind: str
    port: int
    stations: list
    centre: Centre
    gateway: Gateway
    timers: dict
    awaited: int
    # how many free channels of each cell emergency calls alone may take
    emergency_reserve: int
    pagings: int
    cells: list
    # the text of the site, as octets, and what is kept of it
    text: bytes
    kept: KeptSite

    def take(self, other):
        """Takes what may change while a bridge runs; whoever has the cells has the other ones then."""
        for name in TAKEN:
            setattr(self, name, getattr(other, name))
        self.cells[:] = other.cells


def plmn_of(mcc, mnc):
    """Country and network code as a location area identification has them (TS 24.008, 10.5.1.3)."""
    third = mnc[2] if len(mnc) == 3 else "F"
    return bytes.fromhex(mcc[1] + mcc[0] + third + mcc[2] + mnc[1] + mnc[0])


def point_code(text):
    """The number of a point code, as 0.42.1."""
    first, second, third = (int(it) for it in text.split("."))
    return first << 11 | second << 3 | third


def octets_of(path):
    """The octets of a file."""
    try:
        return pathlib.Path(path).read_bytes()
    except OSError as error:
        raise ConfigError(f"{path}: {error.strerror}") from error


def table_of(octets, path):
    """The table of a file's octets."""
    try:
        return tomllib.loads(octets.decode())
    except (UnicodeDecodeError, tomllib.TOMLDecodeError) as error:
        raise ConfigError(f"{path}: is no TOML: {error}") from error


def network_of(table):
    """Country and network code, and the band."""
    mcc = table.text("mcc", r"[0-9]{3}", "a country code of three digits, in quotes,")
    mnc = table.text("mnc", r"[0-9]{2,3}", "a network code of two or three digits, in quotes,")
    band = table.choice("band", tuple(BANDS))
    table.end()
    return plmn_of(mcc, mnc) if mcc and mnc else b"", band


def classes_in(found):
    """The access classes of a list."""
    if not isinstance(found, list) or not all(type(it) is int and it in CLASSES for it in found):
        raise ValueError
    return tuple(found)


def broadcast_of(table, band):
    """What all cells broadcast. CCCH_CONF 0: timeslot 0 has common channels alone; 1: four signalling channels too."""
    found = Broadcast(
        band,
        table.whole("bs_ag_blks_res", 0, 7, 1),
        table.whole("bs_pa_mfrms", 2, 9, 5),
        table.choice("ccch_conf", (0, 1), 0),
        table.choice("neci", (0, 1), 1),
        table.whole("t3212", 0, 255, 5),
        table.whole("power", 0, 31, LOUDEST.get(band)),
        table.choice("emergency", (0, 1), 0),
        table.take("barred_classes", (), "a list of access classes, 0 to 9 and 11 to 15, is allowed", classes_in),
    )
    if found.common == 1 and found.blocks is not None and found.blocks > 2:
        # TS 44.018, table 10.5.2.11.1: a combined channel has three blocks
        table.faults.add(table.key("bs_ag_blks_res"), "0 to 2 is allowed where ccch_conf is 1", found.blocks)
    table.end()
    return found


def address_of(table, name, default="127.0.0.1"):
    """An address of IP, this machine's own where none is named, or another one."""
    allowed = "an address as 192.0.2.7, in quotes, is allowed"
    return table.take(name, default, allowed, lambda it: str(ipaddress.ip_address(str(it))))


def centre_of(table):
    """How the switching centre is reached."""
    transport = table.choice("transport", ("ipa", "m3ua"), "ipa")
    found = Centre(
        transport,
        address_of(table, "address"),
        table.whole("port", 1, 65535, 2905 if transport == "m3ua" else 5000),
        table.text("name", r"[ -~]{1,64}", "a name of 1 to 64 characters", "as-gofnild"),
        table.text("own", POINT_CODE, "a point code as 0.42.1"),
        table.text("peer", POINT_CODE, "a point code as 0.23.1"),
    )
    found.own, found.peer = (point_code(it) if it else 0 for it in (found.own, found.peer))
    table.end()
    return found


def gateway_of(table):
    """How the media gateway is reached."""
    domain = table.text("domain", r"[A-Za-z0-9.-]{1,64}", "a name of 1 to 64 letters, digits, full stops and hyphens", "mgw")
    address = address_of(table, "address")
    terminal_address = address_of(table, "terminal_address", address)
    found = Gateway(address, table.whole("port", 1, 65535, 2427), domain, terminal_address, table.whole("terminal", 1, 65535, None))
    table.end()
    return found


def addresses_in(found):
    """The addresses of a list."""
    if not isinstance(found, list):
        raise ValueError
    return tuple(str(ipaddress.ip_address(str(it))) for it in found)


def stations_of(tables, cells, faults):
    """The units, each with the cell and the TRX that the site has."""
    stations, units, places = [], set(), set()
    for table in tables:
        unit = table.text("unit", r"[0-9]{1,5}/[0-9]{1,5}/[0-9]{1,5}", "a unit as 6969/0/0")
        cell, trx = table.whole("cell", 0, 63), table.whole("trx", 0, 3, 0)
        addresses = table.take("addresses", (), 'a list of addresses as ["192.0.2.7"] is allowed', addresses_in)
        table.end()
        if None in (unit, cell, trx, addresses):
            continue
        if unit in units:
            faults.add(table.key("unit"), "each unit stands once", unit)
        if (cell, trx) in places:
            faults.add(table.key("cell"), "each TRX of a cell has one unit", f"{cell}/{trx} again")
        if cells and cell >= len(cells):
            faults.add(table.key("cell"), f"a cell of the site, 0 to {len(cells) - 1}, is allowed", cell)
        elif cells and trx >= len(cells[cell].carriers):
            faults.add(table.key("trx"), f"a TRX of cell {cell}, 0 to {len(cells[cell].carriers) - 1}, is allowed", trx)
        units.add(unit)
        places.add((cell, trx))
        stations.append(Station(unit, cell, trx, addresses))
    return stations


def places_in(tables):
    """Which TRX each station is, as Station.place says it, as far as their tables can be read."""
    for it in tables if isinstance(tables, list) else ():
        if isinstance(it, dict):
            yield f"{it.get('unit')}={it.get('cell')}/{it.get('trx', 0)}"


def read(path, is_edited=False):
    """What CONFIG says; raises ConfigError with a line for each fault. The site is that which the controller has. Where `is_edited`,
    it is that of its file now, also with those keys that only the controller reads."""
    path, faults = pathlib.Path(path), Faults()
    top = Table(table_of(octets_of(path), path), "", faults)
    plmn, band = network_of(top.table("network"))
    controller = top.texts("controller", 'the command of a controller without its site, as ["./lab", "live"],')
    name = top.text("site", r"[^\0]+", "the path of a site")
    site, site_faults, rest, cells = path.parent / (name or ""), Faults(), Faults(), []
    kept = KeptSite([*(controller or ()), str(site)])
    text = b"" if is_edited else kept.begin_with(places_in(top.rest.get("station")))
    if name and not text and not os.path.isfile(site):
        faults.add("site", "the path of a site, which is a file, is allowed", shown(name))
    elif name:
        text = text or octets_of(site)
        cells = cells_of(Table(table_of(text, site), "", site_faults), band, rest)
    abis, timers = top.table("abis"), top.table("timers")
    found = Config(
        [*(controller or ()), str(site)],
        plmn,
        broadcast_of(top.table("broadcast"), band),
        address_of(abis, "bind"),
        abis.whole("port", 0, 65535, 3003),
        stations_of(top.tables("station"), cells, faults),
        centre_of(top.table("centre")),
        gateway_of(top.table("gateway")),
        {timer: timers.seconds(timer, seconds) for timer, seconds in (OF_STATIONS | OF_NETWORK).items()},
        top.whole("awaited", 1, 1024, 4),
        top.whole("emergency_reserve", 0, 32, 0),
        top.whole("pagings", 1, 100, 4),
        cells,
        text or b"",
        kept,
    )
    for table in (abis, timers, top):
        table.end()
    of_site = site_faults.lines + (rest.lines if is_edited else [])
    if lines := [f"{path}: {it}" for it in faults.lines] + [f"{site}: {it}" for it in of_site]:
        raise ConfigError("\n".join(lines))
    return found
