"""Checks of what `bridge/network --check` says of CONFIG, of its site, and of the controller and its journal."""
import subprocess

from check_again import needs_journal
from harness import FOLDER, LIMIT, must


def bad_config(start, room, _program):
    """What is wrong with CONFIG or its site is told, each fault with its key, what is allowed, and what was found; status 1, and 2
    where the bridge is to begin."""
    start().stop()
    text, site = (room / "config.toml").read_text(), (room / "site.toml").read_text()
    cases = [
        (('mcc = "001"', "mcc = 1"), "network.mcc: a country code of three digits, in quotes, is allowed, not 1"),
        (("band = 900", "band = 850"), "network.band: one of 900, 1800 is allowed, not 850"),
        (("neci = 1", "neci = 2"), "broadcast.neci: one of 0, 1 is allowed, not 2"),
        (("neci = 1", "bs_ag_blks_res = 3\nccch_conf = 1"), "bs_ag_blks_res: 0 to 2 is allowed where ccch_conf is 1, not 3"),
        (("cell = 1", 'cell = 1\naddresses = ["here"]'), 'station 1.addresses: a list of addresses as ["192.0.2.7"] is allowed'),
        (("cell = 1", "cell = 2"), "station 1.cell: a cell of the site, 0 to 1, is allowed, not 2"),
        (("6970/0/0", "6969/0/0"), "station 1.unit: each unit stands once, not 6969/0/0"),
        (('own = "0.42.1"', ""), "centre.own: a point code as 0.42.1 is allowed, not left out"),
        (("retry = 0.2", "retry = 0"), "timers.retry: a number of seconds over 0 and under a million is allowed, not 0"),
        (('name = "as-bsc1"', 'address = "x"'), 'centre.address: an address as 192.0.2.7, in quotes, is allowed, not "x"'),
        (("[gateway]", '[gateway]\naddress = "gw"'), 'gateway.address: an address as 192.0.2.7, in quotes, is allowed, not "gw"'),
        (("[gateway]\nport", "[gateway]\nport = 0\nports"), "gateway.port: a whole number from 1 to 65535 is allowed, not 0"),
        (("[gateway]", '[gateway]\ndomain = "a b"'), "gateway.domain: a name of 1 to 64 letters, digits, full stops and hyphens"),
        (("[gateway]\nport", "[gateway]\nhost"), "gateway.host: no such key is known"),
        (("[gateway]", "[gateway]\nterminal = 0"), "gateway.terminal: a whole number from 1 to 65535 is allowed, not 0"),
        (("[gateway]", "[gateway]\nterminal_address = 4243"), "gateway.terminal_address: an address as 192.0.2.7, in quotes, is"),
        (("gateway-repeat = 120", "gateway-repeat = 0"), "timers.gateway-repeat: a number of seconds over 0 and under a million"),
        (("retry = 0.2", "t9 = 1"), "timers.t9: no such key is known, not 1"),
        (("emergency_reserve = 0", "emergency_reserve = -1"), "emergency_reserve: a whole number from 0 to 32 is allowed, not -1"),
        (("neci = 1", "barred_classes = [10]"), "broadcast.barred_classes: a list of access classes, 0 to 9 and 11 to 15, is allowed"),
        (("awaited = 4", "awaited = true"), "awaited: a whole number from 1 to 1024 is allowed, not True"),
        (('site = "site.toml"', 'site = "none.toml"'), 'site: the path of a site, which is a file, is allowed, not "none.toml"'),
        (('mcc = "001"', 'mcc = "\u0661\u0662\u0663"'), "network.mcc: a country code of three digits, in quotes, is allowed"),
        (('"live"]', '"\\u0000"]'), "controller: the command of a controller without its site"),
        (("[network]", "[network"), "is no TOML:"),
    ]
    for (old, new), fault in cases:
        told(room, text.replace(old, new), site, fault)
    told(room, text, site.replace("ba = [70]", "ba = [70, 871]"), "cell 0.ba: a list of whole numbers from 1 to 124 is allowed")
    wide = site.replace("60", "512").replace("70", "700")
    told(room, text.replace("900", "1800"), wide, "cell 0.trx 0.arfcn", is_there=False)
    (room / "config.toml").write_text(text.replace("retry = 0.2", "retry = 0"))
    ran = subprocess.run([FOLDER / "network", room / "config.toml"], capture_output=True, text=True, timeout=LIMIT)
    must(ran.returncode == 2, f"the status is {ran.returncode}: {ran.stderr}")


def bad_site(start, room, _program):
    """What only the controller reads of a site is looked at as well: each fault has its key."""
    start().stop()
    text, site = (room / "config.toml").read_text(), (room / "site.toml").read_text()
    trx = "arfcn = 60, tch = [1, 2]"
    cases = [
        ((trx, "arfcn = 60, tch = [0, 1, 8]"), "cell 0.trx 0.tch: a list of whole numbers from 1 to 7 is allowed, not [0, 1, 8]"),
        ((trx, "arfcn = 60, tch = [0, 1]"), "cell 0.trx 0.tch: a list of whole numbers from 1 to 7 is allowed, not [0, 1]"),
        ((trx, "arfcn = 60"), "cell 0.trx 0.tch: a list of whole numbers from 1 to 7 is allowed, not left out"),
        ((trx, f"{trx}, half = [2, 3]"), "cell 0.trx 0.half: timeslots of tch are allowed, not [3]"),
        ((trx, f"{trx}, hopping = 1"), "cell 0.trx 0.hopping: no such key is known, not 1"),
        (("power = 5\nba = [60]", "power = 5\npowers = 5\nba = [60]"), "cell 1.powers: no such key is known, not 5"),
        (("power = 5\nba = [60]", "power = 32\nba = [60]"), "cell 1.power: a whole number from 0 to 31 is allowed, not 32"),
        (("window = 2", "window = 0"), "handover.window: a whole number from 1 to 32 is allowed, not 0"),
        (("margin = 3", "margin = 3\nmargins = 3"), "handover.margins: no such key is known, not 3"),
        (("lac = 24\n", "lac = 65536\n"), "outside 0.lac: a whole number from 0 to 65535 is allowed, not 65536"),
        (("[handover]", "handovers = 1\n[handover]"), "handovers: no such key is known, not 1"),
    ]
    for (old, new), fault in cases:
        must(old in site, f"the site has no {old!r}")
        told(room, text, site.replace(old, new, 1), f"site.toml: {fault}")
    # timeslot 0 of another TRX is like the others
    second = site.replace(f"{{ {trx} }}", f"{{ {trx} }}, {{ arfcn = 62, tch = [0, 1], half = [0] }}")
    told(room, text, second, "tch", is_there=False)
    must(checked(room) == (0, ""), f"a site that is right: {checked(room)}")


def checked(room):
    """The status of --check, and what it says."""
    ran = subprocess.run([FOLDER / "network", room / "config.toml", "--check"], capture_output=True, text=True, timeout=LIMIT)
    return ran.returncode, ran.stderr


def bad_beginning(start, room, program):
    """A controller that isn't there, a journal of another site, and one that is damaged are told; also while a controller has the
    journal. What the last file ends with may be half a record."""
    needs_journal(room, program)
    folder = room / "journal"
    run = start(core=[program, "live", "--journal", folder])
    run.begin()
    for _ in range(3):
        run.catch_up()
    must(checked(room) == (0, ""), f"a journal that is whole: {checked(room)}")
    config, site = (room / "config.toml").read_text(), (room / "site.toml").read_text()
    run.end()
    (path,) = folder.glob("*.journal")
    octets = path.read_bytes()
    # the number of the second record's digits, of its body, and of the head's body
    second = octets.index(b"record ", octets.index(b"record ") + 1)
    site_sum = octets.index(b"site ") + 5
    places = (second + 20, second + 70, site_sum)
    for place, at in zip(places, (second, second, octets.index(b"record "))):
        path.write_bytes(octets[:place] + bytes([octets[place] ^ 1]) + octets[place + 1 :])
        expected = f"controller: --journal: {path}: a record is damaged, at octet {at}"
        status, said = checked(room)
        must(status == 1 and expected in said, f"octet {place} is changed: {status}, {said}")
    last = octets.rindex(b"record ")
    for cut in (octets[: last + 30], octets[: last + 70], octets[: last + 70] + bytes(100), octets + bytes(4096), octets[:last]):
        path.write_bytes(cut)
        must(checked(room) == (0, ""), f"it is cut to {len(cut)}: {checked(room)}")
    path.write_bytes(octets[:second] + octets[last:])
    status, said = checked(room)
    must(status == 1 and "is missing, " in said, f"a record is taken out: {status}, {said}")
    path.write_bytes(octets)
    (room / "site.toml").write_text(site + "# another\n")
    must(checked(room) == (0, ""), f"a comment is changed: {checked(room)}")
    (room / "journal.site").unlink()
    status, said = checked(room)
    must(status == 1 and f"{path}: of another site than {room / 'site.toml'}: " in said, f"of another site: {status}, {said}")
    (room / "site.toml").write_text(site)
    (room / "config.toml").write_text(config.replace(str(program), str(room / "nowhere")))
    status, said = checked(room)
    must(status == 1 and f"controller: no program that can be run: {room / 'nowhere'}\n" in said, f"{status}, {said}")


def told(room, text, site, fault, is_there=True):
    """Whether a fault of CONFIG or its site is told."""
    (room / "config.toml").write_text(text)
    (room / "site.toml").write_text(site)
    words = [FOLDER / "network", room / "config.toml", "--check"]
    ran = subprocess.run([str(it) for it in words], capture_output=True, text=True, timeout=LIMIT)
    must((fault in ran.stderr) == is_there, f"{fault!r}: {ran.stderr}")
    must(ran.returncode == 1 or not is_there, f"the status is {ran.returncode}")


CHECKS = [bad_config, bad_site, bad_beginning]
