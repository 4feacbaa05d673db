"""The checks of timers' defaults: docs/NETWORK.md has a table of them, with osmo-bsc's beside. What the programs take where nobody
says otherwise is what stands there, and what osmo-bsc says of its own is, too."""
import re
import runpy
import subprocess

import config
from harness import FIRST, FOLDER, LIMIT, must, namespaces, needs

TABLE = FOLDER.parent / "docs" / "NETWORK.md"
# A row of the table: the timer, its default, and osmo-bsc's, each with its name there. What stands for ever, and for none.
ROW = re.compile(r"\| `([a-z0-9-]+)` \| (\S+) \| ([^|]+) \| [^|]+ \| [^|]+ \|")
OSMO = re.compile(r"(\w+): (\d+)")
NEVER, NONE = "never", "-"
# An option of bridge/abis, as its help has it, with how long it is behind a text.
OPTION = re.compile(r"--([a-z0-9-]+) S\b")
BEHIND = re.compile(r"\(([^()]*)\)$")
# How osmo-bsc says how long a timer runs, and one of SCCP.
TIMER, OF_SCCP = re.compile(r"(?:net|mgw): (\w+) = (\d+) s\b"), re.compile(r"sccp-timer (\w+) (\d+)")
# osmo-bsc in a namespace of its own, where none of its ports is taken: what it says of its timers. The centre that is set has it
# begin SCCP.
SETTINGS = """line vty
 no login
 bind 127.0.0.1
cs7 instance 0
 point-code 0.42.4
 asp asp-clnt-msc-0 2905 0 m3ua
  remote-ip 127.0.0.1
  role asp
  sctp-role client
 sccp-address msc
  routing-indicator PC
  point-code 0.23.1
network
 network country code 1
 mobile network code 1
msc 0
 msc-addr msc
 asp-protocol m3ua
"""
ASKING = """
import sys
sys.dont_write_bytecode = True
sys.path.insert(0, {folder!r})
import subprocess
from core_network import OSMO_TERMINAL, ask, await_port
begun = subprocess.Popen(["osmo-bsc", "-c", "bsc.cfg"], stdout=subprocess.DEVNULL, stderr=subprocess.DEVNULL)
await_port(OSMO_TERMINAL)
print(ask(OSMO_TERMINAL, "show timer"), ask(OSMO_TERMINAL, "show cs7 instance 0 sccp timers"))
begun.kill()
begun.wait()
"""


def rows():
    """The table: by the timer, its default, and osmo-bsc's words."""
    found = [ROW.fullmatch(line) for line in TABLE.read_text().split("\n")]
    return {it[1]: (seconds_of(it[2]), it[3]) for it in found if it}


def seconds_of(word):
    """How long a word says; for ever is None."""
    return None if word == NEVER else float(word)


def compare(what, wanted, found):
    """Two tables of defaults are the same; says where they aren't."""
    differing = sorted(name for name in {*wanted, *found} if (name in wanted, wanted.get(name)) != (name in found, found.get(name)))
    must(not differing, f"{what}: " + ", ".join(f"{it} is {found.get(it)}, not {wanted.get(it)}" for it in differing))


# Each gets a function that starts a bridge, which these don't need, a folder, and the program.


def defaults_of_stations(_start, _room, _program):
    """bridge/abis has the table's first nine timers, and each runs as long as it says, by --help and in what it takes."""
    wanted = {name: seconds for name, (seconds, _) in list(rows().items())[:9]}
    words_of = runpy.run_path(str(FOLDER / "abis"), run_name="abis")["words_of"]
    compare("what bridge/abis takes", wanted, words_of([f"{FIRST}=0/0", "--", "true"]).seconds)
    ran = subprocess.run([FOLDER / "abis", "--help"], capture_output=True, text=True, timeout=LIMIT)
    told = {}
    for line in ran.stdout.split("\n"):
        if (names := OPTION.findall(line)) and (behind := BEHIND.search(line)):
            told |= zip(names, map(seconds_of, behind[1].split(", ")), strict=True)
    # how long a controller may hang, and how often figures are written, are no timers of this table
    must((told.pop("hang"), told.pop("figures-every")) == (10, 10), "--hang and --figures-every take 10 seconds")
    compare("what bridge/abis --help says", wanted, told)


def defaults_of_a_network(start, room, _program):
    """bridge/network has all timers of the table, and each runs as long as it says where CONFIG doesn't have it."""
    start().stop()
    text = (room / "config.toml").read_text()
    head, rest = text.split("[timers]\n")
    (room / "config.toml").write_text(head + rest[rest.index("[[station]]") :])
    compare("what bridge/network takes", {name: it for name, (it, _) in rows().items()}, config.read(room / "config.toml").timers)


def osmo_bscs_timers(_start, room, _program):
    """What the table says of osmo-bsc is what it says itself. It needs osmo-bsc, and a namespace of networks."""
    needs("osmo-bsc", "osmo-bsc")
    needs("ip", "iproute2")
    words = namespaces("--net")
    (room / "bsc.cfg").write_text(SETTINGS)
    (room / "ask.py").write_text(ASKING.format(folder=str(FOLDER)))
    begin = [*words, "sh", "-c", "ip link set lo up && exec python3 ask.py"]
    ran = subprocess.run(begin, cwd=room, capture_output=True, text=True, timeout=LIMIT)
    must(ran.returncode == 0, f"osmo-bsc says nothing: {ran.stderr}")
    said = {name: int(seconds) for form in (TIMER, OF_SCCP) for name, seconds in form.findall(ran.stdout)}
    named = [words for _, words in rows().values() if words != NONE]
    told = [found for words in named for found in OSMO.findall(words)]
    must(len(told) == sum(words.count(":") for words in named), f"what it says can't be read: {named}")
    compare("what osmo-bsc says", {name: int(seconds) for name, seconds in told}, {name: said.get(name) for name, _ in told})


OF_NETWORK = [defaults_of_a_network]
CHECKS = [defaults_of_stations, osmo_bscs_timers]
