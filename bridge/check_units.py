"""Checks of the bridge: it runs as the units of examples/ say, under a systemd of its own. That is the first process of its namespaces,
in a control group of its own, and has no other units; so it changes nothing on the machine."""
import contextlib
import os
import pathlib
import re
import shutil
import subprocess
import time

from centre import TestCentre
from harness import FIRST, FOLDER, LIMIT, SITE, WITH_PARENT, Asker, LeftOut, Lines, children, must, namespaces
from network_harness import CONFIG, KEYS
from network_harness import SITE as SITE_OF_NETWORK
from station import TestStation
from test_gateway import TestGateway

NAMESPACES = ("--mount", "--pid", "--fork", "--ipc", "--uts", "--cgroup")
SYSTEMD = pathlib.Path("/lib/systemd/systemd")
# Units that systemd wants, of which each does nothing; and the folders that are new and empty for it, beside that of ours.
TARGETS, NEW = ("default", "basic", "sysinit", "shutdown", "multi-user", "network-online"), ("/run", "/opt", "/var/log", "/var/lib")
# What begins it: the folders, and ours from the first word, with a user of the units' name. It can't set what the kernel has, nor
# the machine's name and number, as a systemd does where it begins.
BEGIN = """
set -e
mount --make-rprivate /
mount -t proc proc /proc
for it in /proc/sys /etc; do mount --bind "$it" "$it"; mount -o remount,bind,ro "$it"; done
for it in {new}; do mount -t tmpfs tmpfs "$it"; done
mount -t cgroup2 cgroup2 /sys/fs/cgroup
for it in passwd group; do mount --bind "$1/$it" "/etc/$it"; done
cp -r "$1/gofnild" /opt/gofnild
cp -r "$1/units" /run/units
exec env -i container=check PATH=/usr/bin:/bin SYSTEMD_UNIT_PATH=/run/units {systemd} --system --unit=default.target
"""
# What the units have that the check has elsewhere. What goes to the journal of systemd, which isn't there, goes to a file.
ELSEWHERE = (
    ("/etc/gofnild", "/opt/gofnild"),
    ("--bind 192.0.2.1", "--bind 127.0.0.1 --port 0"),
    ("@192.0.2.7", ""),
    ("StandardError=journal", "StandardError=append:/opt/gofnild/said"),
)
# A number that no user has.
NOBODY = 64001


def control_group():
    """The control group of this process, in the hierarchy that has one alone (cgroups(7), version 2)."""
    mounts = [line.split()[1] for line in pathlib.Path("/proc/mounts").read_text().split("\n") if " cgroup2 " in line]
    own = [line[3:] for line in pathlib.Path("/proc/self/cgroup").read_text().split("\n") if line.startswith("0::")]
    if not mounts or not own:
        raise LeftOut("there are no control groups of version 2")
    return pathlib.Path(mounts[0] + own[0])


def of_systemd(room, program):
    """What systemd is given: units, users, and the folder of the service."""
    if not SYSTEMD.exists() or not shutil.which("systemctl"):
        raise LeftOut("there is no systemd (package systemd)")
    if os.geteuid():
        raise LeftOut("a systemd of its own needs root")
    namespaces(*NAMESPACES)
    (room / "units").mkdir()
    for name in TARGETS:
        (room / "units" / f"{name}.target").write_text("[Unit]\nDefaultDependencies=no\n")
    for name in ("abis", "network"):
        text = (FOLDER.parent / "examples" / f"gofnild-{name}.service").read_text()
        for old, new in ELSEWHERE:
            text = text.replace(old, new)
        (room / "units" / f"gofnild-{name}.service").write_text(text)
    for name, line in (("passwd", f"gofnild:x:{NOBODY}:{NOBODY}::/:/bin/false\n"), ("group", f"gofnild:x:{NOBODY}:\n")):
        (room / name).write_text(pathlib.Path("/etc", name).read_text() + line)
    shutil.copytree(FOLDER, room / "gofnild" / "bridge")
    shutil.copy(program, room / "gofnild" / "bsc_lab")
    (room / "gofnild" / "bsc_lab").chmod(0o755)
    shutil.copy(SITE, room / "gofnild" / "site.toml")


class Systemd:
    """A systemd that runs."""

    def __init__(self, room):
        """`room` has what it is given."""
        self.group = control_group() / f"gofnild-check-{os.getpid()}-{room.name}"
        (room / "begin").write_text(BEGIN.format(new=" ".join(NEW), systemd=SYSTEMD))
        enter = f'echo $$ >"$1/cgroup.procs" && exec unshare --kill-child {" ".join(NAMESPACES)} sh {room}/begin {room}'
        try:
            self.group.mkdir()
        except OSError as error:
            raise LeftOut(f"no control group is to be had ({error})") from error
        with open(room / "begun", "wb") as log:
            self.process = subprocess.Popen(
                [*WITH_PARENT, "sh", "-c", enter, "sh", self.group], stdin=subprocess.DEVNULL, stdout=log, stderr=log
            )
        end = time.monotonic() + LIMIT
        while not self.is_running():
            if self.process.poll() is not None or time.monotonic() > end:
                self.stop()
                raise LeftOut(f"no systemd begins in namespaces of its own ({(room / 'begun').read_text().strip()[-200:]})")
            time.sleep(0.2)

    def is_running(self):
        """Whether it has begun."""
        if not (begun := children(self.process.pid)):
            return False
        self.number = begun[0]
        return self.ask("is-system-running").stdout.strip() in ("running", "degraded")

    def ask(self, *words):
        """What `systemctl` says."""
        enter = ["nsenter", f"--target={self.number}", "--mount", "--pid", "--ipc", "--uts", "--cgroup"]
        return subprocess.run([*enter, "systemctl", *words], capture_output=True, text=True, timeout=LIMIT)

    def do(self, *words):
        """Asks it to do something, which it does."""
        ran = self.ask(*words)
        must(ran.returncode == 0, f"systemctl {' '.join(words)} says {ran.returncode}: {ran.stdout}{ran.stderr}")

    def known(self, unit, *names):
        """Properties of a unit."""
        return tuple(self.ask("show", "--value", f"--property={name}", unit).stdout.strip() for name in names)

    def path(self, path):
        """Where a path of its own is from here."""
        return pathlib.Path(f"/proc/{self.number}/root{path}")

    def stop(self):
        """Ends it, and all that it has begun."""
        self.process.kill()
        self.process.wait()
        end = time.monotonic() + LIMIT
        while self.group.exists() and time.monotonic() < end:
            for path in sorted(self.group.glob("**/"), reverse=True):
                with contextlib.suppress(OSError):
                    path.rmdir()
            time.sleep(0.1)


def growing(path):
    """The lines of a file, to which more are added. It may not be there yet: a unit has started before its program runs."""
    end = time.monotonic() + LIMIT
    while not path.exists() and time.monotonic() < end:
        time.sleep(0.05)
    with open(path, errors="replace") as file:
        line = ""
        while path.exists():
            line += file.readline()
            if line.endswith("\n"):
                yield line
                line = ""
            else:
                time.sleep(0.05)


def is_on(operator, timeslot):
    """Waits until call 1 is on its channel."""
    end, told = time.monotonic() + LIMIT, ""
    while not re.fullmatch("on for call 1 since .*; station: on since .*", told):
        must(time.monotonic() < end, f"the channel is {told}")
        operator.ask("calls\n")
        told = operator.lines.expect(f"^channel 0/0/{timeslot}: (.*)$")[1]


def runs(systemd, unit, is_there, timeslot):
    """A unit runs as it should: another bridge takes its place, its log is opened anew, it is started again where it was killed, and
    ends. `is_there` is told the port at which stations join, and gives one that has joined; a channel of it has the timeslot."""
    systemd.do("start", unit)
    said = Lines(growing(systemd.path("/opt/gofnild/said")))
    station = is_there(said, int(said.expect(r"notice: listens on [0-9.]+, port (\d+)")[1]))
    before = systemd.known(unit, "MainPID", "ActiveState", "NRestarts")
    must(before[1:] == ("active", "0"), f"it is {before}")
    operator = Asker(systemd.path("/run/gofnild/operator"))
    operator.ask(f"open 1 0 0 {timeslot}\n")
    operator.expect(f"^event open 1 0/0/{timeslot} -> done$")
    is_on(operator, timeslot)
    for _ in range(2):
        systemd.do("kill", "--signal=USR2", "--kill-whom=main", unit)
        said.expect("notice: bridge upgrade: .* goes on in the bridge's place")
    systemd.do("reload", unit)
    is_on(operator, timeslot)
    must(station.is_there and systemd.known(unit, "MainPID", "ActiveState", "NRestarts") == before, "it began anew")
    systemd.do("kill", "--signal=KILL", "--kill-whom=main", unit)
    said.expect("calls of before are over: 1, with 1 channels$")
    after = systemd.known(unit, "ActiveState", "NRestarts")
    must(after == ("active", "1"), f"it is {after}")
    systemd.do("stop", unit)
    must(systemd.known(unit, "ActiveState", "Result") == ("inactive", "success"), "it doesn't end well")
    written = {it.name for it in systemd.path("/var/lib/gofnild").iterdir()}
    must(written == {"journal", "journal.site", "journal.stations"}, f"it leaves {written}")


def under_systemd(_start, room, program):
    """bridge/abis runs as gofnild-abis.service says."""
    of_systemd(room, program)
    systemd = Systemd(room)
    try:
        runs(systemd, "gofnild-abis", joined, 3)
    finally:
        systemd.stop()


def network_under_systemd(_start, room, program):
    """bridge/network runs as gofnild-network.service says."""
    of_systemd(room, program)
    centre, gateway = TestCentre(), TestGateway()
    core = '["/opt/gofnild/bsc_lab", "live", "--journal", "/var/lib/gofnild/journal"]'
    text = CONFIG.format(controller=core, port=centre.port, gateway=gateway.port, timers="", **KEYS)
    (room / "gofnild" / "network.toml").write_text(text)
    (room / "gofnild" / "site.toml").write_text(SITE_OF_NETWORK)
    systemd = Systemd(room)

    def comes(said, port):
        said.expect("A: the centre is there")
        return joined(said, port)

    try:
        runs(systemd, "gofnild-network", comes, 1)
    finally:
        systemd.stop()
        centre.stop()
        gateway.stop()


def joined(_said, port):
    """A station that has joined."""
    station = TestStation(port, FIRST)
    must(station.known.wait(LIMIT), f"{FIRST} isn't acknowledged")
    return station


CHECKS = [under_systemd, network_under_systemd]
