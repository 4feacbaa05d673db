"""The checks of the way to the centre by M3UA (m3ua.py), with a program of lines of their own in place of m3ua.c, so that they
need no library: the compiler that the bridge finds is a script that puts it there."""
import os
import pathlib
import socket
import subprocess
import sys

from harness import FOLDER, LIMIT, SLOW, Lines, children, must
from network_harness import ACCEPT, COMPLETE, FIRST, REQUEST, TAKEN, UPDATE, assigned, burst, leave, said, say, sent

# The compiler is asked for the program by its third word. The program joins its lines to a socket.
COMPILER = '#!/bin/sh\ncp program "$3"\n'
PROGRAM = f"""#!{sys.executable}
import os, socket, sys, threading
link = socket.socket(socket.AF_UNIX)
link.connect("socket")
link.sendall(" ".join(["words", *sys.argv[1:], ""]).encode() + b"\\n")
def listen():
    while octets := link.recv(1 << 16):
        os.write(1, octets)
    os._exit(1)
threading.Thread(target=listen, daemon=True).start()
while octets := os.read(0, 1 << 16):
    link.sendall(octets)
"""
# The number that the first connection has which the bridge asks for.
FIRST_NUMBER = 0x400000
# COMPLETE LAYER 3 INFORMATION of the first cell, with a location update.
MADE_KNOWN = f"00225705080000f110001700641712{UPDATE}7d0180"


class LineCentre:
    """A centre at the other end of the program's lines."""

    def __init__(self, room):
        self.listener = socket.socket(socket.AF_UNIX)
        self.listener.bind(str(room / "socket"))
        self.listener.listen()
        self.listener.settimeout(LIMIT)
        for name, text in (("cc", COMPILER), ("program", PROGRAM)):
            (room / name).write_text(text)
            (room / name).chmod(0o755)

    def come(self, run):
        """The program is there, and so is the link: both sides begin anew."""
        self.socket, _ = self.listener.accept()
        self.lines = Lines(self.socket.makefile())
        # the point codes 0.42.1 and 0.23.1
        self.expect(f"words 127.0.0.1 {run.centre.port} 337 185 ")
        self.say("up")
        self.expect("unitdata 000430040120")
        self.say("unitdata 000131")
        run.said.expect("A: the centre is there")

    def say(self, line):
        """Says a line to the bridge."""
        self.socket.sendall(line.encode() + b"\n")

    def expect(self, line):
        """Waits for a line of the bridge."""
        self.lines.expect(f"^{line}$")

    def lose(self):
        """Ends the program."""
        self.socket.shutdown(socket.SHUT_RDWR)


def started(start, room, **options):
    """A network over M3UA, with its centre and a station."""
    centre = LineCentre(room)
    run = start(transport="m3ua", path=f"{room}:{os.environ['PATH']}", **options)
    centre.come(run)
    return run, centre, run.station(FIRST)


def begun(station, centre, place, reference="050a0d"):
    """A mobile makes itself known; its channel, and its connection, which is the one behind so many others."""
    burst(station, reference)
    number = assigned(station, reference)
    say(station, f"020601{number}02000b0012{UPDATE}")
    centre.expect(f"connect {FIRST_NUMBER + place} {MADE_KNOWN}")
    return number, FIRST_NUMBER + place


def lines_of_a_registration(start, room, _program):
    """Over M3UA: a mobile registers; what it says waits for the centre's confirm; octets that are no message are counted."""
    run, centre, station = started(start, room)
    number, connection = begun(station, centre, 0)
    said(station, number, COMPLETE)
    centre.say(f"confirmed {connection} -")
    centre.expect(f"data {connection} 010002{COMPLETE}")
    centre.say(f"data {connection} -")
    centre.say("data 12345 000121")
    centre.say(f"data {connection} 0100{len(ACCEPT) // 2:02x}{ACCEPT}")
    sent(station, f"030101{number}02000b{len(ACCEPT) // 2:04x}{ACCEPT}")
    centre.say(f"data {connection} 000420040109")
    leave(run, station, number)
    centre.expect(f"data {connection} 000121")
    centre.say(f"ended {connection} 0")
    # what comes behind that is answered
    centre.say("asked 9 000420040109")
    centre.expect("release 9")
    run.ask("network")
    run.expect("^centre: there; calls: 0, .* passed over: 2$")
    run.end()


def lines_of_others(start, room, _program):
    """Over M3UA: a call comes by HANDOVER REQUEST, and ends with its connection; one is refused; one isn't answered."""
    run, centre, station = started(start, room, connect=SLOW)
    centre.say(f"asked 7 {REQUEST}")
    centre.expect("accept 7")
    centre.expect(f"data 7 {TAKEN}")
    centre.say("ended 7 0")
    sent(station, "082e0109")
    run.expect("^event released 0/0/1 -> done$")
    centre.say("asked 8 000420040109")
    centre.expect("release 8")
    number, connection = begun(station, centre, 0)
    centre.say(f"ended {connection} 3")
    leave(run, station, number)
    number, connection = begun(station, centre, 1, "060a0d")
    centre.expect(f"release {connection}")
    leave(run, station, number)
    run.end()


def lines_that_end(start, room, _program):
    """Over M3UA: the program ends while a mobile is on its channel; its call ends, and the program is begun anew."""
    run, centre, station = started(start, room)
    number, connection = begun(station, centre, 0)
    centre.say(f"confirmed {connection} -")
    centre.lose()
    run.said.expect("A: no link to 127.0.0.1, port .*: the link ended")
    leave(run, station, number, 1)
    centre.come(run)
    number, connection = begun(station, centre, 1, "060a0d")
    centre.say(f"confirmed {connection} -")
    centre.say(f"data {connection} 000420040109")
    leave(run, station, number)
    centre.expect(f"data {connection} 000121")
    centre.say(f"ended {connection} 0")
    run.end()


def not_begun_anew(start, room, _program):
    """Over M3UA: the program ends, and can't be begun for a while, as where no file can be opened: the bridge goes on, and tries
    again."""
    run, centre, _station = started(start, room)
    commands = [pathlib.Path(f"/proc/{it}/cmdline").read_text().split("\0") for it in children(run.process.pid)]
    (path,) = [pathlib.Path(word) for words in commands for word in words if word.endswith("/m3ua")]
    elsewhere = path.rename(path.parent / "elsewhere")
    centre.lose()
    run.said.expect("A: no link to 127.0.0.1, port .*: the link ended")
    run.said.expect("A: no link to 127.0.0.1, port .*: .*No such file")
    elsewhere.rename(path)
    centre.come(run)
    run.end()


def no_compiler(start, room, _program):
    """Over M3UA, where the program can't be built: the bridge says why, and doesn't begin."""
    start().stop()
    (room / "cc").write_text("#!/bin/sh\necho 'm3ua.c: no such library' >&2\nexit 1\n")
    (room / "cc").chmod(0o755)
    text = (room / "config.toml").read_text().replace('"ipa"', '"m3ua"')
    (room / "config.toml").write_text(text)
    words = ["env", f"PATH={room}:{os.environ['PATH']}", FOLDER / "network", room / "config.toml"]
    ran = subprocess.run([str(it) for it in words], stdin=subprocess.DEVNULL, capture_output=True, text=True, timeout=LIMIT)
    must(ran.returncode == 2, f"the status is {ran.returncode}")
    must("can't begin: M3UA wants libosmo-sigtran-dev: m3ua.c: no such library" in ran.stderr, ran.stderr)


CHECKS = [
    lines_of_a_registration,
    lines_of_others,
    lines_that_end,
    not_begun_anew,
    no_compiler,
]
