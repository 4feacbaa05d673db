#!/usr/bin/env python3
"""For the checks, in a network namespace of its own: a station's cable is cut, and the bridge has to notice it.

    cut_cable.py PROGRAM FOLDER
"""
import fcntl
import pathlib
import socket
import struct
import sys
import time

sys.dont_write_bytecode = True
from harness import FIRST, SITE, Bridge, Unmet, measured

# How many seconds a link may be silent.
PATIENCE = 8
# Of loopback: its flags are read and set (netdevice(7)), among them whether it is up.
GET_FLAGS, SET_FLAGS, UP = 0x8913, 0x8914, 1


def set_up(is_up):
    """Takes loopback up or down: all that connects the bridge with its station."""
    with socket.socket() as it:
        request = struct.pack("16sh14x", b"lo", 0)
        flags = struct.unpack("16sh14x", fcntl.ioctl(it, GET_FLAGS, request))[1]
        fcntl.ioctl(it, SET_FLAGS, struct.pack("16sh14x", b"lo", flags & ~UP | UP * is_up))


def main():
    program, room = map(pathlib.Path, sys.argv[1:])
    set_up(True)
    options = ("--port", "0", "--patience", PATIENCE, "--answer", "120")
    bridge = Bridge((program, "live", SITE), room, options, (FIRST + "=0/0",))
    try:
        bridge.station(FIRST)
        bridge.ask("open 1 0 0 3")
        bridge.expect("record 0/0/3 on$")
        begun = time.monotonic()
        set_up(False)
        bridge.said.expect("station 6969/0/0 .*its link is lost, with 1 channels")
        measured("a cut cable is noticed", time.monotonic() - begun, f"with {PATIENCE} seconds of patience")
        bridge.expect("^in abis 0 0 0824010b1a0120$", "^out a 1 000422040101$")
        bridge.end()
    except Unmet as error:
        print(error, file=sys.stderr)
        return 1
    finally:
        bridge.stop()
    return 0


if __name__ == "__main__":
    sys.exit(main())
