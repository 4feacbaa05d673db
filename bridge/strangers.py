#!/usr/bin/env python3
"""Strangers for the checks: so many links to a bridge, each of which sends empty frames as fast as it can, and comes again once
it is closed.

    strangers.py PORT LINKS SECONDS
"""
import contextlib
import selectors
import socket
import sys
import time

EMPTY = b"\0\0\0" * 10_000


def link(selector, port):
    """Begins a link."""
    it = socket.socket()
    it.setblocking(False)
    it.connect_ex(("127.0.0.1", port))
    selector.register(it, selectors.EVENT_WRITE | selectors.EVENT_READ)


def main():
    port, links, seconds = int(sys.argv[1]), int(sys.argv[2]), float(sys.argv[3])
    selector, end, begun = selectors.PollSelector(), time.monotonic() + seconds, links
    for _ in range(links):
        link(selector, port)
    print("there", flush=True)
    while time.monotonic() < end:
        for key, _ in selector.select(1):
            try:
                key.fileobj.send(EMPTY)
            except BlockingIOError:
                continue
            except OSError:
                selector.unregister(key.fileobj)
                key.fileobj.close()
                with contextlib.suppress(OSError):
                    link(selector, port)
                begun += 1
        time.sleep(0.002)
    print(f"{begun} links", flush=True)


if __name__ == "__main__":
    main()
