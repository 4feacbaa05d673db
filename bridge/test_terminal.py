"""The terminal of a media gateway for tests, over TCP. Its octets are those of osmo-mgw 1.10, down to what it says of its licence;
the numbers of packets follow from the time."""
import contextlib
import re
import socket
import threading
import time

from test_gateway import TestGateway

# What is said to who comes: the octets behind it are telnet's (RFC 854), by which the terminal says that it repeats what is typed.
WELCOME = (
    b"Welcome to the OsmoMGW VTY interface\r\n\r\nCopyright (C) 2009-2010 Holger Freyther and On-Waves\r\n"
    b"License AGPLv3+: GNU AGPL version 3 or later <http://gnu.org/licenses/agpl-3.0.html>\r\n"
    b"There is NO WARRANTY, to the extent permitted by law.\r\n\xff\xfb\x01\xff\xfb\x03\xff\xfe\"\xff\xfd\x1f"
)
PROMPT = b"OsmoMGW> "
ENDPOINT = re.compile(r"show mgcp endpoint (\S+)")


class TestTerminal:
    """A terminal. What is typed there is kept, as lines."""

    def __init__(self):
        # has the endpoints that are told
        self.gateway: TestGateway | None = None
        self.listener = socket.create_server(("127.0.0.1", 0))
        self.port = self.listener.getsockname()[1]
        # how many packets a second come from the first side of each endpoint, and from the second
        self.rates = 0, 0
        self.begun = time.monotonic()
        self.came: list[str] = []
        # whether it answers; and who is joined to it
        self.answers = True
        self.joined: socket.socket | None = None
        threading.Thread(target=self.serve, daemon=True).start()

    def serve(self):
        """Serves one after another."""
        while True:
            try:
                self.joined, _ = self.listener.accept()
            except OSError:
                return
            with contextlib.suppress(OSError), self.joined.makefile("r", newline="") as typed:
                self.joined.sendall(WELCOME + PROMPT)
                for line in typed:
                    self.take(line.strip())

    def take(self, line):
        """Takes what is typed: it is repeated, and answered."""
        self.came.append(line)
        if self.answers:
            self.joined.sendall(line.encode() + b"\r\n" + self.answer(line) + PROMPT)

    def answer(self, line):
        """What is answered."""
        if line.startswith("!"):
            return b""
        found = ENDPOINT.fullmatch(line)
        if not found or found[1] not in self.gateway.endpoints:
            return b"% Unknown command.\r\n"
        seconds = time.monotonic() - self.begun
        packets = [int(rate * seconds) for rate in self.rates]
        names = list(self.gateway.endpoints[found[1]])
        told = [connection(name, packets[1 - place], packets[place]) for place, name in enumerate(names)]
        head = f"Virtual trunk 0 endpoint {found[1]}:\r\n   Availability: available\r\n"
        # osmo-mgw tells of the last one first
        return (head + "".join(reversed(told))).encode()

    def lose(self):
        """Ends the link of who is joined, if anybody is."""
        if self.joined:
            with contextlib.suppress(OSError):
                self.joined.shutdown(socket.SHUT_RDWR)

    def stop(self):
        """Is there no more."""
        with contextlib.suppress(OSError):
            self.listener.shutdown(socket.SHUT_RDWR)
        self.listener.close()
        self.lose()


def connection(name, sent, came):
    """What is told of a connection."""
    return (
        f"   CONN: (1f/rtp, id:0x{name}, ip:127.0.0.10, rtp:5002 rtcp:5003)\r\n"
        f"   Packets Sent: {sent} ({sent * 45} bytes total)\r\n"
        f"   Packets Received: {came} ({came * 45} bytes total)\r\n"
        "   Timestamp Errs: 0->0\r\n   Dropped Packets: 0\r\n"
        "   Payload Type: 3 Rate: 8000 Channels: 1 \r\n   Frame Duration: 20 Frame Denominator: 1000\r\n"
        "   FPP: 0 Packet Duration: 20\r\n   FMTP-Extra: (null) Audio-Name: GSM/8000/1 Sub-Type: GSM\r\n"
        "   Output-Enabled: 1 Force-PTIME: 0\r\n"
    )
