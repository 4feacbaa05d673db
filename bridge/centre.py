"""A switching centre for tests, over IPA. Its octets are those that osmo-stp and osmo-msc sent:
nothing of the bridge's own reading or writing is used, so that a mistake there isn't made here too."""
import contextlib
import re
import socket
import threading

from station import LIMIT

# What osmo-stp asks of who connects, and its acknowledgement: stream FE of IPA.
ASKED, ACKNOWLEDGED = bytes.fromhex("fe0401080107010201030104010501010100"), bytes.fromhex("fe06")
# RESET ACKNOWLEDGE and PAGING from the point code 0.23.1 to 0.42.1; a connection is confirmed by the called address.
UNIT_DATA = "090003070b04435101fe0443b900fe"
RESET_ACKNOWLEDGE = UNIT_DATA + "03000131"
RESET = UNIT_DATA + "06000430040120"


class TestCentre:
    """A centre. What it is sent is kept, as hexadecimal octets of SCCP, and waited for by `expect`."""

    def __init__(self, port=0):
        self.listener = socket.create_server(("127.0.0.1", port))
        self.port = self.listener.getsockname()[1]
        # whether it says anything, acknowledges RESET, confirms connections, and acknowledges their end
        self.speaks = self.acknowledges = self.confirms = self.completes = True
        self.pieces = None
        self.links = 0
        self.socket = None
        self.came, self.at = [], 0
        self.names = []
        self.changed = threading.Condition()
        self.lock = threading.Lock()
        threading.Thread(target=self.serve, daemon=True).start()

    def serve(self):
        """Takes one link after another."""
        while True:
            try:
                connection, _ = self.listener.accept()
            except OSError:
                return
            connection.setsockopt(socket.IPPROTO_TCP, socket.TCP_NODELAY, 1)
            self.socket = connection
            self.frame(ASKED)
            try:
                self.listen(connection)
            except OSError:
                pass
            with self.changed:
                self.socket = None
                self.changed.notify_all()

    def listen(self, connection):
        """Takes the frames of a link."""
        octets = b""
        while piece := connection.recv(1 << 16):
            octets += piece
            while len(octets) >= 3 and len(octets) >= (end := 3 + int.from_bytes(octets[:2], "big")):
                frame, octets = octets[2:end], octets[end:]
                self.take(frame)

    def take(self, frame):
        """Takes a frame, and answers it."""
        if frame[:2] == b"\xfe\x05":
            self.names.append(frame)
            self.frame(ACKNOWLEDGED)
        elif frame[:2] == b"\xfe\x06":
            self.links += 1
        elif frame[:2] == b"\xfe\x00":
            self.frame(b"\xfe\x01")
        elif frame[:1] == b"\xfd":
            text = frame[1:].hex()
            self.answer(text)
            with self.changed:
                self.came.append(text)
                self.changed.notify_all()

    def answer(self, text):
        """Answers what a centre answers always."""
        if text.startswith("09") and text.endswith("000430040120") and self.acknowledges:
            self.send(RESET_ACKNOWLEDGE)
        elif text.startswith("01") and self.confirms:
            self.confirm(text[2:8])
        elif text.startswith("04") and self.completes:
            self.send("05" + text[8:14] + text[2:8])

    def frame(self, *frames):
        """Sends frames at once, in pieces of so many octets where that is asked for."""
        if not self.speaks:
            return
        octets = b"".join((len(octets) - 1).to_bytes(2, "big") + octets for octets in frames)
        with self.lock:
            for at in range(0, len(octets), self.pieces or len(octets)):
                self.socket.sendall(octets[at : at + (self.pieces or len(octets))])

    def send(self, *texts):
        """Sends messages of SCCP at once."""
        self.frame(*(b"\xfd" + bytes.fromhex(text) for text in texts))

    def confirm(self, other, own=None):
        """Confirms a connection. Its own reference is the other's, as osmo-msc had it, unless another is asked for."""
        self.send(f"02{other}{own or other}0201030242fe00")

    def ask(self, own, message):
        """Asks for a connection, with a message."""
        self.send(f"01{own}02020604435101fe040443b900fe0f{len(message) // 2:02x}{message}00")

    def data(self, other, message):
        """Says something on a connection, by the reference of the other side."""
        self.send(f"06{other}0001{len(message) // 2:02x}{message}")

    def release(self, other, own=None):
        """Ends a connection."""
        self.send(f"04{other}{own or other}000100")

    def expect(self, pattern, seconds=LIMIT):
        """Waits for octets of SCCP that a pattern describes, behind those that were waited for before; the match."""

        def find():
            for place in range(self.at, len(self.came)):
                if found := re.fullmatch(pattern, self.came[place]):
                    self.at = place + 1
                    return found
            return None

        with self.changed:
            found = self.changed.wait_for(find, seconds)
        if not found:
            raise TimeoutError(f"the centre isn't sent {pattern}, but {self.came[self.at :][-8:]}")
        return found

    def begun(self, layer_3, cell=100, codec="80"):
        """Waits for the connection of a mobile's first message in a cell, and gives its reference: CONNECTION REQUEST with
        COMPLETE LAYER 3 INFORMATION, as osmo-msc took it, with the codec of the channel behind."""
        length = len(layer_3) // 2
        message = f"00{length + 16:02x}5705080000f1100017{cell:04x}17{length:02x}{layer_3}7d01{codec}"
        return self.expect(f"01(......)02020402" f"42fe0404435101fe0f{length + 18:02x}{message}00")[1]

    def lose(self):
        """Cuts the link."""
        with contextlib.suppress(OSError, AttributeError):
            self.socket.shutdown(socket.SHUT_RDWR)

    def stop(self):
        """Takes no more links."""
        self.listener.close()
        self.lose()
