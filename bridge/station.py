"""A base station's TRX for tests: it says who it is, and answers activations and releases, unless it is told not to."""
import socket
import threading
import time

import ipa
import rsl

# How many seconds anything may take in a check.
LIMIT = 240


class TestStation:
    """One TRX. What is sent to it is kept, and waited for by `await_message`."""

    def __init__(self, port, unit, trx=0, source="127.0.0.1"):
        """`unit` is what it says it is; where that is None, it says nothing. It comes from the address `source`."""
        self.unit, self.trx = unit, trx
        # types of messages that aren't answered, and how many seconds it takes to answer the others
        self.unanswered, self.slowness = set(), 0.0
        # where it has speech: of each channel at a port of its own, counted from here
        self.ports = 0x4000
        self.answers_pings = True
        self.came = []
        self.is_there = True
        self.known = threading.Event()
        self.changed = threading.Condition()
        # frames that threads send at once don't mix
        self.sending = threading.Lock()
        self.socket = socket.create_connection(("127.0.0.1", port), 60, (source, 0))
        self.socket.settimeout(None)
        threading.Thread(target=self.listen, daemon=True).start()

    def listen(self):
        """Takes frames to the end of the link."""
        frames = ipa.Frames()
        try:
            while octets := self.socket.recv(1 << 16):
                frames.add(octets)
                while frame := frames.next():
                    self.take(*frame)
        except OSError:
            pass
        with self.changed:
            self.is_there = False
            self.changed.notify_all()

    def take(self, stream, message):
        """Takes a message, and answers it."""
        if stream == ipa.OWN and message[:1] == ipa.IDENTITY_REQUEST and self.unit is not None:
            text = self.unit.encode() + b"\0"
            self.frame(ipa.OWN, ipa.IDENTITY + (len(text) + 1).to_bytes(2, "big") + bytes([ipa.UNIT]) + text)
        elif stream == ipa.OWN and message[:1] == ipa.ACKNOWLEDGEMENT:
            self.known.set()
        elif stream == ipa.OWN and message[:1] == ipa.PING and self.answers_pings:
            self.frame(ipa.OWN, ipa.PONG)
        with self.changed:
            self.came.append((stream, message))
            self.changed.notify_all()
        message_type, channel = rsl.about_channel(message) or (None, None)
        self.take_speech(message)
        if message_type in self.unanswered:
            return
        if message_type in (rsl.ACTIVATION, rsl.RELEASE):
            time.sleep(self.slowness)
        if message_type == rsl.ACTIVATION:
            self.say(rsl.channel_message(rsl.ACTIVATION_ACK, channel, b"\x08\x00\x00"))
        elif message_type == rsl.RELEASE:
            self.say(rsl.channel_message(rsl.RELEASE_ACK, channel))

    def take_speech(self, message):
        """Answers what is asked about a channel's speech, as osmo-bts does: CRCX by 71, MDCX by 74, with a connection's number,
        its address and its port."""
        if message[:1] == b"\x7e" and message[1] in (0x70, 0x73) and message[1] not in self.unanswered:
            local = f"f80000f57f000001f3{self.ports + 2 * message[3]:04x}"
            self.say(bytes([0x7E, message[1] + 1]) + message[2:4] + bytes.fromhex(local))

    def frame(self, stream, message):
        """Sends a frame."""
        self.send(ipa.frame(stream, message))

    def say(self, message):
        """Sends a message of RSL."""
        self.frame(self.trx, message)

    def send(self, octets, piece=None):
        """Sends octets, in pieces of so many where that is asked for."""
        with self.sending:
            for at in range(0, len(octets), piece or len(octets)):
                self.socket.sendall(octets[at : at + (piece or len(octets))])
                if piece:
                    time.sleep(0.002)

    def await_message(self, is_it, seconds=LIMIT, count=1):
        """Waits for so many messages of a kind that were sent to it; whether they came."""
        with self.changed:
            return self.changed.wait_for(lambda: self.count(is_it) >= count, seconds)

    def count(self, is_it):
        """How many messages of a kind were sent to it."""
        with self.changed:
            return sum(is_it(stream, message) for stream, message in self.came)

    def settle(self, seconds=LIMIT):
        """Waits until the other side has taken what this one answers to all that it was sent by now; where the link has ended,
        nothing of that is to come."""
        # the first answer comes behind all that was sent, which is answered by then; the second, once those answers are taken
        for _ in range(2):
            count = self.count(is_pong)
            try:
                self.frame(ipa.OWN, ipa.PING)
            except OSError:
                return
            with self.changed:
                if not self.changed.wait_for(lambda: not self.is_there or self.count(is_pong) > count, seconds):
                    raise TimeoutError(f"{self.unit}: no answer to a ping")

    def await_end(self, seconds=LIMIT):
        """Waits until the other side has closed the link; whether it has."""
        with self.changed:
            return self.changed.wait_for(lambda: not self.is_there, seconds)

    def leave(self):
        """Closes the link."""
        self.socket.shutdown(socket.SHUT_RDWR)
        self.socket.close()


def is_pong(stream, message):
    """Whether a frame answers a ping."""
    return (stream, message) == (ipa.OWN, ipa.PONG)
