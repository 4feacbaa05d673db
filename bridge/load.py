"""Registrations and calls as fast as they go, for bridge/measure: centres and stations that answer at once, each message as
the checks have it."""
import socket
import threading
import time

from centre import TestCentre
from network_harness import ACCEPT, CLEAR, CLEARED, COMPLETE, UPDATE
from speech_harness import ASSIGN
from station import TestStation


class LoadCentre(TestCentre):
    """A centre that registers who comes."""

    def answer(self, text):
        """Accepts, clears, and ends each connection."""
        super().answer(text)
        other = text[2:8]
        if text.startswith("01"):
            self.data(other, f"01000e{ACCEPT}")
        elif is_data(text, COMPLETE):
            self.data(other, CLEAR)
        elif is_data(text, CLEARED):
            self.release(other)


class SpeakingCentre(TestCentre):
    """A centre that asks for speech of who comes, and clears the call once that is there."""

    def answer(self, text):
        """Asks for speech, clears, and ends each connection."""
        super().answer(text)
        other = text[2:8]
        if text.startswith("01"):
            self.data(other, ASSIGN)
        elif text[12:].startswith("1400120221"):
            self.data(other, CLEAR)
        elif is_data(text, CLEARED):
            self.release(other)


def is_data(text, end):
    """Whether octets of SCCP are data on a connection that end so: the end of a message may look like a connection's number."""
    return text.startswith("06") and text.endswith(end)


class LoadStation(TestStation):
    """A station in whose cell so many mobiles come one after another, some at once."""

    def __init__(self, port, unit, count, at_once):
        self.left, self.count, self.unreleased = count, 0, count
        # when each burst came; when each channel was asked for, and when its station had answered; and what took how long, of all:
        # from the burst to the former, and from the latter to the assignment
        self.begun, self.asked, self.answered, self.took = {}, {}, {}, []
        self.done = threading.Event()
        self.at_once = at_once
        super().__init__(port, unit)
        # small messages don't wait for one another's acknowledgement
        self.socket.setsockopt(socket.IPPROTO_TCP, socket.TCP_NODELAY, 1)

    def begin(self):
        """The first bursts."""
        for _ in range(self.at_once):
            self.burst()

    def burst(self):
        """A mobile asks for a channel."""
        if self.left == 0:
            return
        self.left -= 1
        self.count += 1
        reference = f"{self.count % 16:02x}{self.count:04x}"
        self.begun[reference] = time.perf_counter()
        self.say(bytes.fromhex(f"0c13018813{reference}1100"))

    def take(self, stream, message):
        """Takes a message, and does what a mobile does then."""
        text = message.hex()
        if text.startswith("082101"):
            self.asked[text[6:8]] = time.perf_counter()
        super().take(stream, message)
        if text.startswith("082101"):
            self.answered[text[6:8]] = time.perf_counter()
        elif text.startswith("0c1601902b174d063a"):
            # up to four are rejected, and ask again
            for reference in {text[at : at + 6] for at in (20, 28, 36, 44)}:
                del self.begun[reference]
                self.left += 1
                self.burst()
        elif text.startswith("0c1601902b172d063f"):
            number, reference = text[20:22], text[26:32]
            before = self.asked.pop(number) - self.begun.pop(reference)
            self.took.append(before + time.perf_counter() - self.answered.pop(number))
            self.say(bytes.fromhex(f"020601{number}02000b0012{UPDATE}"))
        elif text.endswith(ACCEPT):
            self.say(bytes.fromhex(f"030201{text[6:8]}02000b0002{COMPLETE}"))
        elif text[18:22] == "0610":
            # CHANNEL MODE MODIFY, which is acknowledged
            self.say(bytes.fromhex(f"030201{text[6:8]}02000b00060617{text[22:]}"))
        elif text.endswith("060d00"):
            self.say(bytes.fromhex(f"020901{text[6:8]}0200"))
        elif text.startswith("082e01"):
            self.unreleased -= 1
            self.burst()
            if self.unreleased == 0:
                self.done.set()
