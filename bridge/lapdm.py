"""A mobile's end of a link on the air (LAPDm, TS 44.006), on one service access point: messages go out frame by frame, each
once the one before it is acknowledged, and are put together as they come."""
import collections
import time

# Controls: SABM, DISC, UA; with the poll bit left out of the last. The lowest bits of one that says what was received.
SET_MODE, DISCONNECT, ACKNOWLEDGED, READY = 0x3F, 0x53, 0x63, 0x01
POLL, FINAL = 0x10, 0x10
# Octets that fill a frame, and how many it has.
FILL, FRAME = b"\x2b", 23
# How many octets of a message a frame has room for, on the fast channel and on the slow one (8.8.2.3).
FAST_ROOM, SLOW_ROOM = 20, 18
# After how many seconds a frame that isn't acknowledged is sent again, longer than the standard has it (T200): air and stations
# are programs of a machine that may have much else to do. And how often.
AGAIN, MOST_TIMES = 1.5, 5


class Link:
    """A link. `put` sends a frame's octets, `take` is given each message that came."""

    def __init__(self, sapi, room, put, take):
        self.sapi, self.room, self.put, self.take = sapi, room, put, take
        self.begin()

    def begin(self):
        """Nothing was said yet."""
        self.up = self.down = self.acknowledged = 0
        self.part, self.waiting = b"", collections.deque()
        self.is_open = False
        # the frame that isn't acknowledged, when it was sent, and how often
        self.unanswered, self.sent, self.times = None, 0.0, 0

    def frame(self, is_answer, control, information=b"", is_more=False):
        """Sends a frame."""
        head = bytes([self.sapi << 2 | is_answer << 1 | 1, control, len(information) << 2 | is_more << 1 | 1])
        if control == SET_MODE or control & 1 == 0:
            self.unanswered, self.sent, self.times = head + information, time.monotonic(), 1
        self.put(head + information)

    def tick(self):
        """Sends a frame again that isn't acknowledged, after a while."""
        if self.unanswered and self.times < MOST_TIMES and time.monotonic() > self.sent + AGAIN:
            self.sent, self.times = time.monotonic(), self.times + 1
            self.put(self.unanswered)

    def open(self, layer_3=b""):
        """Asks for the link, with a first message where a call begins."""
        self.begin()
        self.frame(False, SET_MODE, layer_3)

    def close(self):
        """Ends the link."""
        self.frame(False, DISCONNECT)

    def say(self, layer_3):
        """Sends a message."""
        pieces = [layer_3[at : at + self.room] for at in range(0, len(layer_3), self.room)]
        self.waiting.extend((piece, piece is not pieces[-1]) for piece in pieces)
        self.go_on()

    def go_on(self):
        """Sends the next frame, where the last is acknowledged."""
        if self.is_open and self.waiting and self.acknowledged == self.up:
            piece, is_more = self.waiting.popleft()
            number, self.up = self.up, (self.up + 1) % 8
            self.frame(False, self.down << 5 | number << 1, piece, is_more)

    def is_said(self):
        """Whether all that was said is acknowledged."""
        return not self.waiting and self.acknowledged == self.up

    def hear(self, octets):
        """Takes a frame; one of another service access point isn't for this link."""
        if len(octets) < 3 or octets[0] & 0xFC != self.sapi << 2:
            return
        control, length = octets[1:3]
        if control & ~FINAL == ACKNOWLEDGED:
            self.is_open, self.unanswered = True, None
        elif control == SET_MODE:
            self.begin()
            self.is_open = True
            self.frame(True, ACKNOWLEDGED | FINAL)
        elif control & 1 == 0:
            self.take_information(control, octets[3 : 3 + (length >> 2)], length & 2)
        elif control & 3 == READY:
            self.acknowledged = control >> 5
        if self.is_open and self.acknowledged == self.up:
            self.unanswered = None
        self.go_on()

    def take_information(self, control, information, is_more):
        """Takes a frame of a message, and acknowledges it."""
        self.acknowledged = control >> 5
        is_next = control >> 1 & 7 == self.down
        if is_next:
            self.down = (self.down + 1) % 8
            self.part += information
        self.frame(True, self.down << 5 | control & POLL | READY)
        if is_next and not is_more:
            message, self.part = self.part, b""
            self.take(message)
