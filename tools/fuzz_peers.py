"""What is around the bridge, for tools/fuzz-bridge: stations, the centre's side, the media gateway and operators, each of which
says what it may and, at random, what it may not. Nobody waits for anything: each says something at its step, and answers what came."""
import contextlib
import itertools
import socket
import struct

import ipa
from centre import ACKNOWLEDGED, ASKED, RESET, RESET_ACKNOWLEDGE, UNIT_DATA
from check_between import COMMAND, REJECT, REQUIRED
from check_ciphering import COMMAND as CIPHER
from check_paging import PAGING
from network_harness import ACCEPT, CLEAR, REQUEST, UPDATE
from speech_harness import ASSIGN, SERVICE
from test_gateway import TestGateway

UNITS = ("6969/0/0", "6970/0/0")
# The channels of each station, by their numbers on Abis, and others.
CHANNELS, OTHERS = ("09", "0a"), ("0b", "08", "11", "ff", "88")
# What the centre says to mobiles, by DTAP, on several links.
DTAP = ("01000305180a", "010006052401020304", "0103040901050a", "01010209aa", "0100020613", f"01000e{ACCEPT}")
# A script of a link is cut at one of so many octets.
OCTETS = 400
# What becomes of a link where it is cut.
ENDS = HALVES, CLOSED, RESET_THERE = ("halves", "closed", "reset")
# How many links, and how many operators, there may be at once.
MOST_LINKS, MOST_OPERATORS = 5, 4


def odds(chance, *choices):
    """One of choices, each of which has its weight in front."""
    return chance.choices([it for _, it in choices], [weight for weight, _ in choices])[0]


def broken(chance, octets):
    """Octets with something wrong."""
    octets, at = bytearray(octets), chance.randrange(len(octets) + 1)
    how = chance.randrange(5)
    if how == 0:
        return bytes(octets[:at])
    if how == 1:
        return bytes(octets[:at] + chance.randbytes(chance.randrange(1, 9)) + octets[at:])
    if how == 2 and octets:
        octets[at % len(octets)] ^= 1 << chance.randrange(8)
    elif how == 3 and octets:
        octets[at % len(octets)] = chance.choice((0, 0xFF, 0x7F, 0x80, chance.randrange(256)))
    else:
        octets = octets[at:] + octets[:at]
    return bytes(octets)


class Link:
    """A link of TCP. What is said on it is cut at an octet, if at all, and later at random."""

    def __init__(self, chance, connection, cut=None, end=HALVES):
        self.chance, self.connection, self.cut, self.end = chance, connection, cut, end
        self.said, self.rest, self.is_gone = 0, b"", False
        self.octets, self.mark = b"", None
        connection.setblocking(False)

    def say(self, octets):
        """Says octets."""
        if self.rest:
            self.rest += octets
        elif self.cut is not None and self.said <= self.cut < self.said + len(octets):
            at, self.cut = self.cut - self.said, None
            self.put(octets[:at])
            self.be_cut(octets[at:])
        else:
            self.put(octets)

    def put(self, octets):
        """Puts octets into the socket."""
        self.said += len(octets)
        try:
            # what there is no room for is lost, as if it was broken
            self.connection.send(octets)
        except BlockingIOError:
            pass
        except OSError:
            self.close()

    def be_cut(self, rest):
        """What is said ends here, for a while or for good."""
        if self.end == HALVES:
            self.rest = rest
        else:
            self.close(self.end == RESET_THERE)

    def go_on(self):
        """The second half comes."""
        rest, self.rest = self.rest, b""
        self.say(rest)

    def frame(self, octets):
        """Says a frame of IPA, its stream in front, or something broken."""
        if not self.chance.randrange(60):
            octets = broken(self.chance, octets)
        frame = ipa.frame(octets[0] if octets else 0, octets[1:])
        if not self.chance.randrange(150):
            frame = broken(self.chance, frame)
        if not self.chance.randrange(150):
            self.cut, self.end = self.said + self.chance.randrange(len(frame) + 1), self.chance.choice(ENDS)
        if not self.is_gone:
            self.say(frame)

    def close(self, is_reset=False):
        """Ends it."""
        if not self.is_gone:
            self.is_gone = True
            if is_reset:
                self.connection.setsockopt(socket.SOL_SOCKET, socket.SO_LINGER, struct.pack("ii", 1, 0))
            self.connection.close()

    def frames(self):
        """The frames that came, each with its stream in front."""
        with contextlib.suppress(BlockingIOError):
            while not self.is_gone:
                try:
                    piece = self.connection.recv(1 << 16)
                except BlockingIOError:
                    raise
                except OSError:
                    piece = b""
                if not piece:
                    self.close()
                self.octets += piece
        while len(self.octets) >= 3 and len(self.octets) >= (end := 3 + int.from_bytes(self.octets[:2], "big")):
            frame, self.octets = self.octets[2:end], self.octets[end:]
            yield frame


class Stations:
    """Stations, and who says that he is one."""

    def __init__(self, chance, seed, port):
        self.chance, self.port, self.links = chance, port, []
        # the first link of a life is cut; in every second life that of a rival
        self.cut, self.end, self.rivals = seed // 3 % OCTETS, ENDS[seed % 3], seed // 3 // OCTETS % 2
        self.count, self.is_left = 0, False
        self.references = itertools.count(seed)

    def step(self):
        """Does something."""
        self.links = [it for it in self.links if not it.is_gone]
        if not self.links or not self.chance.randrange(14) and len(self.links) < MOST_LINKS:
            return self.begin()
        link = self.chance.choice(self.links)
        if link.rest:
            link.go_on()
            return f"{link.unit}: the second half"
        if not self.chance.randrange(60):
            link.close(bool(self.chance.randrange(2)))
            return f"{link.unit}: ends"
        text = self.something(link)
        link.frame(b"\0" + bytes.fromhex(text))
        return f"{link.unit}: {text}"

    def begin(self):
        """A link begins."""
        there = [it.unit for it in self.links]
        lacking = [it for it in UNITS if it not in there] or list(UNITS)
        unit = odds(self.chance, (8, self.chance.choice(lacking)), (3, self.chance.choice(UNITS)), (1, "1/2/3"), (1, None))
        is_cut = self.count == self.rivals
        self.count += 1
        connection = socket.create_connection(("127.0.0.1", self.port))
        link = Link(self.chance, connection, self.cut if is_cut else None, self.end)
        link.unit = unit
        # one that doesn't answer pings can be followed by another
        link.answers_pings = self.count > self.rivals and bool(self.chance.randrange(5))
        self.links.append(link)
        return f"a link that is {unit}, cut: {is_cut and (self.cut, self.end)}, answers pings: {link.answers_pings}"

    def something(self, link):
        """What a station says of itself."""
        channel = odds(self.chance, (12, self.chance.choice(CHANNELS)), (1, self.chance.choice(OTHERS)))
        reference = next(self.references)
        burst = f"0c13018813{self.chance.choice((0x05, 0x85, 0xE5, 0x45, 0x10)):02x}{reference % 65536:04x}11{reference % 70:02x}"
        report = f"082801{channel}1b001903001e0004000b0012061515{self.chance.randrange(64):02x}00" + "00" * 13
        up = self.chance.choice(("055b", "0559", "8341", "061603571881", "0617" + channel + "203c01", "0632", "890105a1a2a3a4"))
        link_number = odds(self.chance, (6, "00"), (2, "43"), (1, "03"))
        said = f"030201{channel}02{link_number}0b{len(up) // 2:04x}{up}"
        told = ("062c00", "06286f")
        arrives = self.chance.choice(told)
        rows = (
            (12, burst),
            (8, report),
            (8, said),
            (4, f"030201{channel}02000b0003{arrives}"),
            (3, f"082701{channel}"),
            (2, f"082401{channel}1a0101"),
            (3, f"020901{channel}02{link_number}"),
            (2, f"020301{channel}02{link_number}1601{self.chance.randrange(16):02x}"),
            (2, f"020{self.chance.choice('568')}01{channel}02{link_number}"),
            (2, f"020601{channel}02000b0012{UPDATE}"),
            (2, f"082201{channel}080000"),
            (2, f"082301{channel}1a01{self.chance.choice(('64', '20', '50'))}"),
            (2, f"083301{channel}"),
            (2, f"7e{self.chance.randrange(0x70, 0x7A):02x}01{channel}f80001f57f000001f34012"),
            (1, "101c1a0161"),
            (1, "0c120188"),
            (1, self.chance.randbytes(self.chance.randrange(40)).hex()),
        )
        return odds(self.chance, *rows)

    def answer(self):
        """Answers what came; whether anything did."""
        came = False
        for link in self.links:
            for frame in link.frames():
                came = True
                self.take(link, frame[0], frame[1:])
        return came

    def take(self, link, stream, message):
        """Takes a message."""
        if stream == ipa.OWN and message[:1] == ipa.IDENTITY_REQUEST and link.unit and not self.is_left:
            text = link.unit.encode() + b"\0"
            link.frame(b"\xfe\x05" + (len(text) + 1).to_bytes(2, "big") + b"\x08" + text)
            if self.chance.randrange(2):
                # behind it, at once
                link.frame(b"\0" + bytes.fromhex(self.something(link)))
        elif stream == ipa.OWN and message[:1] == ipa.PING and link.answers_pings:
            link.frame(b"\xfe\x01")
        elif stream == 0 and len(message) > 3:
            for text in self.answers_to(message.hex()):
                link.frame(b"\0" + bytes.fromhex(text))

    def answers_to(self, text):
        """What is answered to a message."""
        channel = text[6:8]
        if text.startswith("0821"):
            refused = f"082301{channel}1a0121"
            return odds(self.chance, (16, [f"082201{channel}080000"]), (2, [refused]), (2, []), (1, [f"082201{channel}"]))
        if text.startswith("082e"):
            done = f"083301{channel}"
            return odds(self.chance, (16, [done]), (2, []), (1, [done, done]), (1, [f"083301{channel}db50"]))
        if text.startswith(("7e70", "7e73")):
            kind = int(text[2:4], 16) + odds(self.chance, (16, 1), (1, 2), (1, 6))
            local = f"f80000f57f000001f3{0x4000 + 2 * int(channel, 16):04x}"
            return odds(self.chance, (16, [f"7e{kind:02x}01{channel}{local}"]), (1, [f"7e{kind:02x}01{channel}"]), (1, []))
        if text.startswith("0c1601902b172d063f"):
            first = self.chance.choice((UPDATE, SERVICE, SERVICE, "0627070357188105f4f00000b8"))
            return odds(self.chance, (9, [f"020601{text[20:22]}02000b{len(first) // 2:04x}{first}"]), (1, []))
        if text.startswith("0204"):
            return odds(self.chance, (8, [f"020501{channel}0243"]), (1, [f"020901{channel}0243"]), (1, []))
        if text.startswith("0301") and len(text) > 18:
            return self.answers_of_mobile(channel, text[18:])
        return []

    def answers_of_mobile(self, channel, told):
        """What a mobile answers that is told something."""
        if told.startswith("060d"):
            return odds(self.chance, (9, [f"020901{channel}0200"]), (1, []))
        if told.startswith("062b"):
            self.move(channel, told)
            return []
        answers = {"0610": f"0617{told[4:]}", "0635": "0632", "0613": "061603571881", ACCEPT[:4]: "055b"}
        if not (answer := answers.get(told[:4])) or not self.chance.randrange(8):
            return []
        return [f"030201{channel}02000b{len(answer) // 2:04x}{answer}"]

    def move(self, channel, told):
        """A mobile is sent to another channel: it arrives there, comes back, or is lost."""
        unit = UNITS[told[12:14] == "46"]
        target, back = told[8:10], f"030201{channel}02000b000306286f"
        arrives = [f"082701{target}", f"020601{target}0200", f"030201{target}02000b0003062c00"]
        texts = odds(self.chance, (6, arrives), (1, arrives[2:]), (1, arrives[:1]), (2, [back]), (1, []))
        for link in self.links:
            if texts and (link.unit == unit) == (texts[0] != back) and not link.is_gone:
                for text in texts:
                    link.frame(b"\0" + bytes.fromhex(text))

    def leave(self):
        """All links end."""
        self.is_left = True
        self.stop()

    def stop(self):
        """All links end."""
        for link in self.links:
            link.close()


class Centre:
    """The centre's side: osmo-stp, and the centre behind it."""

    def __init__(self, chance, seed):
        self.chance = chance
        self.listener = socket.create_server(("127.0.0.1", 0))
        self.listener.setblocking(False)
        self.port = self.listener.getsockname()[1]
        self.link = None
        # the first link of a life is cut
        self.cut, self.end = seed // 3 % OCTETS, ENDS[seed % 3]
        # connections: by the other's reference the own one
        self.connections = {}
        self.own = itertools.count(0x800000)
        self.is_left = False

    def step(self):
        """Does something."""
        link = self.link
        if link is None or link.is_gone:
            return "no link to the centre"
        if link.rest:
            link.go_on()
            return "the centre's second half"
        if not self.chance.randrange(80):
            link.close(bool(self.chance.randrange(2)))
            return "the centre's link ends"
        text = self.something()
        link.frame(b"\xfd" + bytes.fromhex(text))
        return f"the centre: {text}"

    def something(self):
        """What the centre says of itself."""
        other = self.chance.choice([*self.connections, "000001"])
        own = self.connections.get(other, "000001")
        asked = f"{next(self.own):06x}"
        dtap = self.chance.choice(DTAP)
        data = self.chance.choice((ASSIGN, ASSIGN, CLEAR, CIPHER, "000158", dtap, dtap, dtap, COMMAND, REJECT, "00012f", REQUEST))
        rows = (
            (20, f"06{other}0001{len(data) // 2:02x}{data}"),
            (4, f"{UNIT_DATA}18{PAGING}"),
            (5, f"01{asked}02020604435101fe040443b900fe0f{len(REQUEST) // 2:02x}{REQUEST}00"),
            (1, f"01{asked}02020604435101fe040443b900fe00"),
            (2, f"04{other}{own}000100"),
            (1, f"10{other}{own}0200000000"),
            (1, f"06{other}0101{len(data) // 2:02x}{data}"),
            (1, f"02{other}{own}0201030242fe00"),
            (1, f"03{other}0000"),
            (1, f"0f{other}00"),
            (1, f"05{other}{own}"),
            (1, RESET),
            (1, RESET_ACKNOWLEDGE),
            (1, self.chance.randbytes(self.chance.randrange(1, 60)).hex()),
        )
        return odds(self.chance, *rows)

    def answer(self):
        """Answers what came; whether anything did."""
        with contextlib.suppress(BlockingIOError):
            connection, _ = self.listener.accept()
            self.link = Link(self.chance, connection, self.cut, self.end)
            self.cut, self.connections = None, {}
            asked = odds(self.chance, (9, ASKED), (1, b"\xfe\x04" + b"\x01\x08\x01\x01" * 16_000))
            self.link.frame(asked)
            if not self.chance.randrange(4):
                # at once, and perhaps that is all
                self.link.frame(ACKNOWLEDGED)
                if self.chance.randrange(2):
                    self.link.close()
            return True
        came = False
        for frame in self.link.frames() if self.link else ():
            came = True
            self.take(frame)
        return came

    def take(self, frame):
        """Takes a frame."""
        if frame[:2] == b"\xfe\x05":
            self.link.frame(ACKNOWLEDGED)
        elif frame[:2] == b"\xfe\x00" and self.chance.randrange(12):
            self.link.frame(b"\xfe\x01")
        elif frame[:1] == b"\xfd":
            for text in self.answers_to(frame[1:].hex()):
                self.link.frame(b"\xfd" + bytes.fromhex(text))

    def answers_to(self, text):
        """What is answered to a message of SCCP."""
        if text.startswith("09") and text.endswith("000430040120"):
            return odds(self.chance, (9, [RESET_ACKNOWLEDGE]), (1, []))
        if text.startswith("01"):
            return self.answers_to_request(text[2:8])
        if text.startswith("02"):
            # of the bridge: its own reference stands behind ours
            self.connections[text[8:14]] = text[2:8]
            return []
        if text.startswith("04"):
            self.connections.pop(text[8:14], None)
            return odds(self.chance, (9, [f"05{text[8:14]}{text[2:8]}"]), (1, []))
        if text.startswith("06"):
            return self.answers_to_data(text[2:8], text[12:])
        return []

    def answers_to_request(self, other):
        """What is answered to a connection request, and said then."""
        confirmed, refused = f"02{other}{other}0201030242fe00", f"03{other}0000"
        self.connections[other] = other
        first = self.chance.choice((f"01000e{ACCEPT}", ASSIGN, ASSIGN, CLEAR, CIPHER))
        then = f"06{other}0001{len(first) // 2:02x}{first}"
        return odds(self.chance, (16, [confirmed, then]), (3, [confirmed]), (1, [refused]), (1, []), (1, [then, confirmed]))

    def answers_to_data(self, own, message):
        """What is answered to data on a connection."""
        other = next((it for it, its_own in self.connections.items() if its_own == own), own)
        answers = {"22": CLEAR, "11": self.chance.choice((COMMAND, REJECT))}
        kind = message[6:8] if message[2:4] == "00" else ""
        if kind == "21":
            self.connections.pop(other, None)
            return odds(self.chance, (9, [f"04{other}{own}000100"]), (1, []))
        if kind not in answers or not self.chance.randrange(6):
            return []
        return [f"06{other}0001{len(answers[kind]) // 2:02x}{answers[kind]}"]

    def leave(self):
        """The link ends, and there is no other."""
        self.listener.close()
        self.listener = socket.socket()
        self.stop()

    def stop(self):
        """The link ends."""
        if self.link:
            self.link.close()
        self.listener.close()
        self.listener = socket.create_server(("127.0.0.1", 0))
        self.listener.setblocking(False)


class Gateway(TestGateway):
    """The media gateway. The first answers of a life are cut at an octet."""

    def __init__(self, chance, seed):
        self.chance, self.cut = chance, seed % 260
        self.socket = socket.socket(socket.AF_INET, socket.SOCK_DGRAM)
        self.socket.bind(("127.0.0.1", 0))
        self.socket.setblocking(False)
        self.port = self.socket.getsockname()[1]
        self.unanswered, self.refused, self.times = set(), {}, 1
        self.endpoints, self.endpoint_count, self.connection_count = {}, 0, 0
        self.answered, self.late, self.peer = {}, [], None
        self.is_left = False

    def changed_answer(self, text):
        """What is said in place of an answer."""
        octets = text.encode()
        if self.cut is not None and self.cut < len(octets):
            octets, self.cut = octets[: self.cut], None
            return octets
        if not self.chance.randrange(12):
            return broken(self.chance, octets)
        odd = self.chance.choice(("\x1b[31m", "", " ", "*", "0" * 300))
        return octets if self.chance.randrange(12) else text.replace("Z: ", f"Z: {odd}").encode()

    def send(self, text):
        """Says something, at once, later, or not at all."""
        how = self.chance.randrange(14)
        if how == 0:
            self.late.append(text)
        elif how > 1 and self.peer:
            with contextlib.suppress(OSError):
                self.socket.sendto(text, self.peer)

    def step(self):
        """Says something late, or of itself."""
        late, self.late = self.late, []
        for text in late:
            self.send(text)
        if not self.peer:
            return "the gateway isn't asked yet"
        text = odds(self.chance, (3, b""), (1, b"RSIP 9 *@mgw MGCP 1.0\r\n"), (1, self.chance.randbytes(30)), (1, b"200 7 OK\r\n"))
        if self.answered and self.chance.randrange(2):
            text = self.chance.choice(list(self.answered.values())).encode()
        if not self.chance.randrange(30):
            # it begins anew
            self.endpoints.clear()
        with contextlib.suppress(OSError):
            self.socket.sendto(text, self.peer)
        return f"the gateway: {text[:60]!r}"

    def answer(self, *words):
        """Answers what came, or, as the gateway of the checks asks it, makes the answer to something."""
        if words:
            return super().answer(*words)
        came = False
        with contextlib.suppress(BlockingIOError):
            while True:
                octets, self.peer = self.socket.recvfrom(4096)
                came = True
                with contextlib.suppress(AttributeError, KeyError, TypeError):
                    # what was broken comes back so
                    self.take(octets.decode())
        return came

    def leave(self):
        """It answers no more."""
        self.unanswered = {"CRCX", "MDCX", "DLCX"}

    def stop(self):
        """It isn't there any more."""
        self.socket.close()


class Operators:
    """Operators at the control socket."""

    def __init__(self, chance, path):
        self.chance, self.path, self.all = chance, path, []

    def step(self):
        """Says something."""
        if not self.all or not self.chance.randrange(8) and len(self.all) < MOST_OPERATORS:
            one = socket.socket(socket.AF_UNIX)
            one.connect(str(self.path))
            one.setblocking(False)
            self.all.append(one)
            return "an operator comes"
        one = self.chance.choice(self.all)
        if not self.chance.randrange(12):
            self.all.remove(one)
            one.close()
            return "an operator goes"
        lines = "".join(f"{self.line()}\n" for _ in range(self.chance.choice((1, 1, 1, 1, 40))))
        with contextlib.suppress(OSError):
            one.send(lines[: self.chance.choice((len(lines), len(lines), len(lines), 5))].encode())
        return f"an operator: {lines[:60]!r}"

    def line(self):
        """A line."""
        call, channel = self.chance.randrange(1, 6), self.chance.choice(CHANNELS)
        cell, timeslot, timer = self.chance.randrange(2), self.chance.randrange(4), self.chance.choice(("T3103", "T7", "T8"))
        lines = ("calls", "stations", "network", "summary", "help", "reload", "watch", "watch off", f"watch {call}", "reopen")
        lines += ("upgrade /nowhere", f"open {call} {cell} 0 {timeslot}", f"handover {call} {cell}", f"handover {call} 64")
        lines += (f"undo {call}", f"clear {call}", f"expire {call} {timer}", f"abis 0 0 083301{channel}", f"a {call} {CLEAR}")
        lines += ("nonsense", "\x1b[31m", "sim x", "a 1 zz", "#", "", " ")
        return self.chance.choice(lines)

    def answer(self):
        """Reads what is told; whether anything was."""
        came = False
        for one in self.all:
            with contextlib.suppress(OSError):
                came = bool(one.recv(1 << 20)) or came
        return came

    def leave(self):
        """They go."""
        self.stop()

    def stop(self):
        """They go."""
        for one in self.all:
            one.close()
        self.all = []
