"""The messages of MGCP (RFC 3435) by which a media gateway is asked for connections, and what it answers: text in lines, with
a description of the session (SDP, RFC 4566) behind an empty line."""
import enum
import re
import socket
import typing

from page import keeps
from rtp import Address, Codec

# The first line of an answer: its code and the transaction that it is about.
FIRST_LINE = re.compile(r"(\d{3})[ \t]+0*(\d{1,9})(?:[ \t].*)?")
# A parameter, and what a session's description says of where RTP goes.
PARAMETER = re.compile(r"([A-Za-z]):[ \t]*(\S+)[ \t]*")
HOST = re.compile(r"c=IN IP4 (\d{1,3}(?:\.\d{1,3}){3})")
PORT = re.compile(r"m=audio (\d{1,5}) .*")
# Transactions have numbers up to this.
MOST = 999_999_999


@keeps()
class Verb(enum.Enum):
    """What is asked: to create, to modify, and to delete a connection."""

    CREATE = "CRCX"
    MODIFY = "MDCX"
    DELETE = "DLCX"


class Unreadable(Exception):
    """Octets are no answer."""


@keeps()
class Command(typing.NamedTuple):
    """What is asked: at which endpoint, of which call, about which connection (None: one that is made, or all of them); how
    speech is coded, and where the other side has it."""

    verb: Verb
    endpoint: str
    call: str
    connection: str | None = None
    codec: Codec | None = None
    remote: Address | None = None

    def written(self, number):
        """Its octets, as a transaction of this number."""
        lines = [f"{self.verb.value} {number} {self.endpoint} MGCP 1.0", f"C: {self.call}"]
        if self.connection:
            lines.append(f"I: {self.connection}")
        if self.remote and self.codec:
            lines += [f"L: p:20, a:{self.codec.text}, nt:IN", "M: sendrecv", "", *self.session(self.remote, self.codec)]
        return "".join(f"{line}\r\n" for line in lines).encode()

    def session(self, remote, codec):
        """The lines of the session's description."""
        host, port = remote
        payload, text = codec.payload, codec.text
        return [
            "v=0",
            f"o=- {int(self.call, 16)} 0 IN IP4 {host}",
            "s=-",
            f"c=IN IP4 {host}",
            "t=0 0",
            f"m=audio {port} RTP/AVP {payload}",
            f"a=rtpmap:{payload} {text}/8000/1",
            "a=ptime:20",
        ]


class Answer(typing.NamedTuple):
    """What was answered: the code, the number of the transaction; and where they stand there, the endpoint, the connection,
    and where the gateway has the speech."""

    code: int
    number: int
    endpoint: str | None = None
    connection: str | None = None
    local: Address | None = None

    @property
    def is_provisional(self):
        """Whether the answer itself is yet to come."""
        return 100 <= self.code < 200

    @property
    def is_done(self):
        """Whether what was asked is done."""
        return 200 <= self.code < 300


def answers_in(octets):
    """The answers of a datagram, of which there may be several, a line with a full stop between two; raises Unreadable."""
    try:
        text = octets.decode("ascii")
    except UnicodeDecodeError as error:
        raise Unreadable("octets that are no text") from error
    lines = text.replace("\r\n", "\n").split("\n")
    parts: list[list[str]] = [[]]
    for line in lines:
        if line == ".":
            parts.append([])
        else:
            parts[-1].append(line)
    return [answer_of(part) for part in parts]


def answer_of(lines):
    """The answer that lines are."""
    first = lines[0] if lines else ""
    found = FIRST_LINE.fullmatch(first)
    if not found:
        raise Unreadable(f"no answer: {first}")
    end = lines.index("") if "" in lines else len(lines)
    parameters: dict[str, str] = {it[1].upper(): it[2] for it in map(PARAMETER.fullmatch, lines[1:end]) if it}
    hosts, ports = ([it[1] for it in map(form.fullmatch, lines[end:]) if it] for form in (HOST, PORT))
    return Answer(int(found[1]), int(found[2]), parameters.get("Z"), parameters.get("I"), local_of(hosts, ports))


def local_of(hosts, ports):
    """Where the gateway has the speech; None where it doesn't say so, or nobody could send anything there."""
    if not hosts or not ports or int(ports[0]) > 65535:
        return None
    try:
        # stricter than `inet_aton`, for which 010 is 8 and 08 is nothing
        socket.inet_pton(socket.AF_INET, hosts[0])
    except OSError:
        return None
    local = Address(hosts[0], int(ports[0]))
    return local if local.is_somewhere else None
