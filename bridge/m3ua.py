"""SCCP over M3UA, by a C program of lines (m3ua.c): it is built where the bridge begins, and is begun anew where it ends,
as it does with its link. To the bridge it is both the link (ipa_client.py) and the connections (connections.py)."""
import os
import pathlib
import shutil
import subprocess
import tempfile
import typing

import c_programs
import faults
import sccp
from child import begin
from connections import Connection, State
from page import keeps
from stream import Stream
from tell import Level, Sayings, say, shown

LIBRARIES = ("-losmo-sigtran", "-losmocore", "-ltalloc")
# Where the program counts from for connections that it is asked for; those that the other side asks for have smaller numbers.
FIRST = 0x400000


def build(folder, *words):
    """Builds the program, with more words for the compiler; raises OSError where that can't be done."""
    program = pathlib.Path(folder) / "m3ua"
    c_programs.build("M3UA", program, "m3ua.c", (*LIBRARIES, *words), "libosmo-sigtran-dev")
    return program


@keeps(
    *("folder", "program", "process", "stream", "errors", "is_left", "is_up", "known", "next"),
    wired=("selector", "times", "centre", "seconds", "user", "faults", "sayings", "takers"),
)
class M3ua:
    """The link and its connections. `user` has the methods that both tell; `met` are the faults of the bridge that were met."""

    def __init__(self, selector, times, centre, seconds, user, met):
        self.selector, self.times, self.centre, self.seconds, self.user = selector, times, centre, seconds, user
        self.faults = met
        # where the program is, once it is built
        self.folder: str | None = None
        self.program: str | None = None
        self.process: subprocess.Popen | None = None
        # its lines, and what it says on standard error
        self.stream: Stream | None = None
        self.errors: Stream | None = None
        self.is_left = self.is_up = False
        self.sayings = Sayings(times)
        self.known, self.next = {}, FIRST
        self.takers: dict[str, typing.Callable] = {
            "up": self.up,
            "away": lambda: self.user.away(),
            "back": lambda: self.user.back(),
            "unitdata": lambda octets: self.user.unit_data(octets),
            "asked": self.asked,
            "confirmed": self.confirmed,
            "data": self.heard_data,
            "ended": self.ended,
        }

    def resume(self):
        """Goes on with the times that another bridge has set."""
        if self.times.was_set("centre"):
            if self.process:
                self.await_up()
            else:
                self.begin_later()
        for connection in self.known.values():
            if self.times.was_set(("m3ua", connection.own)):
                self.await_answer(connection)

    # The link

    def build(self):
        """Builds the program, in a folder of its own."""
        self.folder = tempfile.mkdtemp(prefix="gofnild-m3ua-")
        try:
            self.program = str(build(self.folder))
        except OSError:
            self.leave()
            raise

    def start(self):
        """Begins the program, which opens the link; where it can't be begun, again after a while."""
        if not self.program:
            self.build()
        it = self.centre
        try:
            self.process, writes, reads, errors = begin([self.program, it.address, it.port, it.own, it.peer])
        except OSError as error:
            self.lose(str(error))
            return
        self.stream, self.errors = Stream(self.selector, reads, writes), Stream(self.selector, errors)
        self.join()
        self.await_up()

    def join(self):
        """Is told what comes of the program, where that runs."""
        if it := self.stream:
            it.hear_lines(self.heard)
            it.ended, it.faulty = lambda: self.lose("the link ended"), self.faulty
        if errors := self.errors:
            errors.hear_lines(self.hear_error)
            errors.ended = errors.close

    def await_up(self):
        """The link has to come up in time."""
        self.times.set("centre", self.seconds["patience"], lambda: self.lose("the centre's link doesn't come up"))

    def begin_later(self):
        """The program is begun again after a while."""
        self.times.set("centre", self.seconds["retry"], self.start)

    def hear_error(self, line):
        """What the program and its library say on standard error is said as what the bridge itself says."""
        if line.strip():
            self.sayings.say("A", f"A: {shown(line)}", Level.WARNING)

    def faulty(self, error):
        """A fault of the bridge was met as a line of the program was handled: that is this link's end alone."""
        self.faults.tell(faults.CENTRE, f"A: the link to {self.centre.address}, port {self.centre.port}", error, "it is closed")
        self.lose("it had a fault")

    def lose(self, why):
        """The program has ended, or doesn't come up: it is begun again."""
        was_up, self.is_up = self.is_up, False
        self.close()
        if not self.is_left:
            say(f"A: no link to {self.centre.address}, port {self.centre.port}: {why}", Level.ERROR)
            self.begin_later()
        if was_up:
            self.user.down()

    def close(self):
        """Ends the program."""
        self.times.forget("centre")
        if self.stream:
            files = {self.stream.reads, self.stream.writes} - {None}
            self.stream.leave()
            self.stream = None
            for number in files:
                os.close(number)
        if self.process:
            self.process.kill()
            self.process.wait()
            self.process = None

    def leave(self):
        """Ends it for good."""
        self.is_left = True
        self.close()
        if self.folder:
            shutil.rmtree(self.folder, ignore_errors=True)

    def put(self, line):
        """Gives the program a line."""
        if self.stream and self.is_up:
            self.stream.send(line.encode() + b"\n")

    def heard(self, line):
        """Takes a line of the program."""
        what, *words = line.decode().split()
        if what not in self.takers:
            say(f"A: no line that is known: {what}", Level.WARNING)
            return
        octets = [bytes.fromhex(words[-1].replace("-", ""))] if words and what != "ended" else []
        # the number of the connection stands in front, but where there is none
        connection = [int(words[0])] if len(words) > 1 else []
        self.takers[what](*connection, *octets)

    def up(self):
        """Messages can be sent."""
        self.is_up = True
        self.times.forget("centre")
        self.user.up()

    # What the user asks

    def unit_data(self, octets):
        """Sends a message without a connection."""
        self.put(f"unitdata {octets.hex()}")

    def connect(self, octets):
        """Asks for a connection, with a first message."""
        connection = self.known[self.next] = Connection(self.next, State.REQUESTED)
        self.next = FIRST if self.next == 0xFFFFFD else self.next + 1
        if len(octets) <= sccp.LONGEST_REQUEST:
            self.put(f"connect {connection.own} {octets.hex()}")
        else:
            self.put(f"connect {connection.own} -")
            connection.waiting.append(octets)
        self.await_answer(connection)
        return connection

    def await_answer(self, connection):
        """The other side has to answer in time."""
        self.times.set(("m3ua", connection.own), self.seconds["connect"], lambda: self.unanswered(connection))

    def unanswered(self, connection):
        """The other side doesn't answer: if it does yet, that is released."""
        self.put(f"release {connection.own}")
        self.user.unanswered(connection)
        if connection.own in self.known:
            self.end(connection, "isn't answered")

    def accept(self, connection):
        """Takes a connection that the other side asked for."""
        connection.state = State.OPEN
        self.put(f"accept {connection.own}")

    def refuse(self, connection):
        """Refuses one."""
        self.release(connection)

    def data(self, connection, octets):
        """Sends a message on a connection; it waits where that isn't open yet."""
        if len(octets) > sccp.LONGEST_DATA:
            say(f"A: not sent, a message of {len(octets)} octets would have to be segmented: {octets.hex()}", Level.WARNING)
        elif connection.state is State.REQUESTED:
            connection.waiting.append(octets)
        elif connection.state is State.OPEN:
            self.put(f"data {connection.own} {octets.hex()}")

    def release(self, connection):
        """Ends a connection."""
        if connection.own in self.known:
            self.forget(connection)
            self.put(f"release {connection.own}")

    def lost(self):
        """The link is lost: all connections end."""
        for connection in list(self.known.values()):
            self.end(connection, "is lost with the link")

    # What comes

    def asked(self, own, octets):
        """The other side asks for a connection."""
        connection = self.known[own] = Connection(own, State.OFFERED)
        self.user.asked(connection, octets)

    def confirmed(self, own, octets):
        """The other side takes a connection, perhaps with a message."""
        connection = self.known.get(own)
        if connection is None or connection.state is not State.REQUESTED:
            return
        connection.state = State.OPEN
        self.times.forget(("m3ua", own))
        waiting, connection.waiting = connection.waiting, []
        for message in waiting:
            self.data(connection, message)
        self.user.confirmed(connection)
        if octets and connection.state is State.OPEN:
            self.user.data(connection, octets)

    def heard_data(self, own, octets):
        """A message on a connection."""
        connection = self.known.get(own)
        if connection and connection.state is State.OPEN:
            self.user.data(connection, octets)

    def ended(self, own):
        """The other side ended a connection, or didn't take it."""
        self.user.show_sign()
        if connection := self.known.get(own):
            self.end(connection, "is released or refused")

    def end(self, connection, why):
        """A connection has ended."""
        self.forget(connection)
        self.user.ended(connection, why)

    def forget(self, connection):
        """Nothing more is known of a connection."""
        self.known.pop(connection.own, None)
        self.times.forget(("m3ua", connection.own))
        connection.state = State.RELEASING
