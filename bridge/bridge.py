"""Sockets, the controller, and the time: what joins a relay to the rest of the world."""
import contextlib
import os
import select
import selectors
import signal
import socket
import stat
import subprocess
import sys
import time

import faults
from again import Again
from child import begin, kill_all
from figures import FiguresFile
from kept_site import octets_of
from links import Links
from log import Log
from operators import QUIET, Client, Standard, Turns
from page import Unkept, keeps
from relay import Relay
from reload import Settings, Unfit
from sites import cells_of, table_of, traffic_channels, unknown_place
from stream import Selector, Stream, Times
from succession import SIGNALS, Begun, Succession, opened, state_in, sum_of, take_over
from tell import ERRORS, OUTPUT, Level, say, says_up_to, shown
from toml_keys import Faults, Table

# How long the controller may take to end, in seconds.
LAST = 30.0
# For how long somebody may not read what is printed at the end, in seconds.
UNREAD = 5.0
# How many faults of the bridge itself may be met while it ends for the first of them.
MOST_FAULTS = 100
# After how many milliseconds is looked again whether the controller has ended that prints nothing more.
SOON = 10
# What listens: for stations, and for operators.
STATIONS, OPERATORS = "stations", "operators"


@keeps(
    *("sockets", "clients", "came", "standard", "listeners", "core", "errors", "is_garbled", "is_faulty"),
    wired=(
        *("words", "selector", "times", "relay", "links", "turns", "control", "figures", "again", "succession", "signals"),
        *("is_ending", "is_killed", "settings"),
    ),
)
class Bridge:
    """Sockets, the controller, and the time."""

    # what says where stations may come from; and the number of standard input
    BIND, INPUT = "--bind", 0

    def __init__(self, words, make_relay=Relay):
        """`words` are the settings: `stations`, `seconds`, `bind`, `port`, `log`, `control`, `figures`, `figures_every`,
        `messages`, `again`, `hang`, `log_level`, and `core`, the controller's command, with the `text` of its site, and `kept`, what
        is kept of that. `arguments` are the command line, and `paths` the files that were read. The controller and standard input are
        there once it has started."""
        self.words = words
        says_up_to(words.log_level)
        self.selector = Selector()
        self.times = Times()
        self.relay = make_relay(words.stations, self.times, words.seconds)
        self.relay.tells_messages, self.relay.site = words.messages, traffic_channels(table_of(words.text))
        self.sockets = {}
        self.links = self.relay.links = Links(self.relay, self.close)
        # the operators at the control socket, and how many have come; and the one at standard input
        self.clients: set[Client] = set()
        self.came = 0
        self.standard: Standard | None = None
        self.turns = Turns(self.relay)
        self.listeners: dict[str, socket.socket] = {}
        self.control = self.figures = None
        self.core: subprocess.Popen | None = None
        # what it says on standard error
        self.errors: Stream | None = None
        self.succession = self.relay.succession = Succession(self, Begun(words.arguments, words.paths))
        self.signals: tuple[socket.socket, socket.socket] | None = None
        self.again = self.relay.again = Again(self, words.core, words.kept, words.again, words.hang)
        # what it goes by, of which `reload` takes another
        self.settings = Settings(words.kept.file, words.text, words.stations)
        # whether all ends, and whether the controller was killed for that; and whether that has printed what none does
        self.is_ending = self.is_killed = self.is_garbled = False
        # whether it ends since it has a fault itself
        self.is_faulty = False

    def start(self, state=None):
        """Opens what is to be open, the controller last. Where there is the state of a bridge whose place this one takes, it goes on
        with that."""
        words, self.control = self.words, self.words.control
        if state:
            take_over(self, state, opened)
        else:
            if words.log:
                self.relay.log = Log(words.log, self.times)
            family = socket.AF_INET6 if ":" in words.bind else socket.AF_INET
            self.listeners[STATIONS] = socket.create_server((words.bind, words.port), family=family)
            if words.control:
                self.listeners[OPERATORS] = control_socket(words.control)
        for name in self.listeners:
            self.listen(name)
        if words.figures:
            self.figures = FiguresFile(words.figures, words.figures_every, self.times, self.relay.figures, not state)
        self.watch_signals()
        if state:
            self.join()
        else:
            self.begin()
        only = f", for stations of this machine alone ({self.BIND})" if words.bind.startswith(("127.", "::1")) else ""
        say(f"listens on {words.bind}, port {self.listeners[STATIONS].getsockname()[1]}{only}")
        if state:
            self.succession.tell()

    def begin(self):
        """Starts the controller, and hears the operator at standard input."""
        if self.again.kept.is_edited() and self.again.kept.first_text is None:
            say(f"{self.again.kept.file} has changed since the controller was given it: `reload` takes it", Level.WARNING)
        self.again.start()
        self.standard = Standard(self, self.INPUT)

    # Another bridge in this one's place

    def parts(self):
        """The parts of which a page tells (page.py), by their names."""
        own = {"bridge": self, "times": self.times, "selector": self.selector, "turns": self.turns, "succession": self.succession}
        return {**own, **self.relay.parts()}

    def resume(self):
        """Goes on with the times that another bridge has set."""
        self.relay.resume()
        for client in self.clients:
            client.resume()

    def join(self):
        """Is told what comes of all that another bridge has opened."""
        if self.relay.log:
            self.relay.log.note("another bridge goes on here")
        self.join_core()
        for it in (self.standard, *self.clients, *self.links.all):
            it.join()

    # Other settings

    def settings_of_files(self):
        """What the site's file says now; raises Unfit where that can't be taken."""
        path, faults = self.again.kept.file, Faults()
        sums, text = {path: sum_of(path)}, octets_of(path)
        if not table_of(self.settings.text):
            raise Unfit("what the controller's site was isn't known")
        if text is None or not (table := table_of(text)):
            raise Unfit(f"{path}: can't be read, or is no TOML")
        cells_of(Table(table, "", faults), None, faults)
        if wrong := unknown_place("it", text, self.words.stations):
            faults.lines.append(wrong)
        if faults.lines:
            raise Unfit("\n".join(f"{path}: {line}" for line in faults.lines))
        return Settings(path, text, self.words.stations, None, sums)

    # The controller

    def start_core(self, command):
        """Starts the controller."""
        self.core, writes, reads, errors = begin(command)
        self.is_garbled = False
        self.relay.core, self.errors = Stream(self.selector, reads, writes), Stream(self.selector, errors)
        self.join_core()

    def join_core(self):
        """Is told what the controller prints, and says on standard error."""
        core, errors = self.relay.core, self.errors
        core.hear_lines(self.hear)
        core.ended, core.unread = lambda: self.core_ended(core.lines), self.core_unread
        errors.hear_lines(self.hear_error)
        errors.ended = lambda: self.errors_ended(errors.lines)

    def hear(self, line):
        """Hears what the controller prints. Where that is no line of a controller's, nothing more is heard of it."""
        if self.is_garbled or self.again.passes_over(line):
            return
        if self.relay.is_readable(line):
            self.relay.hear(line)
            return
        self.is_garbled = True
        say(f"the controller prints what none does, and is killed: {shown(line)}", Level.ERROR)
        self.kill_core()

    def core_unread(self):
        """The controller reads no more. What it still sends is handed on, or comes again from its journal."""
        self.relay.core.is_last = True
        if self.again.goes_on() and not self.is_ending:
            self.relay.is_away = True
            self.kill_core()
        elif not self.is_ending:
            self.end("the controller reads no more")

    def listen(self, name):
        """Waits for those who connect to a listener. Where the system has no room for one, it is asked again after a while. Faults of
        the bridge that are met then are counted where those of stations or of operators are."""
        accept, place = {STATIONS: (self.accept, faults.STATION), OPERATORS: (self.accept_operator, faults.OPERATOR)}[name]
        listener = self.listeners[name]
        listener.setblocking(False)

        def watch():
            if self.listeners.get(name) is listener:
                self.selector.register(listener, selectors.EVENT_READ, take)

        def take(_mask):
            try:
                accept(listener)
            except BlockingIOError:
                pass
            except OSError as error:
                say(f"nobody can connect now: {error}", Level.ERROR)
                self.selector.unregister(listener)
                self.times.set(("listener", listener), QUIET, watch)
            except Exception as error:
                self.relay.faults.tell(place, "somebody who connects", error, "he isn't taken")

        watch()

    def watch_signals(self):
        """Ends where a signal says so, and at once where another does; HUP opens the log anew, and by USR2 another bridge takes this
        one's place."""
        ear, mouth = socket.socketpair()
        ear.setblocking(False)
        mouth.setblocking(False)
        signal.set_wakeup_fd(mouth.fileno())
        for number in SIGNALS:
            signal.signal(number, lambda _number, _frame: None)
        # those that came while a new bridge began are heard now
        signal.pthread_sigmask(signal.SIG_UNBLOCK, SIGNALS)
        self.signals = (ear, mouth)
        self.selector.register(ear, selectors.EVENT_READ, lambda _mask: self.take_signal(ear.recv(1)[0]))

    def take_signal(self, number):
        """A signal came."""
        if number == signal.SIGUSR2:
            self.succession.ask(None)
        elif number != signal.SIGHUP:
            self.end(f"signal {number}", Level.NOTICE)
        elif self.relay.log:
            self.relay.log.open_anew()

    def accept(self, listener):
        """A station connects."""
        connection, (address, port, *_) = listener.accept()
        connection.setblocking(False)
        connection.setsockopt(socket.IPPROTO_TCP, socket.TCP_NODELAY, 1)
        watch_cable(connection, self.links.patience)
        number = connection.fileno()
        stream = Stream(self.selector, number, number)
        self.sockets[stream] = connection
        self.links.begin(stream, address, f"{address}:{port}")

    def accept_operator(self, listener):
        """An operator connects."""
        connection, _ = listener.accept()
        self.came += 1
        self.clients.add(Client(self, connection, self.came))

    def close(self, link):
        """Closes the socket of a link."""
        link.stream.leave()
        self.sockets.pop(link.stream).close()

    def end(self, why, level=Level.ERROR):
        """Ends the controller, and then all else. Asked for again, it kills the controller. The level is that of why it ends."""
        if self.is_ending:
            self.is_killed = True
            self.kill_core()
            return
        self.is_ending = True
        say(f"ends: {why}", level)
        self.succession.leave()
        while self.listeners:
            _, listener = self.listeners.popitem()
            if listener in self.selector.get_map():
                self.selector.unregister(listener)
            listener.close()
        if self.relay.core and not self.relay.is_away:
            self.finish_core()
        # one that is away goes on first: what waits is given to it yet
        self.again.hurry()

    def finish_core(self):
        """Has the controller end, behind the lines that it has."""
        self.relay.core.finish()
        self.times.set("end", LAST, self.kill)
        self.again.watch.await_answer()

    def kill(self):
        """Kills a controller that doesn't end."""
        say(f"the controller doesn't end in {LAST:g} seconds, and is killed", Level.ERROR)
        self.is_killed = True
        self.kill_core()

    def kill_core(self):
        """Kills the controller, and what it has begun."""
        kill_all(self.core)

    def status_of_core(self):
        """The status of a controller that prints nothing more. It may have closed its output, and go on: signals count still."""
        ear, end = select.poll(), time.monotonic() + LAST
        ear.register(self.signals[0], select.POLLIN)
        while (status := self.core.poll()) is None:
            if ear.poll(SOON):
                self.take_signal(self.signals[0].recv(1)[0])
            if time.monotonic() > end and not self.is_killed:
                self.kill()
        return status

    def core_ended(self, lines):
        """The controller has ended. Half a line isn't heard: where it is started again, it comes again from its journal."""
        rest, is_untimely = lines.end(), self.relay.is_away or not self.is_ending or self.again.is_untimely()
        if rest and not (is_untimely and self.again.goes_on()):
            say(f"the controller ended amid a line, which isn't heard: {shown(rest)}", Level.WARNING)
        self.relay.core.close()
        self.relay.core = None
        if is_untimely:
            self.again.ended()

    def hear_error(self, line):
        """Hears what the controller says on standard error."""
        if not self.again.hears(line):
            self.relay.hear_error(line)

    def errors_ended(self, lines):
        """The controller says nothing more on standard error."""
        if rest := lines.end():
            self.hear_error(rest)
        self.errors.close()

    def close_errors(self):
        """Hears what a controller that has ended still said on standard error."""
        waiting = select.poll()
        if self.errors.reads is not None:
            waiting.register(self.errors.reads, select.POLLIN)
        while self.errors.reads is not None and waiting.poll(0):
            self.errors.read()
        self.errors.close()

    def pause(self):
        """Reads nothing for the controller while it is busy."""
        self.links.pause(self.relay.is_busy())
        is_asked_much = self.relay.is_asked_much()
        for client in self.clients:
            client.stream.pause("busy", is_asked_much)
        self.standard.stream.pause("busy", is_asked_much)

    def run(self):
        """Does what comes, until the controller has ended; its status, which is 1 where none can go on."""
        while self.relay.core or self.relay.is_away:
            try:
                self.take_turn()
            except Exception as error:
                self.end_faulty(error)
        self.relay.endings.finish()
        self.again.leave()
        for link in list(self.links.all):
            link.close()
        status = self.status_of_core()
        self.close_errors()
        for client in self.clients:
            client.stream.is_operators = False
            client.stream.flush()
        self.relay.tell_all()
        if self.relay.log:
            self.relay.log.finish()
        undone = f", that it hasn't done: {len(self.relay.given)}" if self.relay.given else ""
        say(f"the controller ended with status {status}; lines that it couldn't read: {self.relay.unread}{undone}")
        return status if status > 0 else int(status < 0 or self.again.has_failed or self.is_faulty)

    def take_turn(self):
        """Waits for something, and does what comes: stations, the centre, the controller and times first, then operators. What
        failed while it was written to ends here, where nobody uses it."""
        is_waited_for = self.links.behind or self.selector.failed or self.turns.next()
        operators = self.take_what_comes(0 if is_waited_for else self.times.seconds_left())
        self.links.take_turns()
        self.times.run_due()
        for key, mask in operators:
            self.handle(key, mask)
        self.turns.take_turn()
        self.selector.end_failed()
        self.links.look()
        self.pause()
        self.succession.look()

    def take_what_comes(self, seconds):
        """Waits so long for something, and takes what comes, each socket once; what comes of operators is given back."""
        operators = []
        for key, mask in self.selector.select(seconds):
            if isinstance(key.data, Stream) and key.data.is_operators:
                operators.append((key, mask))
            else:
                self.handle(key, mask)
        return operators

    def handle(self, key, mask):
        """Takes what comes from a socket."""
        known = self.selector.get_map().get(key.fd)
        if known is None or known.data is not key.data:
            # what was done before has closed it
            return
        if not isinstance(key.data, Stream):
            key.data(mask)
            return
        try:
            key.data.ready(mask)
        except Exception as error:
            if key.data.faulty is None:
                raise
            key.data.faulty(error)
        if self.relay.is_busy() or self.relay.is_asked_much():
            self.pause()

    def end_faulty(self, error):
        """A fault of the bridge was met where it isn't of one peer alone: what it knows may be wrong, and it ends. Where there are
        too many meanwhile it ends at once."""
        self.relay.faults.tell(faults.BRIDGE, "bridge", error, "what it knows may be wrong, and it ends")
        self.is_faulty = True
        if self.relay.faults.counts[faults.BRIDGE] > MOST_FAULTS:
            raise error
        if not self.is_ending:
            self.end("a fault of the bridge")


def watch_cable(connection, seconds):
    """Has the system look whether the other side is still there: it gives up where octets aren't acknowledged for so long."""
    connection.setsockopt(socket.SOL_SOCKET, socket.SO_KEEPALIVE, 1)
    options = {"TCP_KEEPIDLE": seconds, "TCP_KEEPINTVL": seconds, "TCP_KEEPCNT": 1, "TCP_USER_TIMEOUT": seconds * 1000}
    for option, value in options.items():
        if hasattr(socket, option):
            connection.setsockopt(socket.IPPROTO_TCP, getattr(socket, option), max(1, round(value)))


def control_socket(path):
    """A socket at this path for the user alone. One that nobody listens on any more is taken away."""
    if os.path.lexists(path) and not stat.S_ISSOCK(os.lstat(path).st_mode):
        raise OSError(f"{path!r}: is there, and is no socket")
    probe = socket.socket(socket.AF_UNIX)
    try:
        probe.connect(path)
        raise OSError(f"{path!r}: somebody listens there")
    except ConnectionRefusedError:
        os.unlink(path)
    except FileNotFoundError:
        pass
    finally:
        probe.close()
    listener = socket.socket(socket.AF_UNIX)
    mask = os.umask(0o077)
    try:
        listener.bind(path)
    finally:
        os.umask(mask)
    listener.listen()
    return listener


def serve(words, make):
    """Makes a bridge, and runs it to its end, or looks whether it could begin (--check); its status."""
    state = None
    try:
        if words.takes_over:
            state = state_in(words.takes_over)
        if words.check:
            if state:
                take_over(make(), state)
            return 0
    except Unkept as why:
        print(f"the page of the bridge before can't be taken: {why}", file=sys.stderr)
        return 1
    if state:
        os.unlink(words.takes_over)
    return run(make, state)


def run(make, state):
    """Makes a bridge, and runs it to its end, where it takes another's place with the state of that; its status."""
    for number in (0, 1, 2):
        # where one is closed, no socket is to get its number
        if not os.path.exists(f"/dev/fd/{number}"):
            os.open(os.devnull, os.O_RDWR)
    bridge = None
    try:
        bridge = make()
        bridge.start(state)
        status = bridge.run()
    except (OSError, Unkept) as error:
        say(f"can't begin: {error}", Level.ERROR)
        status = 2
    finally:
        if bridge and bridge.control:
            with contextlib.suppress(OSError):
                os.unlink(bridge.control)
        if bridge and bridge.figures:
            with contextlib.suppress(OSError):
                bridge.figures.finish()
    OUTPUT.finish(UNREAD)
    if OUTPUT.left_out:
        say(f"standard output wasn't read: {OUTPUT.left_out} lines are left out", Level.WARNING)
    ERRORS.finish(UNREAD)
    return status
