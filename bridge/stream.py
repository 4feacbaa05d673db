"""What the bridge waits for: octets that come or can be written, and times. Nothing of it blocks the bridge."""
import fcntl
import functools
import heapq
import itertools
import os
import queue
import selectors
import struct
import termios
import threading
import time

from page import keeps

# How many octets are read at once.
PIECE = 1 << 16
# How many octets may wait to be written to one place.
MOST_WAITING = 1 << 22
# How many things that aren't to be done any more may wait beside as many as are.
FEW = 64
# How many octets a line may have.
LONGEST_LINE = 1 << 17


class Selector(selectors.PollSelector):
    """What waits for octets. It knows the streams that failed while they were written to: these end in the loop, once nobody uses
    them."""

    def __init__(self):
        super().__init__()
        self.failed = {}

    def end_failed(self):
        """Ends those that failed."""
        while self.failed:
            stream = next(iter(self.failed))
            del self.failed[stream]
            stream.end_failed()


class Times:
    """Things to be done later, each under a name; what is set again under a name takes the place of the older."""

    def __init__(self):
        self.heap = []
        self.current = {}
        self.numbers = itertools.count()
        # by name the moment at which another bridge would have done something, which this one sets anew now
        self.left = {}

    def set(self, name, seconds, action, gate=None):
        """Does something in so many seconds. Where there is a gate, that is given what is to be done then, and does it later;
        until it has, it can still be forgotten."""
        number = next(self.numbers)
        self.current[name] = number
        at = self.left.pop(name, None)
        heapq.heappush(self.heap, (time.monotonic() + seconds if at is None else at, number, name, action, gate))
        if len(self.heap) > 2 * len(self.current) + FEW:
            self.tidy()

    def tidy(self):
        """Drops what was forgotten or set again: much of that is to be done in many minutes, and all of it takes memory."""
        self.heap = [it for it in self.heap if self.current.get(it[2]) == it[1]]
        heapq.heapify(self.heap)

    def forget(self, name):
        """Doesn't do it."""
        self.current.pop(name, None)

    def moments(self):
        """The names under which something is to be done, each with its moment, on the system's clock. What has been given to a gate
        is due."""
        moments = {name: at for at, number, name, *_ in self.heap if self.current.get(name) == number}
        return {name: moments.get(name, 0.0) for name in self.current}

    def was_set(self, name):
        """Whether another bridge was to do something under this name, and this one hasn't set it anew."""
        return name in self.left

    def is_set(self, name):
        """Whether something is to be done under this name."""
        return name in self.current

    def seconds_left(self):
        """How long it is until the next thing is to be done; None where nothing is."""
        while self.heap and self.current.get(self.heap[0][2]) != self.heap[0][1]:
            heapq.heappop(self.heap)
        return max(0.0, self.heap[0][0] - time.monotonic()) if self.heap else None

    def run_due(self):
        """Does all that is due."""
        while self.seconds_left() == 0.0:
            _, number, name, action, gate = heapq.heappop(self.heap)
            if gate:
                gate(functools.partial(self.do, name, number, action))
            else:
                self.do(name, number, action)

    def do(self, name, number, action):
        """Does something, unless it was forgotten or set again."""
        if self.current.get(name) == number:
            del self.current[name]
            action()


@keeps("octets", wired=("take",))
class Lines:
    """The lines of a stream of octets."""

    def __init__(self, take):
        self.take = take
        self.octets = bytearray()

    def add(self, octets):
        """Adds octets, and hands out the lines that are whole now."""
        self.octets += octets
        *lines, rest = self.octets.split(b"\n")
        # more of a line isn't of use: nobody can read it either
        self.octets = rest[:LONGEST_LINE]
        for line in lines:
            self.take(bytes(line))

    def end(self):
        """No more comes: the octets behind the last line feed, which are no line."""
        rest, self.octets = bytes(self.octets), bytearray()
        return rest


@keeps(
    *("selector", "reads", "writes", "lines", "waiting", "pauses", "is_operators", "is_last", "has_failed", "is_unread"),
    wired=("heard", "ended", "unread", "faulty"),
    files=("reads", "writes"),
)
class Stream:
    """A socket or a pipe, of which octets are read as they come, and to which octets are written as it takes them."""

    def __init__(self, selector, reads=None, writes=None, heard=None, ended=None, unread=None):
        """`reads` and `writes` are file descriptors, the same one for a socket. `heard` is told octets that came, `ended`
        that no more will, or that nothing can be written any more. Where there is `unread`, it is told the latter in place
        of `ended`, what comes is still read, and any number of octets may wait."""
        self.selector = selector
        self.reads, self.writes = reads, writes
        self.heard, self.ended, self.unread = heard, ended, unread
        # the lines that `heard` takes out of the octets; None where it does otherwise
        self.lines: Lines | None = None
        # who is told a fault of the bridge that was met while it was handled; None where that is the bridge itself
        self.faulty = None
        # whether it is an operator's, who waits behind all others, also to be written to
        self.is_operators = False
        self.waiting = bytearray()
        # why nothing is read for a while
        self.pauses = set()
        self.is_last = False
        # whether nothing can be written any more, and whether that is since too much waited
        self.has_failed = self.is_unread = False
        self.watch()

    def hear_lines(self, take):
        """Hands out the lines of what comes, behind the octets of one that came by now, and waits for them."""
        self.lines = self.lines or Lines(take)
        self.lines.take, self.heard = take, self.lines.add
        self.watch()

    def watch(self):
        """Waits for what is of use now."""
        wanted = {}
        if self.is_readable():
            wanted[self.reads] = selectors.EVENT_READ
        if self.writes is not None and self.waiting:
            wanted[self.writes] = wanted.get(self.writes, 0) | selectors.EVENT_WRITE
        for it in {self.reads, self.writes} - {None}:
            known = it in self.selector.get_map()
            if it in wanted and known:
                self.selector.modify(it, wanted[it], self)
            elif it in wanted:
                self.selector.register(it, wanted[it], self)
            elif known:
                self.selector.unregister(it)

    def pause(self, why, is_paused):
        """Reads nothing for a while, or goes on where this was the last reason not to."""
        if (why in self.pauses) != is_paused:
            self.pauses ^= {why}
            self.watch()

    def is_readable(self):
        """Whether what comes is read now."""
        return self.reads is not None and not self.pauses and (not self.has_failed or self.unread is not None)

    def ready(self, mask):
        """Reads or writes, where the selector says that this can be done."""
        if mask & selectors.EVENT_WRITE and self.writes is not None:
            self.flush()
        if mask & selectors.EVENT_READ and self.is_readable():
            self.read()

    def readable(self):
        """How many octets came that aren't read yet."""
        if self.reads is None:
            return 0
        return struct.unpack("i", fcntl.ioctl(self.reads, termios.FIONREAD, bytes(4)))[0]

    def read(self):
        """Takes what came."""
        try:
            octets = os.read(self.reads, PIECE)
        except BlockingIOError:
            return
        except OSError:
            octets = b""
        if octets:
            self.heard(octets)
        else:
            self.ended()

    def send(self, octets):
        """Writes octets, at once or later. It never ends what it belongs to, whose user goes on with it."""
        if self.writes is None or self.has_failed:
            return
        self.waiting += octets
        if len(self.waiting) > MOST_WAITING and not self.unread:
            # nobody reads them
            self.fail(True)
        elif self.is_operators:
            self.watch()
        else:
            self.flush()

    def flush(self):
        """Writes what can be written now, to an operator a piece of it."""
        try:
            while self.waiting:
                del self.waiting[: os.write(self.writes, memoryview(self.waiting)[:PIECE])]
                if self.is_operators:
                    break
        except BlockingIOError:
            pass
        except OSError:
            self.fail(False)
            return
        if not self.waiting and self.is_last:
            self.shut()
        else:
            self.watch()

    def fail(self, is_unread):
        """Nothing can be written any more: it ends in the loop, once nobody uses it."""
        self.waiting.clear()
        self.has_failed, self.is_unread = True, is_unread
        self.selector.failed[self] = None
        self.watch()

    def end_failed(self):
        """The loop ends it, or the side that is written to."""
        if self.unread:
            self.shut()
            self.unread()
        else:
            self.ended()

    def finish(self):
        """Writes what waits, and then closes the side that is written to."""
        self.is_last = True
        if self.writes is not None and not self.has_failed:
            self.flush()

    def shut(self):
        """Closes the side that is written to."""
        writes, self.writes = self.writes, None
        if writes is not None and writes != self.reads:
            if writes in self.selector.get_map():
                self.selector.unregister(writes)
            os.close(writes)

    def leave(self):
        """Waits for nothing any more. Who opened the files closes them."""
        self.selector.failed.pop(self, None)
        for it in {self.reads, self.writes} - {None}:
            if it in self.selector.get_map():
                self.selector.unregister(it)
        self.reads = self.writes = None

    def close(self):
        """Waits for nothing any more, and closes the files."""
        files = {self.reads, self.writes} - {None}
        self.leave()
        for number in files:
            os.close(number)


class Writer:
    """A file that may take long to be written to, as a terminal that is stopped: a thread of its own writes to it. What too
    much waits in front of is left out."""

    def __init__(self, number):
        self.number = number
        self.texts: queue.SimpleQueue = queue.SimpleQueue()
        # how many octets were put there, and how many the thread has done with: each is changed by one thread alone
        self.taken = self.done = 0
        self.left_out = 0
        self.thread = threading.Thread(target=self.write_all, daemon=True)
        self.thread.start()

    def waiting(self):
        """How many octets aren't written yet."""
        return self.taken - self.done

    def put(self, octets):
        """Has octets written."""
        if self.waiting() > MOST_WAITING:
            self.left_out += 1
        else:
            self.taken += len(octets)
            self.texts.put(octets)

    def write_all(self):
        """Writes all that is put there, until None is."""
        while (octets := self.texts.get()) is not None:
            rest = memoryview(octets)
            try:
                while rest:
                    rest = rest[os.write(self.number, rest) :]
            except OSError:
                pass
            self.done += len(octets)

    def finish(self, seconds):
        """Waits until all is written, but no longer than that."""
        self.texts.put(None)
        self.thread.join(seconds)
