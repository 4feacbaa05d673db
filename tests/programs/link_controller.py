"""A controller by the rows of docs/PROCEDURE.md and the table of docs/BOOK.md, as far as the tests of links play them. It
stands in for the proved one. It takes lines, and gives those of a trace. The site is that of tests/two_cells, where each
channel is of full rate. Reports lead to nothing, and each HANDOVER REQUEST is for cell 1 and permits a call in clear.
"""
from link_book import Book
from link_messages import CHANNELS, about, channel_at, heard, trx_of

OWN, OUTSIDE = ("0", "1"), ("64",)
# The elements of CHANNEL ACTIVATION behind its channel number: for a call, and for a target, before its reference (TS 48.058
# clause 8.4.1).
FOR_CALL, FOR_TARGET = "0300060400010801", "0302060400010801"
# To a mobile in a DATA REQUEST on link 0 (TS 44.018 clauses 9.1.7 and 9.1.15).
CHANNEL_RELEASE, HANDOVER_COMMAND = "060d00", "062b"
# On A (TS 48.008 clause 3.2.1), with a cause where they have one.
CLEAR_COMPLETE, CLEAR_REQUEST, HANDOVER_FAILURE = "000121", "000422040", "000416040"
REQUIRED, REQUEST_ACK, PERFORMED, DETECT, COMPLETE = "00031104010c", "000112", "00031704010c", "00011b", "000114"


class PlainController:
    """A book, and what a controller asks of it. `lines` has what the trace says of a line so far."""

    def __init__(self):
        self.book, self.lines, self.stages, self.references = Book(), [], {}, {}

    def give(self, line):
        self.lines = []
        word, *words = line.split(" ")
        getattr(self, f"on_{word}")(*words)
        return self.lines

    # THE BOOK

    def ask(self, event, reply):
        self.lines.append(f"event {event} -> {reply}")
        self.book.turn([self.lines[-1]])
        return reply

    def refuses(self, event, number):
        self.lines.append(f"event {event} -> refused {number}")

    def record(self, number):
        it = self.book.calls[number]
        state = self.book.state(it.serving) if it.serving else "-"
        attempt = ""
        if it.kind:
            attempt = f" {it.kind} {self.stages[number]} {it.target or '-'} {self.references.get(number, '-')}"
        return f"record {it.serving or '-'} {state}{attempt}"

    def look(self, number):
        """The call, if there is one."""
        if number not in self.book.calls:
            self.refuses(f"look {number}", 1)
            return None
        self.ask(f"look {number}", self.record(number))
        return self.book.calls[number]

    def undo(self, number, why="asked"):
        """Takes an attempt back: the call as it was, and its target where that may be active."""
        it, is_there = self.book.calls.get(number), False
        if it is None or it.kind is None:
            self.refuses(f"undo {number} {why}", 1 if it is None else 3)
            return None
        target, kind = it.target, it.kind
        is_there = target is not None and self.book.state(target) in ("pending", "on")
        self.ask(f"undo {number} {why}", self.record(number))
        self.references.pop(number, None)
        if is_there:
            self.release(target)
        return kind

    def release(self, channel):
        self.lines.append(f"out abis {trx_of(channel)} {about('082e', channel)}")

    def activate(self, channel, elements):
        self.lines.append(f"out abis {trx_of(channel)} {about('0821', channel, elements)}")

    def to_mobile(self, channel, layer3):
        self.lines.append(f"out abis {trx_of(channel)} {about('0301', channel, f'02000b{len(layer3) // 2:04x}{layer3}')}")

    def to_centre(self, number, octets):
        self.lines.append(f"out a {number} {octets}")

    # OPERATORS AND TIMERS

    def on_open(self, number, cell, trx, timeslot):
        channel = f"{cell}/{trx}/{timeslot}"
        event = f"open {number} {channel}"
        if number in self.book.calls:
            return self.refuses(event, 2)
        if channel not in CHANNELS:
            return self.refuses(event, 4)
        if self.book.state(channel) != "free":
            return self.refuses(event, f"6 {channel}")
        self.ask(event, "done")
        return self.activate(channel, FOR_CALL)

    def free_in(self, cell):
        return next((it for it in CHANNELS if it[0] == cell and self.book.state(it) == "free"), None)

    def on_seize(self, number, cell, _rate):
        channel = self.free_in(cell)
        if channel is None:
            return self.lines.append(f"none free {cell}")
        return self.on_open(number, *channel.split("/"))

    def on_handover(self, number, cell):
        it = self.look(number) if cell in OWN + OUTSIDE else None
        if it is None or it.serving is None:
            return
        if cell in OUTSIDE:
            self.require(number, it)
        else:
            self.start(number, it, cell)

    def require(self, number, it):
        if it.kind or self.book.state(it.serving) != "on":
            return self.refuses(f"require {number}", 3)
        self.stages[number] = "required"
        self.ask(f"require {number}", "done")
        return self.to_centre(number, REQUIRED)

    def start(self, number, it, cell, kind="internal"):
        channel = self.free_in(cell)
        if channel is None:
            return self.lines.append(f"none free {cell}")
        event = f"take {number} {kind} {channel}"
        if it and (it.kind or self.book.state(it.serving) != "on"):
            return self.refuses(event, 3)
        if it and it.serving[0] == cell:
            return self.refuses(event, 5)
        self.ask(event, "done")
        reference = next(n for n in range(256) if n not in self.references.values())
        self.references[number] = reference
        self.ask(f"reserve {number} {reference}", "done")
        self.stages[number] = "sent"
        self.ask(f"activate {number}", "done")
        return self.activate(channel, f"{FOR_TARGET}09{reference:02x}")

    def on_undo(self, number):
        if self.undo(number) == "incoming":
            self.to_centre(number, f"{HANDOVER_FAILURE}120")

    def on_clear(self, number):
        if self.look(number):
            self.clear(number)

    def clear(self, number, says_release=False):
        """Ends a call, also one whose attempt is open."""
        it = self.book.calls[number]
        if it.kind and self.undo(number) == "incoming":
            return
        state = self.book.state(it.serving)
        self.ask(f"clear {number}", "done")
        if state == "on" and says_release:
            self.to_mobile(it.serving, CHANNEL_RELEASE)
        if state != "held":
            self.release(it.serving)

    def on_expire(self, number, timer):
        it = self.book.calls.get(number)
        if it is None or it.timer != timer:
            return self.refuses(f"undo {number} {timer.lower()}", 1 if it is None else 9)
        self.undo(number, timer.lower())
        if timer != "T7":
            self.to_centre(number, f"{CLEAR_REQUEST}100")
        return None

    # STATIONS

    def on_abis(self, cell, trx, octets):
        name, number = heard(list(bytes.fromhex(octets)))
        channel = channel_at(f"{cell} {trx}", number)
        is_cut = len(octets) < {"ACTIVATION ACK": 14, "ACTIVATION NACK": 14}.get(name, 0)
        if is_cut:
            return self.lines.append("fault abis 3 8")
        return getattr(self, f"hears_{name.lower().replace(' ', '_')}", self.hears_nothing)(channel)

    def hears_nothing(self, channel):
        """What nothing comes of."""

    def owned(self, name, channel, states):
        """The call of a channel, if the book's event is accepted."""
        owner = self.book.owner(channel)
        if self.book.state(channel) not in states or owner is None:
            self.refuses(f"{name} {channel}", f"8 {channel}")
            return None
        self.ask(f"{name} {channel}", f"owned {owner}")
        return owner

    def hears_activation_ack(self, channel):
        number = self.owned("confirm", channel, ("pending",))
        if number is None:
            return
        it = self.book.calls[number]
        if it.target == channel:
            self.stages[number] = "confirmed"
        self.look(number)
        if it.target == channel:
            self.stages[number] = "commanded"
            self.ask(f"command {number}", "done")
            self.lead(number, it)

    def lead(self, number, it):
        """The mobile, or the centre, is told where the call goes."""
        if it.serving:
            self.to_mobile(it.serving, f"{HANDOVER_COMMAND}12{self.references[number]:02x}")
        else:
            self.to_centre(number, REQUEST_ACK)

    def hears_activation_nack(self, channel):
        number = self.owned("refuse", channel, ("pending",))
        if number is None:
            return
        it = self.book.calls[number]
        if it.target == channel:
            self.stages[number] = "refused"
        self.look(number)
        if it.target != channel:
            self.to_centre(number, f"{CLEAR_REQUEST}120")
        elif self.undo(number) == "incoming":
            self.to_centre(number, f"{HANDOVER_FAILURE}120")

    def hears_release_ack(self, channel):
        if self.book.state(channel) != "off":
            return self.refuses(f"released {channel}", f"8 {channel}")
        return self.ask(f"released {channel}", "done")

    def hears_connection_failure(self, channel):
        number = self.owned("owner", channel, ("held", "pending", "on"))
        it = number and self.look(number)
        if it and it.serving == channel and it.kind is None:
            self.to_centre(number, f"{CLEAR_REQUEST}101")

    def hears_measurement_result(self, channel):
        number = self.owned("owner", channel, ("held", "pending", "on"))
        if number is not None:
            self.look(number)

    def hears_handover_detection(self, channel):
        owner = self.book.owner(channel)
        if owner is None or self.book.calls[owner].target != channel or self.stages[owner] != "commanded":
            return self.refuses(f"detect {channel}", f"8 {channel}")
        self.ask(f"detect {channel}", f"owned {owner}")
        self.stages[owner] = "detected"
        if self.look(owner).serving is None:
            self.to_centre(owner, DETECT)
        return None

    def hears_handover_complete(self, channel):
        number = self.owned("owner", channel, ("held", "pending", "on"))
        it = number and self.look(number)
        if not it or it.target != channel or self.stages[number] not in ("commanded", "detected"):
            return
        old = it.serving
        self.ask(f"complete {number}", "done")
        self.references.pop(number, None)
        if old:
            self.release(old)
        self.to_centre(number, PERFORMED if old else COMPLETE)

    def hears_handover_failure(self, channel):
        number = self.owned("owner", channel, ("held", "pending", "on"))
        it = number and self.look(number)
        if not it or it.serving != channel or it.kind is None:
            return
        kind, stage = it.kind, self.stages[number]
        if stage in ("commanded", "detected", "ordered"):
            self.undo(number)
        if (kind, stage) == ("outgoing", "ordered"):
            self.to_centre(number, f"{HANDOVER_FAILURE}10a")

    # THE CENTRE

    def on_a(self, number, octets):
        {"10": self.request, "13": self.order, "1a": self.reject, "20": self.end}[octets[4:6]](number)

    def request(self, number):
        if self.look(number) is None:
            is_full = self.free_in("1") is None
            self.start(number, None, "1", "incoming")
            if is_full:
                self.to_centre(number, f"{HANDOVER_FAILURE}121")

    def order(self, number):
        it = self.look(number)
        if it and it.kind and self.stages[number] == "required":
            self.stages[number] = "ordered"
            self.ask(f"order {number}", "done")
            self.to_mobile(it.serving, "062b09")

    def reject(self, number):
        it = self.look(number)
        if it and it.kind and self.stages[number] == "required":
            self.undo(number)

    def end(self, number):
        it = self.look(number)
        if it and it.kind and self.stages[number] == "ordered":
            serving = it.serving
            self.ask(f"left {number}", "done")
            self.release(serving)
        elif it:
            self.clear(number, True)
        self.to_centre(number, CLEAR_COMPLETE)
