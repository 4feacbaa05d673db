"""What comes of each line of a controller with its links by docs/LINKS.md: a model of its rows, which are read from the page,
and of what the page says beside them.

The model leaves to a desk what the controller does: a desk plays a turn (`begin`), and takes what is done at the links
(`end_turn`). One kind of desk reads what a program printed, and compares (`link_checks`). Another one asks a controller, and
prints (`link_stand_in`).
"""
from dataclasses import dataclass, field

from link_book import Book, Differs
from link_messages import CHANNELS, IN_PLACE, TRX, about, channel_at, heard, place, sent, trx_of
from link_rows import TIMERS, Rows

BACK = "ended by HANDOVER FAILURE on the old channel: the mobile is back"
UNDONE = "was undone, and nobody heard the mobile"
# When the clock of a bar runs is worked out, also where a row says so.
CLOCKS = ("+bar", "-bar")


@dataclass
class Channel:
    """What is known of a channel besides the book."""

    lchan: str = "Rest"
    is_linked: bool = False
    # the number of the call that is its bar, and whether no clock ends it
    bar: str | None = None
    is_lasting: bool = False
    # it is to be barred; a failure is kept; what the controller is owed
    is_to_be_barred: bool = False
    keeps_failure: bool = False
    owed: str | None = None
    # the activation that waits
    kept: str | None = None


@dataclass
class Turn:
    """What a controller did with an input: the lines of its events, and what it said."""

    events: list = field(default_factory=list)
    said: list = field(default_factory=list)


@dataclass
class Done:
    """What is done at the links in a turn: the lines of each channel and call in their order, and what is said and not sent."""

    lines: dict = field(default_factory=dict)
    said: list = field(default_factory=list)

    def add(self, key, *lines):
        self.lines.setdefault(key, []).extend(lines)


class Links:
    """A controller's links. `used` has the rows of the page that were followed, with state and input."""

    def __init__(self, rows=Rows()):
        self.rows, self.book, self.used = rows, Book(), set()
        self.channels = {channel: Channel() for channel in CHANNELS}
        self.away, self.unheeded, self.timers = set(), set(), {}
        self.commands_wait = False
        self.turn, self.done = Turn(), Done()

    # LINES

    def play(self, line, desk):
        """What comes of a line that can be read."""
        word, *words = line.split(" ")
        plays = {
            "abis": self.play_message, "up": self.play_link, "down": self.play_link, "begin": self.play_begin,
            "expired": self.play_expired, "bar": self.play_bar, "unbar": self.play_bar, "away": self.play_away,
            "reports": self.play_reports, "send": self.play_send, "set": self.play_set,
        }
        plays.get(word, self.play_given)(desk, line, *words)
        self.pay(desk)

    def only(self, desk, line, *lines):
        """The controller isn't given the line."""
        desk.begin(line, None)
        done = Done()
        done.add("line", *lines)
        desk.end_turn(done)

    def play_message(self, desk, line, cell, trx, octets):
        trx, said = f"{cell} {trx}", heard(list(bytes.fromhex(octets)))
        channel = said and channel_at(trx, said[1])
        if trx not in TRX:
            return self.only(desk, line, "count no station")
        if not any(it.is_linked for name, it in self.channels.items() if trx_of(name) == trx):
            return self.only(desk, line, "count no link")
        if not said:
            return self.only(desk, line, "count no message")
        if channel not in self.channels:
            return self.only(desk, line, "count no channel")
        if not said[0]:
            return self.only(desk, line, f"pass {line}")
        return self.hear(desk, {channel: said[0]}, line, line)

    def play_link(self, desk, line, *words):
        """The link of a TRX comes or is lost. That of the centre is for the rows of calls."""
        trx, is_there = " ".join(words), line.startswith("up ")
        if trx != "centre" and trx not in TRX:
            return self.only(desk, line, "count no station")
        names = [name for name in self.channels if trx_of(name) == trx]
        return self.hear(desk, dict.fromkeys(names, "link comes" if is_there else "link lost"), line)

    def play_begin(self, desk, line):
        self.hear(desk, dict.fromkeys(self.channels, "link lost"), line)

    def play_expired(self, desk, line, timer, *words):
        key = words[0] if len(words) == 1 else "/".join(words)
        if self.timers.get((timer, key)) is None:
            return self.only(desk, line, "count no timer")
        del self.timers[timer, key]
        if len(words) == 1:
            return self.play_given(desk, f"expire {key} {timer}")
        return self.hear(desk, {key: f"{timer} ran out"}, line)

    def play_bar(self, desk, line, *words):
        channel = "/".join(words)
        if channel not in self.channels:
            return self.only(desk, line, "count no channel")
        return self.hear(desk, {channel: "an operator bars it" if line.startswith("bar ") else "an operator ends its bar"}, line)

    def play_away(self, desk, line, call, is_so):
        (self.away.add if is_so == "on" else self.away.discard)(call)
        self.only(desk, line)

    def play_reports(self, desk, line, call, is_so):
        (self.unheeded.discard if is_so == "on" else self.unheeded.add)(call)
        self.only(desk, line)

    def play_send(self, desk, line, *words):
        self.only(desk, line, f"out {' '.join(words)}")

    def play_set(self, desk, line, *_words):
        self.commands_wait = True
        self.only(desk, line)

    def play_given(self, desk, line, *_words):
        """The controller is given the line, and no channel heard it."""
        self.done = Done()
        self.follow(desk, line, {}, UNDONE)

    # WHAT IS HEARD

    def holds(self, channel):
        """What the page's 'only if' may say of a channel where something is heard."""
        it, state, owner = self.channels[channel], self.book.state(channel), self.book.owner(channel)
        call, is_away = self.book.calls.get(owner), owner in self.away
        serves, is_barred = call and call.serving == channel, owner is not None and it.bar == owner
        said = {
            "no call": state == "free",
            "barred": is_barred,
            "timed": is_barred and not it.is_lasting,
            "leaves": serves and call.kind is not None,
            "arrives": call and call.target == channel and is_away,
            "returns": serves and is_away,
            "reports": owner not in self.unheeded,
        }
        return {name for name, is_so in said.items() if is_so}

    def row(self, rows, lchan, what, holds):
        """The acts of the first row that fits, and the state behind it. That it was followed is noted."""
        for place_in_page, row in enumerate(rows):
            found = self.rows.first((row,), lchan, what, holds)
            if found:
                self.used.add((row.name, place_in_page, lchan, what))
                return found
        return None

    def hear(self, desk, said, line, passed=""):
        """Channels hear something, and the controller is given it if their row says so."""
        self.done, is_given, how = Done(), False, UNDONE
        for channel, what in said.items():
            it, named = self.channels[channel], what
            if what == "HANDOVER FAILURE" and not any(what in row.inputs for row in self.rows.heard):
                named = "DATA INDICATION"
            acts, behind = self.row(self.rows.heard, it.lchan, named, self.holds(channel)) or (("count",), it.lchan)
            if what in ("link comes", "link lost"):
                it.is_linked = what == "link comes"
            it.lchan = behind
            self.do(channel, acts, passed)
            is_given = is_given or "give" in acts
            how = BACK if what == "HANDOVER FAILURE" else how
        if is_given:
            self.follow(desk, line, said, how)
        else:
            desk.begin(line, None)
            self.settle_clocks()
            desk.end_turn(self.done)

    def do(self, channel, acts, passed=""):
        """What is done at the links of a channel by its row."""
        it, words = self.channels[channel], place(channel)
        for act in acts:
            if act == "pass":
                self.done.add("line", f"pass {passed}")
            elif act == "count":
                self.done.add("line", "count unexpected")
            elif act == "bar":
                it.is_to_be_barred = True
            elif act == "keep FAILURE":
                it.keeps_failure = True
            elif act in IN_PLACE or act == "end bar":
                it.owed = act
            elif act in ("open bar", "open lasting bar"):
                # an operator's: no clock ends it
                it.owed = "open lasting bar"
            elif act in ("ACT", "REL", "keep ACT", "RELEASE MOBILE", "DEACTIVATE SACCH"):
                self.send(channel, act)
            elif act[0] in "+-" and act not in CLOCKS:
                self.clock(channel, act[1:], act[0] == "+", words)

    def clock(self, channel, timer, starts, words):
        self.done.add(channel, f"{'start' if starts else 'stop'} {timer} {words}")
        if starts:
            self.timers[timer, channel] = True
        else:
            self.timers.pop((timer, channel), None)

    def send(self, channel, act):
        it, trx = self.channels[channel], trx_of(channel)
        if act in ("REL", "DEACTIVATE SACCH"):
            self.done.add(channel, f"out abis {trx} {about({'REL': '082e', 'DEACTIVATE SACCH': '0825'}[act], channel)}")
        elif act == "keep ACT":
            it.kept = self.said_on(channel, "ACT")
        else:
            kept, it.kept = it.kept, None
            self.done.add(channel, f"out abis {trx} {self.said_on(channel, act) or kept}")

    def said_on(self, channel, kind):
        """The octets of what the controller said on a channel in this turn."""
        return next((line.split(" ")[-1] for line in self.turn.said if is_of(line, kind, channel)), None)

    # TURNS

    def follow(self, desk, line, said, how):
        """The controller handles the line, and its links follow."""
        before = {channel: self.book.state(channel) for channel in self.channels}
        self.turn = desk.begin(line, self.book)
        moves = self.book.turn(self.turn.events)
        self.complete(moves)
        self.follow_timers()
        for channel, it in self.channels.items():
            if it.owed is None:
                self.settle(channel, before[channel])
        self.end_attempts(moves, how)
        self.end_bars()
        self.make_bars()
        self.settle_clocks()
        self.say()
        self.forget()
        desk.end_turn(self.done)
        self.turn = Turn()

    def complete(self, moves):
        """What a controller says to stations follows from its events (docs/PROCEDURE.md). A desk that reads what was printed can't
        tell its RF CHANNEL RELEASE from that of a row."""
        for kind, channel in moves.said:
            line = f"abis {trx_of(channel)} {about('082e', channel)}"
            if kind == "REL" and line not in self.turn.said:
                self.turn.said.append(line)
            if kind == "ACT" and self.said_on(channel, "ACT") is None:
                raise Differs(f"CHANNEL ACTIVATION of {channel} isn't told")

    def follow_timers(self):
        """The timers of calls run exactly if the book has them armed."""
        armed = {(it.timer, number) for number, it in self.book.calls.items() if it.timer}
        running = {key for key in self.timers if key[0] in ("T3103", "T7", "T8")}
        for word, keys in (("stop", running - armed), ("start", armed - running)):
            for timer, number in sorted(keys):
                self.done.add(f"call {number}", f"{word} {timer} {number}")
        self.timers = {key: True for key in [*(self.timers.keys() - running), *armed]}

    def settle(self, channel, before):
        it, state, owner = self.channels[channel], self.book.state(channel), self.book.owner(channel)
        said = {
            "no link": not it.is_linked,
            "refused": before == "pending" or (owner is not None and it.bar == owner),
            "released": self.said_on(channel, "RELEASE MOBILE") is not None,
        }
        found = self.row(self.rows.moved, it.lchan, state, {name for name, is_so in said.items() if is_so})
        if found:
            acts, it.lchan = found
            self.do(channel, acts)

    def end_attempts(self, moves, how):
        """A failure that was kept is told behind the attempt, or dropped."""
        for number in moves.undone:
            serving = self.book.calls.get(number, None)
            it = serving and self.channels.get(serving.serving)
            if it and it.keeps_failure and it.owed is None:
                it.keeps_failure = False
                it.owed = "for FAILURE" if self.rows.is_told(how, it.lchan) else None
        for it in self.channels.values():
            it.keeps_failure = it.keeps_failure and it.lchan in ("On", "Lost")

    def end_bars(self):
        """A bar is a number: the channel is barred exactly while that call has it."""
        for channel, it in self.channels.items():
            if it.bar is not None and self.book.owner(channel) != it.bar:
                it.bar = None

    def make_bars(self):
        """B1: what is to be barred is, once the controller has read what it is given. No line makes a call come from the air."""
        for channel, it in self.channels.items():
            if it.is_to_be_barred and it.owed is None:
                it.is_to_be_barred = False
                if self.book.state(channel) == "free":
                    it.owed = "open bar"

    def settle_clocks(self):
        """The clock of a bar runs exactly while the channel is at Rest and has a bar that a clock ends, whose end isn't owed."""
        for channel, it in self.channels.items():
            runs = it.bar is not None and not it.is_lasting and it.lchan == "Rest" and it.owed != "end bar"
            if runs != (("bar", channel) in self.timers):
                self.clock(channel, "bar", runs, place(channel))

    def say(self):
        """What the controller says is sent by the row of its channel, or it is said. What is for a mobile needs a link."""
        sent_so = {line.removeprefix("out ") for lines in self.done.lines.values() for line in lines}
        for line in self.turn.said:
            if line in sent_so:
                continue
            kind, channel = sent(f"said {line}") if line.startswith("abis ") else ("", None)
            is_command = kind == "DATA REQUEST" and not self.commands_wait and self.channels[channel].is_linked
            if is_command:
                self.done.add(channel, f"out {line}")
            else:
                self.done.said.append(f"said {line}")

    def forget(self):
        """What is known of a call is forgotten with it."""
        self.away &= self.book.calls.keys()
        self.unheeded &= self.book.calls.keys()

    # IN ANOTHER'S PLACE

    def pay(self, desk):
        """The controller is given what it is owed, an input for a turn."""
        while owing := [channel for channel, it in self.channels.items() if it.owed]:
            lines = {channel: self.owed_line(channel) for channel in owing}
            for channel in [name for name, line in lines.items() if line is None]:
                self.channels[channel].owed = lines.pop(channel)
            if not lines:
                continue
            channel, line = desk.choose(lines, self.book)
            it = self.channels[channel]
            if it.owed in ("open bar", "open lasting bar"):
                it.bar, it.is_lasting = line.split(" ")[2], it.owed == "open lasting bar"
            it.owed, self.done = None, Done()
            self.follow(desk, line, {}, UNDONE)

    def owed_line(self, channel):
        """The line by which the controller is given what it is owed. The number of a bar is the program's choice."""
        owed = self.channels[channel].owed
        if owed in IN_PLACE:
            return IN_PLACE[owed](channel)
        if owed == "end bar":
            number = self.channels[channel].bar
            return f"for clear {number}" if number is not None and self.book.owner(channel) == number else None
        return f"for open * {place(channel)}"

    def states(self):
        """Each channel in use: the book's state and its own."""
        held = [(channel, self.book.state(channel), it.lchan) for channel, it in self.channels.items()]
        return {it for it in held if it[1:] != ("free", "Rest")}


def is_of(line, kind, channel):
    """Whether the controller says this, and on this channel."""
    return line.startswith("abis ") and sent(f"said {line}") == (kind, channel)
