"""A program that is given lines, and compared at each with what `link_model` says has to come: what is done and in which
order, what the controller is given in another's place, which timers run, and how each channel in use is.

Two things aren't compared: what the controller does (its events are taken as they are printed, if its records agree with the
events before), and the order of lines about different channels and calls. The line that is printed of an input may have 'in'
before it or not, if the controller isn't given the input.
"""
import subprocess

from link_book import Differs
from link_messages import SITE, sent
from link_model import Turn

# A line of which each program knows what comes: the last line that is printed of it ends what was printed of the line before.
LAST = "undo 65535"
ENDS = "event undo 65535 asked -> refused 1"
# What may be printed of a turn beside what is done.
EVENTS = ("event ", "none free ", "fault ")
DONE = ("out ", "said ", "start ", "stop ", "pass ", "count ")


class Program:
    """A program that is given lines, one by one."""

    def __init__(self, words):
        pipes = dict.fromkeys(("stdin", "stdout", "stderr"), subprocess.PIPE)
        self.process = subprocess.Popen([*words, str(SITE)], text=True, **pipes)

    def give(self, line):
        """What the program prints of a line."""
        try:
            self.process.stdin.write(f"{line}\n{LAST}\n")
            self.process.stdin.flush()
        except BrokenPipeError:
            raise Differs(self.ended()) from None
        found = []
        for printed in self.process.stdout:
            found.append(printed.rstrip("\n"))
            if found[-1] == ENDS:
                return found[: found.index(f"in {LAST}")] if f"in {LAST}" in found else found
        raise Differs(self.ended())

    def ended(self):
        self.process.kill()
        return f"the program ended: {self.process.communicate()[1].strip() or 'it says nothing'}"

    def end(self):
        self.process.kill()
        self.process.communicate()


class Desk:
    """What a program printed of one line, read turn by turn."""

    def __init__(self, printed):
        self.blocks, self.block = blocks_of(printed), []

    def begin(self, line, book):
        """The next turn, or what comes of a line that the controller isn't given."""
        if not self.blocks:
            raise Differs(f"the controller isn't given '{line}'")
        (echo, *self.block), self.blocks = self.blocks[0], self.blocks[1:]
        wanted = {f"in {it}" for it in spellings(line)} if book else {it for one in spellings(line) for it in (one, f"in {one}")}
        if line.startswith("for "):
            wanted = {line}
        if echo not in wanted:
            raise Differs(f"'{echo}' is printed, and this has to be: '{sorted(wanted)[0]}'")
        events = [it for it in self.block if it.startswith(EVENTS)]
        if events and not book:
            raise Differs(f"the controller is given '{line}'")
        return Turn([it for it in events if it.startswith("event ")], said_in(self.block))

    def choose(self, lines, book):
        """Of what the controller is owed: which it is given first, and the line."""
        given = self.blocks[0][0] if self.blocks else "nothing"
        for channel, line in lines.items():
            if given == line or is_fresh(given, line, book):
                return channel, given
        raise Differs(f"'{given}' comes, and the controller is owed: {', '.join(lines.values())}")

    def end_turn(self, done):
        """What was done is what had to be."""
        found, said = {}, []
        for line in self.block:
            if line.startswith("said "):
                said.append(line)
            elif line.startswith(DONE):
                found.setdefault(key_of(line), []).append(line)
            elif not line.startswith(EVENTS):
                raise Differs(f"no line of a trace: '{line}'")
        compare(sorted(said), sorted(done.said))
        for key in {**found, **done.lines}:
            compare(found.get(key, []), done.lines.get(key, []))

    def close(self):
        if self.blocks:
            raise Differs(f"nothing is owed, and this comes: {', '.join(self.blocks[0])}")


def blocks_of(printed):
    """What was printed of a line: what came of itself, and then of each line that the controller was given in another's place."""
    blocks = []
    for line in printed:
        if not blocks or line.startswith("for "):
            blocks.append([])
        blocks[-1].append(line)
    return blocks


def spellings(line):
    """How a line may be told: a timer of a call as this program's line, or as that of a script."""
    words = line.split(" ")
    return [line, f"expired {words[2]} {words[1]}"] if words[0] == "expire" else [line]


def is_fresh(given, line, book):
    """Whether a bar is opened by a number that no call has."""
    words = given.split(" ")
    return given.startswith("for open ") and line == " ".join(["for open *", *words[3:]]) and words[2] not in book.calls


def said_in(block):
    """What the controller said, of what is printed of a turn: each message once, whether it is sent or not."""
    said = [line.split(" ", 1)[1] for line in block if line.startswith(("out ", "said "))]
    kinds = {line: sent(f"said {line}")[0] for line in said if line.startswith("abis ")}
    return [line for line in dict.fromkeys(said) if kinds.get(line, "a") in ("ACT", "DATA REQUEST", "RELEASE MOBILE", "a")]


def key_of(line):
    """What a line is about: its order is compared with that of the other lines about the same."""
    word, what, *words = line.split(" ")
    if word in ("start", "stop"):
        return "/".join(words) if len(words) > 1 else f"call {words[0]}"
    if word == "out" and what == "abis":
        return sent(line)[1] or "line"
    return "line"


def compare(found, wanted):
    if found != wanted:
        raise Differs(f"this is done: {', '.join(found) or 'nothing'}; and this has to be: {', '.join(wanted) or 'nothing'}")


def states_in(printed):
    """What `calls` says: a line `channel CHANNEL BOOK STATE` for each channel in use, with its states in the book and here.
    This form is the stand-in's, until a program has one."""
    return {tuple(line.split(" ")[1:4]) for line in printed if line.startswith("channel ")}


def play(program, links, line):
    """Gives the program a line, and compares all that comes of it. The channels' states are asked for behind it."""
    desk = Desk(program.give(line))
    links.play(line, desk)
    desk.close()
    found, wanted = states_in(program.give("calls")), links.states()
    if found != wanted:
        raise Differs(f"the channels are {sorted(found)}, and have to be {sorted(wanted)}")
