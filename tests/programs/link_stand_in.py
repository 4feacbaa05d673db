#!/usr/bin/env python3
"""Stands in for a controller with its links (`bsc SITE`), until that program is there: the rows of docs/LINKS.md around a
controller.

    tests/programs/link_stand_in.py [--controller LAB] [--wrong NAME] SITE

The controller is that of `link_controller`. With LAB, which is ./lab or a build of bsc_lab, it is the proved one. With
--wrong it goes wrong in one way; if there is no such NAME, it says which there are. `links` and `random_links` beside this are
tried against it. The SITE is that of tests/two_cells.
"""
import subprocess
import sys
from dataclasses import replace

sys.dont_write_bytecode = True
from link_controller import PlainController
from link_model import Links, Turn
from link_rows import HEARD, Rows

# A line of which it is known what comes: its end is that of the line before. `link_checks` has another one.
LAST, ENDS = "undo 65534", "event undo 65534 asked -> refused 1"
# The numbers of bars are above this one.
FIRST = 60000


class Controller:
    """The proved controller, as a program that is given lines."""

    def __init__(self, lab, site):
        self.process = subprocess.Popen([lab, "live", site], stdin=subprocess.PIPE, stdout=subprocess.PIPE, text=True)

    def give(self, line):
        """What comes of a line, without its echo."""
        self.process.stdin.write(f"{line}\n{LAST}\n")
        self.process.stdin.flush()
        found = []
        for printed in self.process.stdout:
            found.append(printed.rstrip("\n"))
            if found[-1] == ENDS:
                return found[1 : found.index(f"in {LAST}")]
        sys.exit("link_stand_in: the controller has ended")


class StandIn:
    """A controller with its links, which is given lines, and prints what comes of each."""

    def __init__(self, controller, wrong=None):
        self.controller, self.links = controller, WRONG[wrong]() if wrong else Links()
        self.printed, self.next = [], FIRST

    def give(self, line):
        self.printed = []
        if line == "calls":
            return [f"channel {' '.join(it)}" for it in sorted(self.links.states())]
        if line and not line.startswith("#"):
            self.links.play(line, self)
        return self.printed

    def end(self):
        """Nothing is left behind."""

    # What a model's desk does.

    def begin(self, line, book):
        """A turn of the controller, printed as far as it is known."""
        self.printed.append(f"in {line}" if book and not line.startswith("for ") else line)
        if book is None:
            return Turn()
        came = self.controller.give(line.removeprefix("for "))
        self.printed += [it for it in came if not it.startswith("out ")]
        said = [it.removeprefix("out ") for it in came if it.startswith("out ")]
        return Turn([it for it in came if it.startswith("event ")], said)

    def choose(self, lines, _book):
        channel, line = next(iter(lines.items()))
        self.next += "*" in line
        return channel, line.replace("*", str(self.next))

    def end_turn(self, done):
        for lines in done.lines.values():
            self.printed += lines
        self.printed += done.said


# WRONG WAYS


def changed(part, name, of=None, **changes):
    """The rows, with some of one number changed: those of these states, if any are named."""

    def fits(row):
        return row.name == name and of in (None, ", ".join(row.states))

    rows = Rows()
    return replace(rows, **{part: tuple(replace(row, **changes) if fits(row) else row for row in getattr(rows, part))})


def told_again():
    rows = Rows()
    return replace(rows, kept=tuple((end, lchan, "told" if "FAILURE" in end else told) for end, lchan, told in rows.kept))


class Forgetful(Links):
    """T3103 isn't stopped."""

    def follow_timers(self):
        super().follow_timers()
        for key in self.done.lines:
            self.done.lines[key] = [line for line in self.done.lines[key] if not line.startswith("stop T3103")]


class Eager(Links):
    """What is said and not sent is told as sent."""

    def say(self):
        super().say()
        for line in self.done.said:
            self.done.add("line", line.replace("said ", "out ", 1))
        self.done.said.clear()


class Open(Links):
    """What was refused is free at once."""

    def make_bars(self):
        for it in self.channels.values():
            it.is_to_be_barred = False


class Late(Links):
    """A bar has no clock."""

    def settle_clocks(self):
        pass


class Silent(Links):
    """The controller isn't told what a station that is lost would have said."""

    def do(self, channel, acts, passed=""):
        super().do(channel, [it for it in acts if it != "for RELEASE ACK"], passed)


WRONG = {
    "an unanswered release frees": lambda: Links(changed("heard", "L15", behind="Rest")),
    "an acknowledgement in Closing is taken": lambda: Links(changed("heard", "L4", states=("Activating", "Closing"))),
    "a second release": lambda: Links(changed("moved", "L8", "Reopening", acts=("-activation", "REL", "+release"))),
    "a release never leaves": lambda: Links(changed("moved", "L10", acts=("+release",))),
    "what is kept never leaves": lambda: Links(changed("heard", "L17", acts=("+activation",))),
    "a lost link forgets a channel that is on": lambda: Links(changed("heard", "L24", acts=(), behind="Rest")),
    "a mobile arrives before its command left": lambda: Links(changed("heard", "L20", guard="")),
    "an absent station doesn't refuse": lambda: Links(changed("moved", "L2", states=())),
    "a channel is barred for nobody": Open,
    "T3103 isn't stopped": Forgetful,
    "what isn't sent is told as sent": Eager,
    "a bar has no clock": Late,
    "no release is acknowledged in a station's place": Silent,
}

# Where the page has a row for it.
if any("HANDOVER FAILURE" in row.inputs for row in HEARD):
    WRONG["a failure is told again behind HANDOVER FAILURE"] = lambda: Links(told_again())


def main(words):
    named, lab = None, None
    while len(words) > 1 and words[0] in ("--wrong", "--controller"):
        named, lab = (words[1], lab) if words[0] == "--wrong" else (named, words[1])
        words = words[2:]
    if len(words) != 1 or words[0].startswith("-") or (named and named not in WRONG):
        sys.exit(__doc__ + "\n".join(WRONG))
    it = StandIn(Controller(lab, words[0]) if lab else PlainController(), named)
    for line in sys.stdin:
        print("".join(f"{printed}\n" for printed in it.give(line.rstrip("\n"))), end="", flush=True)


if __name__ == "__main__":
    main(sys.argv[1:])
