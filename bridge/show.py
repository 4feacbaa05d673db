"""What the scenes of bridge/telephones play with: bridges that run, the network around them, and mobiles."""
import json
import os
import pathlib
import re
import resource
import signal
import tempfile
import time

from core_network import CELLS, GATEWAY, GATEWAY_TERMINAL, ask
from handset import Handset
from harness import FOLDER, Bridge, Unmet, must
from speech import PERIOD
from telephone import Telephone

# Subscribers that the register knows, with their numbers, and one that it doesn't know.
KNOWN, ANOTHER, THIRD, UNKNOWN = "001010000000001", "001010000000002", "001010000000003", "001010000000099"
NUMBERS = {KNOWN: "1001", ANOTHER: "1002", THIRD: "1003"}
# How many seconds the end of a call may take on all sides.
EMPTY = 40
# How many frames of two seconds' speech, which are a hundred, have to be said, and how many may be lost; and how often they may
# speak until it is so.
LEAST_SAID, MOST_LOST, TRIES = 90, 10, 5
# How many frames a second may have: fifty, and the reports that stations send beside them.
MOST_COUNTED = 55
# Which part of what is said is heard at least each time, also while a call moves, and on a busy machine; and how many frames a
# move may cost, once a busy machine had more time. A gateway that doesn't make one stream of two stations' costs some 40.
HEARD_PART, MOST_MOVING = 2, 25
# A controller that says which process it is, and doesn't begin, or go on, while it is held. Where no file may grow it isn't killed
# (XFSZ): what it writes fails.
CONTROLLER = """#!/bin/sh
trap '' XFSZ
echo $$ > "{folder}/process"
while [ -e "{folder}/hold" ]; do sleep 0.05; done
exec "{program}" "$@"
"""


class Run(Bridge):
    """A bridge of a network that runs, by its CONFIG. Over M3UA it has another port and another point code. Its controller has a
    journal, and is started again where it ends."""

    def __init__(self, program, room, settings, transport="ipa", name="network"):
        self.folder = pathlib.Path(tempfile.mkdtemp(dir=room))
        self.program = program
        journal = ["--journal", str(self.folder / "journal"), "--journal-lost", "go-on"]
        words = json.dumps([str(self.controller("controller")), "live", *journal])
        text = (FOLDER / f"{name}.toml").read_text().replace('["./lab", "live"]', words)
        if transport == "m3ua":
            text = text.replace('"ipa"', '"m3ua"').replace("port = 5000", "port = 2905").replace('"0.42.1"', '"0.42.2"')
        self.site = FOLDER / f"{name}_site.toml"
        (room / f"{name}.toml").write_text(text)
        (room / self.site.name).write_text(self.site.read_text())
        preload = f"LD_PRELOAD={(settings or {}).get('LD_PRELOAD', '')}"
        self.room, self.name, self.count = room, name, 0
        self.words = ["env", preload, FOLDER / "network", room / f"{name}.toml", "--again", "1000"]
        self.begin()

    def begin(self):
        """A bridge begins."""
        self.run([*self.words, "--log", f"{self.name}{self.count}.log"], self.room)

    def begin_anew(self):
        """The bridge is killed, and once its controller has ended another one begins over the journal."""
        self.process.kill()
        self.process.wait()
        # this is the first process of its namespace, to which those fall whose parent is gone
        os.waitpid(self.controllers_number(), 0)
        self.count += 1
        self.begin()

    def controllers_number(self):
        """The number of the controller's process."""
        return int((self.folder / "process").read_text())

    def trace(self):
        """Where the trace is: what came of all lines; of a bridge that began anew the journal's."""
        if self.count:
            return max((self.folder / "journal").glob("*.journal"))
        path = self.folder / "trace"
        path.write_text("\n".join(self.out.lines) + "\n")
        return path

    def controller(self, name):
        """A controller of a name."""
        path = self.folder / name
        path.write_text(CONTROLLER.format(folder=self.folder, program=self.program))
        path.chmod(0o755)
        return path

    def hold(self):
        """From now on no controller begins."""
        (self.folder / "hold").touch()

    def let_go(self):
        """One may begin."""
        (self.folder / "hold").unlink()

    def kill(self):
        """Kills the controller, as a power cut would."""
        os.kill(self.controllers_number(), signal.SIGKILL)

    def fill_disk(self):
        """From now on nothing more can be written to the controller's files, as where a disk is full."""
        resource.prlimit(self.controllers_number(), resource.RLIMIT_FSIZE, (1, resource.RLIM_INFINITY))

    def is_empty(self):
        """Waits until no channel is in use."""
        end = time.monotonic() + EMPTY
        at = len(self.out.lines)
        while time.monotonic() < end:
            self.ask("calls")
            time.sleep(0.3)
            came, at = self.out.lines[at:], len(self.out.lines)
            if "no channel is in use" in came:
                return
        raise Unmet(f"channels stay in use: {came}")

    def number_of(self, place):
        """The number of the call that was last on a channel, or was to go there; a channel as 0/0/1."""
        for line in reversed(self.out.lines):
            if found := re.match(rf"event (?:open (\d+)|take (\d+) \w+) {place} -> done", line):
                return int(found[1] or found[2])
        raise Unmet(f"no call was on {place}")

    def target_of(self, number):
        """The timeslot of the channel that a call is to go to in cell 1."""
        for line in reversed(self.out.lines):
            if found := re.match(rf"event take {number} \w+ 1/0/(\d) -> done", line):
                return int(found[1])
        raise Unmet(f"call {number} has no target")

    def known(self, word):
        """What the bridge says of a word, in its answer to `network`."""
        self.ask("network")
        time.sleep(0.2)
        lines = [line for line in self.out.lines if line.startswith("centre: ")]
        return re.search(rf"{word}: [^;]*", lines[-1])[0]


class Show:
    """What the scenes play with: the bridge, with a second one where calls go there; the programs around it; the radio."""

    def __init__(self, run, around, radio, second=None):
        self.run, self.around, self.radio, self.second = run, around, radio, second
        self.calls = 0

    # Mobiles that register

    def mobile(self, imsi, cell=0):
        """A mobile in a cell, which has heard where it is (system information 3)."""
        mobile = Handset(self.radio, imsi, CELLS[cell].arfcn)
        must(mobile.broadcast(0x1B), f"cell {cell} has no system information")
        return mobile

    def begin(self, mobile, identity=None):
        """A mobile asks for a channel, and makes itself known there by LOCATION UPDATING REQUEST."""
        self.calls += 1
        mobile.seize()
        mobile.open(mobile.update(identity))

    def leaves(self, mobile, cell=0):
        """A mobile hears CHANNEL RELEASE, and leaves; its channel is free then."""
        mobile.leave()
        self.freed(mobile, cell)

    def freed(self, mobile, cell=0):
        """A mobile's channel is free."""
        self.run.expect(f"^event released {cell}/0/{mobile.timeslot} -> done$")

    def registers(self, imsi, cell=0):
        """A mobile registers, from its burst to the end of its channel."""
        self.calls += 1
        mobile = self.mobile(imsi, cell)
        mobile.register()
        self.freed(mobile, cell)

    # Telephones that call

    def telephone(self, imsi, cell=0):
        """A telephone in a cell, which has heard where it is, and registers."""
        it = Telephone(self.radio, imsi, NUMBERS[imsi], CELLS[cell].arfcn)
        must(it.broadcast(0x1B), f"cell {cell} has no system information")
        it.register(CELLS[cell].lac)
        return it

    def off(self, *telephones):
        """Telephones are switched off."""
        for it in telephones:
            it.vanish()
            self.radio.hearers.remove(it.overhear)

    def bridge_of(self, telephone):
        """The bridge in whose cell a telephone is, and the channel that it has there, as 0/0/1."""
        cell = next(number for number, it in enumerate(CELLS) if it.arfcn == telephone.arfcn)
        half = "" if telephone.half is None else f"/{telephone.half}"
        run, own = (self.run, cell) if cell < 2 else (self.second, 0)
        return run, f"{own}/0/{telephone.timeslot}{half}"

    def number_of(self, telephone):
        """The number of a telephone's call in its bridge."""
        run, place = self.bridge_of(telephone)
        return run.number_of(place)

    def ask(self, telephone, line):
        """An operator of a telephone's bridge gives a line, in which CALL stands for the number of its call; that number."""
        run, place = self.bridge_of(telephone)
        number = run.number_of(place)
        run.ask(line.replace("CALL", str(number)))
        return number

    def count(self, one, two, during=None, seconds=2.0):
        """Two telephones speak for so long, and something is done meanwhile; how many frames were said, and how many of them
        each didn't hear."""
        begun = one.voice.said, two.voice.said
        if during:
            during()
        self.radio.wait(seconds)
        ended = one.voice.said, two.voice.said
        # the last frames are on their way
        self.radio.wait(0.6)
        lost = tuple(
            end - begin - len({number for number in hearer.voice.heard if begin < number <= end})
            for begin, end, hearer in zip(begun, ended, (two, one))
        )
        said = tuple(end - begin for begin, end in zip(begun, ended))
        text = f"of {said[0]} frames {lost[0]} aren't heard, of {said[1]} the other way {lost[1]}"
        print(f"bridge/telephones:   {text}", flush=True)
        return said, lost

    def speak(self, one, two, during=None, seconds=2.0):
        """The same; speech goes on, whatever is done meanwhile, or where that is the move of a call."""
        said, lost = self.count(one, two, during, seconds)
        must(min(said) >= seconds / PERIOD / 2, f"they say {said} frames")
        must(all(missing <= of // HEARD_PART for of, missing in zip(said, lost)), f"{lost} frames of {said} are lost")
        return said, lost

    def each_way(self, one, two, *ways):
        """Telephones speak while one is moved in several ways, one behind the other, and hear one another behind each. Each way
        costs few frames. A busy machine is given more time: all ways are gone again, until each has cost so few."""
        dear = dict(enumerate(ways))
        for _ in range(TRIES):
            for place, way in enumerate(ways):
                _, lost = self.speak(one, two, way)
                self.hear(one, two)
                if max(lost) <= MOST_MOVING:
                    dear.pop(place, None)
            if not dear:
                return
        raise Unmet(f"the ways {list(dear)} cost over {MOST_MOVING} frames each time")

    def hear(self, one, two, during=None):
        """Two telephones speak for two seconds, and hear one another, but for a few frames. A busy machine is given more time.
        """
        for _ in range(TRIES):
            said, lost = self.speak(one, two, during)
            if min(said) >= LEAST_SAID and max(lost) <= MOST_LOST:
                return
            during = None
        raise Unmet(f"{lost} frames of {said} are lost")

    def lose_nothing(self, one, two, during):
        """Two telephones speak for two seconds while something is done, and hear all of it. A busy machine is given more time: it
        is done again."""
        for _ in range(TRIES):
            said, lost = self.speak(one, two, during)
            if min(said) >= LEAST_SAID and max(lost) == 0:
                return
        raise Unmet(f"{lost} frames of {said} are lost")

    def frames_are_counted(self, telephone):
        """The bridge counts the frames of a telephone, each way, while speech goes on: nearly all of a second's."""
        run, place = self.bridge_of(telephone)
        known = re.compile(rf"channel {place}: .*; frames in the last second: (\d+) from the mobile, (\d+) to it")
        end, counts = time.monotonic() + EMPTY, []
        while not counts or min(counts) < LEAST_SAID / 2 or max(counts) > MOST_COUNTED:
            must(time.monotonic() < end, f"the frames of {place} are {counts}")
            at = len(run.out.lines)
            run.ask("calls")
            self.radio.wait(0.5)
            counts = [int(it) for found in map(known.match, run.out.lines[at:]) if found for it in found.groups()]
        print(f"bridge/telephones:   in a second {counts[0]} frames come from {place}, and {counts[1]} go there", flush=True)

    def from_now(self):
        """What the bridges have said up to now isn't waited for any more."""
        for run in filter(None, (self.run, self.second)):
            for lines in (run.out, run.said):
                lines.at = len(lines.lines)

    def expect(self, telephone, *patterns, seconds=30):
        """Waits for lines of a telephone's bridge, while speech goes on."""
        run, _ = self.bridge_of(telephone)
        self.expect_of(run, *patterns, seconds=seconds)

    def expect_of(self, run, *patterns, seconds=30):
        """Waits for lines of a bridge's controller, while speech goes on."""
        self.expect_in(run.out, *patterns, seconds=seconds)

    def expect_in(self, lines, *patterns, seconds=30):
        """Waits for lines, while speech goes on."""
        for pattern in patterns:
            end = time.monotonic() + seconds
            while True:
                try:
                    lines.expect(pattern, 0)
                    break
                except Unmet:
                    if time.monotonic() > end:
                        raise
                self.radio.wait(0.05)

    def empty(self):
        """Nothing is left: neither in the books nor in the gateway."""
        for run in filter(None, (self.run, self.second)):
            run.is_empty()
        end = time.monotonic() + EMPTY
        while used := gateway_connections():
            if time.monotonic() > end:
                raise Unmet(f"the gateway has connections yet: {used}")
            self.radio.wait(0.5)


def gateway_connections():
    """The connections that the bridges' media gateway has."""
    return re.findall(r"CONN: .*", ask(GATEWAY_TERMINAL, "show mgcp stats", GATEWAY))
