#!/usr/bin/env python3
"""The program with its own journal, for tests: it is killed at each place of a line that is asked for.

    bridge/killed_controller.py PROGRAM live SITE --journal FOLDER

PROGRAM is a build of bsc_lab. Lines are given to `PROGRAM live SITE --journal FOLDER` one by one, and what it prints of each is
handed on once the journal has it. FOLDER/plan is that of test_controller.py, with its stages `given`, `cut`, `noted`, `torn` and
how many of its lines are printed; `cut` leaves half a record of the line, as a power cut may.
"""
import os
import pathlib
import re
import signal
import subprocess
import sys
import time

# The head of a record: its number, and how many octets its body has (docs/JOURNAL.md).
HEAD = re.compile(rb"record (\d{20}) (\d{20}) [0-9a-f]{8} [0-9a-f]{8}\n")
# How many seconds are between two looks into the journal.
SOON = 0.002


class Controller:
    """The program, and its journal."""

    def __init__(self, words, folder):
        self.folder = folder
        self.number = max((number for number, *_ in self.records()), default=0)
        self.process = subprocess.Popen(words, stdin=subprocess.PIPE, stdout=subprocess.PIPE)

    def newest(self):
        """The journal's last file; None where there is none."""
        return max(self.folder.glob("*.journal"), default=None)

    def records(self):
        """The whole records of the last file: of each its number, where it begins, and its body."""
        path = self.newest()
        octets = path.read_bytes() if path else b""
        at = octets.find(b"\n") + 1
        while head := HEAD.match(octets, at):
            end = head.end() + int(head[2])
            if end > len(octets):
                return
            yield int(head[1]), at, octets[head.end() : end]
            at = end

    def stage(self):
        """At which stage of this line it is to be killed, if it is."""
        plan = self.folder / "plan"
        words = plan.read_text().split("\n")[0].split() if plan.exists() else []
        return words[1] if words and int(words[0]) == self.number else None

    def kill(self):
        """The program is killed, and so is this; that isn't planned any more."""
        plan = self.folder / "plan"
        plan.write_text("".join(plan.read_text().splitlines(keepends=True)[1:]))
        self.process.kill()
        self.process.wait()
        os.kill(os.getpid(), signal.SIGKILL)

    def noted(self):
        """Waits until the journal has the line; where its record begins, and the lines that the program prints of it."""
        while True:
            for number, at, body in self.records():
                if number == self.number:
                    return at, body.splitlines(keepends=True)
            if self.process.poll() is not None:
                self.hand_on(self.process.stdout.read())
                sys.exit(self.process.returncode)
            time.sleep(SOON)

    def hand_on(self, octets):
        """Prints something."""
        while octets:
            octets = octets[os.write(1, octets) :]

    def take(self, line):
        """Takes a line."""
        self.number += 1
        if (stage := self.stage()) == "given":
            self.kill()
        self.process.stdin.write(line)
        self.process.stdin.flush()
        at, lines = self.noted()
        if stage == "cut":
            path = self.newest()
            os.truncate(path, (at + path.stat().st_size) // 2)
        if stage in ("cut", "noted"):
            self.kill()
        for place, noted in enumerate(lines):
            if stage == str(place):
                self.kill()
            if (printed := self.process.stdout.readline()) != noted:
                sys.exit(f"line {self.number}: it prints {printed}, and its journal has {noted}")
            self.hand_on(printed[:5] if stage == "torn" else printed)
            if stage == "torn":
                self.kill()
        if stage:
            self.kill()

    def end(self):
        """Ends it; its status."""
        self.process.stdin.close()
        self.hand_on(self.process.stdout.read())
        return self.process.wait()


def main():
    words = sys.argv[1:]
    controller = Controller(words, pathlib.Path(words[words.index("--journal") + 1]))
    for line in sys.stdin.buffer:
        controller.take(line)
    sys.exit(controller.end())


if __name__ == "__main__":
    main()
