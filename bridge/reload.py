"""`reload`: CONFIG and the site are taken as their files are now, and no call is lost. What changes is told. Where the site says
something else, the controller is begun again over its journal with the site of before (--site-changed), as for `upgrade`: that is
tried first beside it, on a copy of the journal. Where it would be refused, or a channel that is in use would be another one, nothing
changes."""
from __future__ import annotations

import dataclasses
import typing

import site_changes
from sites import table_of
from tell import Level, say

if typing.TYPE_CHECKING:
    from config import Config
    from stations import Station

# Which word of a line for the controller is the number of a cell, by its first word; and what stands for one that goes.
CELLS = {b"abis": 1, b"open": 2, b"seize": 2, b"handover": 2}
GONE = 255
# Why the links of stations are read no more, while the number of their cell changes.
PAUSED = "reload"


class Unfit(Exception):
    """CONFIG or the site can't be taken: a line for each fault."""


@dataclasses.dataclass
class Settings:
    """What a bridge goes by: the path of the site and its text, the stations, and all of CONFIG, where there is one."""

    site: str
    text: bytes
    stations: list[Station]
    config: Config | None = None
    # the files that were read, with their checksums
    sums: dict = dataclasses.field(default_factory=dict)


class Reload:
    """A wish of an operator that the settings are taken as they are now."""

    name = title = "reload"
    # whether the old site can take the place again once a controller goes on over the new one
    can_go_back = False

    def __init__(self, again, operator, old, new):
        """`old` and `new` are settings."""
        self.again, self.relay, self.operator, self.old, self.new = again, again.relay, operator, old, new
        self.tables = table_of(old.text), table_of(new.text)
        self.is_tried = False
        # behind which line a controller goes on, once it does
        self.line = None

    def tell(self, text, level=Level.NOTICE):
        """Tells the operator what came of it, and on standard error."""
        say(text, level)
        self.operator.tell(text)

    def changes(self):
        """A line for each thing that changes."""
        yield from self.site_changes()
        yield from site_changes.stations_differ(self.old.stations, self.new.stations)
        if self.new.config:
            yield from site_changes.configs_differ(self.old.config, self.new.config)

    def site_changes(self):
        """A line for each thing that changes in the site."""
        return site_changes.sites_differ(*self.tables)

    def is_other_site(self):
        """Whether the controller is to go on over another site."""
        return any(self.site_changes())

    def stays(self):
        """A line for each thing that can't change so."""
        running = self.again.command[:-1]
        return site_changes.configs_stay(self.old.config, running, self.new.config) if self.new.config else []

    def conflict(self):
        """Why the channels that are in use wouldn't be the same; None where they are."""
        old, new = ({(it.cell, it.trx): it.unit for it in settings.stations} for settings in (self.old, self.new))
        for channel in sorted(self.in_use()):
            used = self.relay.calls.channels.get(channel)
            reason = f"call {used.call} has channel {channel}" if used and used.call else f"channel {channel} isn't released yet"
            change = site_changes.channel_differs(*self.tables, channel)
            if change is None and old.get(channel[:2]) != new.get(channel[:2]):
                change = f"TRX {channel.trx} of cell {channel.cell}: its station: {old.get(channel[:2])} -> {new.get(channel[:2])}"
            if change:
                return f"{change}, while {reason}"
        return None

    def in_use(self):
        """The channels that the book or their station has in use."""
        stations = self.relay.places.values()
        return {*self.relay.calls.channels, *(it.channel(number) for it in stations for number in it.channels)}

    # As another controller (again.py)

    def prepare(self):
        """The new site is to be tried."""
        self.again.kept.prepare(self.new.text)

    def command(self):
        """The command of a controller that goes on over it."""
        return self.again.kept.given_next(self.again.command)

    def objection(self):
        """Why it can't be done just now; None where it can."""
        if self.again.bridge.succession.program:
            return "another bridge is being tried"
        return (self.again.objection() if self.is_other_site() else None) or self.conflict()

    def await_end(self):
        """The controller ends now: nothing more comes from stations whose cell gets another number, or goes."""
        self.pause(True)

    def begin(self):
        """A controller is about to be started over the new site."""
        self.again.kept.begin()

    def is_decided(self):
        """Whether the journal is of the new site already, so that no controller goes on over the old one."""
        return self.again.kept.is_next()

    def undo(self):
        """All stays as it was."""
        self.again.kept.drop()
        self.pause(False)

    def goes_on(self, line):
        """A controller goes on over the new site."""
        self.line = line
        self.again.kept.take()
        self.again.command = self.again.kept.replaced(self.again.command, self.new.site)
        if self.relay.log:
            self.relay.log.note(f"the site is another one from here on: {self.new.site} as it is now")
        self.take()
        self.tell(f"{self.title}: goes on behind line {line}")

    def take(self):
        """The bridge goes by the new settings."""
        self.pause(False)
        self.again.bridge.settings = self.relay.take_settings(self.new, site_changes.numbers(*self.tables))
        self.again.kept.go_by(self.new.site, [it.place() for it in self.new.stations])
        self.again.kept.keep()
        self.note_files()

    def note_files(self):
        """The files are what the bridge goes by, unless something in them stays as it was."""
        files = self.again.bridge.succession.begun.files
        if not self.stays():
            files.update({path: known for path, known in self.new.sums.items() if path in files})

    def pause(self, is_paused):
        """Links of stations whose cell gets another number, or goes, are read no more, or again."""
        numbers = site_changes.numbers(*self.tables)
        for station in self.relay.stations.values():
            if station.link and (numbers.get(station.cell) != station.cell or not is_paused):
                station.link.stream.pause(PAUSED, is_paused)


def renumbered(line, numbers):
    """A line for the controller, in which a cell has its new number."""
    words = line.split()
    place = CELLS.get(words[0]) if words else None
    if place is None or len(words) <= place or not words[place].isdigit():
        return line
    before = int(words[place])
    after = numbers.get(before, before)
    if before == after:
        return line
    words[place] = b"%d" % (GONE if after is None else after)
    return b" ".join(words)


def begin(again, operator, bridge):
    """An operator wishes it: it is begun, or refused."""
    try:
        new = bridge.settings_of_files()
    except Unfit as faults:
        refuse(operator, *str(faults).split("\n"))
        return
    it = Reload(again, operator, bridge.settings, new)
    changes, stays = list(it.changes()), it.stays()
    if why := changes and it.objection():
        refuse(operator, why)
        return
    for line in (*changes, *stays, *([] if changes else ["nothing changes"])):
        it.tell(f"reload: {line}")
    if it.is_other_site():
        again.try_beside(it)
    elif changes:
        it.take()
        it.tell("reload: done, by the same controller")
    else:
        it.note_files()


def refuse(operator, *lines):
    """Tells that nothing changes."""
    for line in lines:
        say(f"refused: reload: {line}", Level.WARNING)
    operator.tell(*(f"refused: reload: {line}" for line in lines))
