"""What the bridge notices, and tells of itself, at most once a while: a cell that is full, and a station that seems to be another
cell's."""
import collections

from page import keeps
from tell import Level, say

# For how many seconds nothing of a cell or a station is told again.
QUIET = 60.0
# How many mobiles in a row that were given a channel on a station and don't come are told.
MOST_VAIN = 10


@keeps("untold", "swaps", "vain", wired=("times",))
class Notices:
    """What was noticed."""

    def __init__(self, times):
        self.times = times
        # by cell how often no channel was free since that was told
        self.untold: collections.Counter = collections.Counter()
        # the units that were told to be those of other cells
        self.swaps: set[str] = set()
        # by unit how many mobiles in a row that were given a channel there didn't come
        self.vain: collections.Counter = collections.Counter()

    def resume(self):
        """Goes on with the times that another bridge has set."""
        for name in [*(("full", cell) for cell in self.untold), *(("swapped", unit) for unit in self.swaps)]:
            if self.times.was_set(name):
                self.be_quiet(name)

    def be_quiet(self, name):
        """Nothing more is told of something for a while."""
        self.times.set(name, QUIET, lambda: None)

    def renumber(self, numbers):
        """Cells have other numbers, or go."""
        before = dict(self.untold)
        self.untold.clear()
        for cell, count in before.items():
            if (number := numbers.get(cell, cell)) is not None:
                self.untold[number] = count

    def full(self, cell):
        """A channel of a cell was asked for, and none of the rate was free."""
        if self.times.is_set(("full", cell)):
            self.untold[cell] += 1
            return
        more = f"; {self.untold[cell]} times more since that was told last" if self.untold[cell] else ""
        say(f"cell {cell} is full: a channel was asked for, and none of the rate is free{more}", Level.WARNING)
        self.untold[cell] = 0
        self.be_quiet(("full", cell))

    def swapped(self, station, carrier, colours):
        """A mobile on a station hears the carrier and the colours of this station's own cell beside it: two units may be swapped."""
        if self.times.is_set(("swapped", station.unit)):
            return
        heard = f"carrier {carrier} with colours {colours >> 3}/{colours & 7}"
        why = "is its unit that of another cell?"
        say(f"{station}: a telephone on it hears {heard}, which is this cell, as a neighbour: {why}", Level.WARNING)
        self.swaps.add(station.unit)
        self.be_quiet(("swapped", station.unit))

    def missed(self, station, carrier):
        """A mobile that was given a channel on a station, on this carrier of the site, didn't come."""
        self.vain[station.unit] += 1
        if self.vain[station.unit] == MOST_VAIN:
            why = f"is its carrier the site's, {carrier}, or is its unit that of another cell?"
            say(f"{station}: {MOST_VAIN} telephones in a row that were given a channel didn't come: {why}", Level.WARNING)

    def arrived(self, station):
        """One came."""
        self.vain[station.unit] = 0
