"""Faults of the bridge itself: an exception that is met while something of one peer is handled. It is told in a line, counted by
its place, and ends what was handled, alone. One that is met elsewhere, as while the controller's lines are handled, ends the
bridge: what it knows may be wrong then (bridge.py)."""
import pathlib
import traceback

from page import keeps
from tell import Level, Sayings

# Whose octets, answers or lines are handled: a station's link, the centre's, the media gateway's, an operator's; or all else.
STATION, CENTRE, GATEWAY, OPERATOR, BRIDGE = PLACES = ("station", "centre", "gateway", "operator", "bridge")


def met_at(error):
    """Where an exception was met, as relay.py:421 in tell_refusal."""
    frames = traceback.extract_tb(error.__traceback__)
    if not frames:
        return "nowhere"
    return f"{pathlib.Path(frames[-1].filename).name}:{frames[-1].lineno} in {frames[-1].name}"


@keeps("counts", wired=("sayings",))
class Faults:
    """The faults that were met."""

    def __init__(self, times):
        self.sayings = Sayings(times)
        self.counts = dict.fromkeys(PLACES, 0)

    def tell(self, place, who, error, then):
        """A fault was met while something of somebody was handled; what is done then is told, too."""
        self.counts[place] += 1
        met = f"a fault of the bridge, {type(error).__name__} at {met_at(error)} ({error})"
        self.sayings.say(place, f"{who}: {met}: {then}", Level.ERROR)
