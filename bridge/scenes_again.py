"""Scenes of bridge/telephones: the controller ends, or another takes its place, while telephones call, speak and move. It is
started again over its journal, and nobody notices that."""
import contextlib
import random
import threading
import time

import scenes_calls
from harness import must
from scenes_calls import begin, end, goes
from show import ANOTHER, KNOWN
from telephone import Moving

# How many seconds a controller is away.
AWAY = 1.0
# The stations of the two cells.
UNITS = ("6969/0/0", "6970/0/0")
# Within how many seconds it is killed again, where that is at random.
LONGEST = 4.0


@contextlib.contextmanager
def away(show, *runs):
    """Controllers are killed, and none is there while something is done."""
    for run in runs:
        run.said.at = len(run.said.lines)
        run.hold()
        run.kill()
    try:
        yield
    finally:
        for run in runs:
            run.let_go()
    for run in runs:
        show.expect_in(run.said, "is started again", "controller: resumed after line")


def killed_in_speech(show):
    """The controller is killed while both speak, and is away for a second: they hear each frame. Then the call moves, and ends.
    """
    one, two = begin(show)

    def is_killed():
        with away(show, show.run):
            show.radio.wait(AWAY)

    show.lose_nothing(one, two, is_killed)
    goes(show, one, 1)
    show.expect(one, "^event complete .* -> done$")
    show.hear(one, two)
    end(show, one, two)


def killed_while_it_moves(show):
    """The controller is killed once a telephone was commanded: until it goes both hear each frame. It arrives while no controller
    is there, and its call is on the other cell once one is. Another time it comes back meanwhile."""
    one, two = begin(show)
    for cell in (1, 0, 1):
        number = is_sent(show, one, cell)
        show.lose_nothing(one, two, lambda: is_away(show))
        with away(show, show.run):
            one.arrive()
            must(one.until(lambda: one.link.is_open and one.link.is_said(), 20), f"{one} doesn't arrive")
            show.radio.wait(AWAY)
        show.expect_of(show.run, f"^event complete {number} -> done$")
        show.hear(one, two)
    is_sent(show, one, 0)
    with away(show, show.run):
        one.come_back()
        show.radio.wait(AWAY)
    show.expect(one, "^event undo .* -> record")
    show.hear(one, two)
    end(show, one, two)


def is_away(show):
    """The controller is killed, and started again at once."""
    with away(show, show.run):
        pass


def is_sent(show, one, cell):
    """A telephone is commanded to a cell, and hasn't gone; the number of its call."""
    one.moving, moved = Moving.STAYS, one.moved
    number = show.ask(one, f"handover CALL {cell}")
    must(one.until(lambda: one.moved > moved, 20), f"{one} isn't commanded")
    return number


def killed_between(show):
    """Both controllers are killed once a telephone was commanded from one to the other, and it arrives while they are away."""
    one, two = begin(show)
    for run in (show.second, show.run):
        is_sent(show, one, 64)
        with away(show, show.run, show.second):
            one.arrive()
            show.radio.wait(AWAY)
        show.expect_of(run, "^event complete .* -> done$")
        show.hear(one, two)
    end(show, one, two)


def killed_at_each_step(show):
    """The controller is killed behind each step of a call, from one telephone's burst to the other's leaving."""
    one, two = show.telephone(KNOWN), show.telephone(ANOTHER, 1)
    steps = (
        lambda: one.dial(two.number),
        two.answer_paging,
        two.ring,
        one.has_speech,
        two.take_call,
        one.is_taken,
        one.hang_up,
        two.is_hung_up,
    )
    for step in steps:
        step()
        is_away(show)
    show.off(one, two)


def upgraded(show):
    """Another program takes the controller's place while both speak: they hear each frame. Then the call moves, and ends."""
    one, two = begin(show)
    names = iter(range(100))

    def is_upgraded():
        other = show.run.controller(f"other{next(names)}")
        show.run.ask(f"upgrade {other}")
        show.expect_of(show.run, f"^{other}: goes on behind line [0-9]+$")

    show.lose_nothing(one, two, is_upgraded)
    goes(show, one, 1)
    show.expect(one, "^event complete .* -> done$")
    show.hear(one, two)
    end(show, one, two)


def the_bridge_is_upgraded(show):
    """Ten bridges take the place of one another while both speak: they hear each frame, and no link is lost. Another one does while a
    telephone is on its way to the other cell, and others between two steps of a call."""
    one, two = begin(show)
    links, resets = stations_of(show), show.run.known("the centre began anew")
    show.lose_nothing(one, two, lambda: another_bridge(show, 10))
    number = is_sent(show, one, 1)
    another_bridge(show)
    one.arrive()
    show.expect_of(show.run, f"^event complete {number} -> done$")
    show.hear(one, two)
    another_bridge(show)
    end(show, one, two)
    one, two = show.telephone(KNOWN), show.telephone(ANOTHER, 1)
    steps = (lambda: one.dial(two.number), two.answer_paging, two.ring, one.has_speech, two.take_call, one.is_taken, one.hang_up)
    for step in (*steps, two.is_hung_up):
        step()
        another_bridge(show)
    show.off(one, two)
    must(stations_of(show) == links, f"stations were {links}, and are {stations_of(show)}")
    must(show.run.known("the centre began anew") == resets, "the centre has begun anew")


def another_bridge(show, count=1):
    """Other bridges take the place, one after another."""
    for _ in range(count):
        show.run.said.at = len(show.run.said.lines)
        show.run.ask("bridge upgrade")
        show.expect_in(show.run.said, "bridge upgrade: .* goes on in the bridge's place")


def stations_of(show):
    """Since when each station is there, and how often its link was lost."""
    at = len(show.run.out.lines)
    show.run.ask("stations")
    found = [show.run.out.find(rf"^station {unit} .*: there since ([0-9:]+);.* links lost: (\d+)$", at)[0] for unit in UNITS]
    return [it.groups() for it in found]


def killed_at_random(show):
    """Both controllers are killed at random, again and again, while all scenes of calls are played."""
    is_over, counts = threading.Event(), [0, 0]
    runs = enumerate((show.run, show.second))
    killers = [threading.Thread(target=kill, args=(run, is_over, counts, place)) for place, run in runs]
    for killer in killers:
        killer.start()
    try:
        for scene in scenes_calls.SCENES:
            begun = time.monotonic()
            show.from_now()
            scene(show)
            show.empty()
            print(f"bridge/telephones:   {scene.__name__}: done in {time.monotonic() - begun:.0f} seconds", flush=True)
    finally:
        is_over.set()
        for killer in killers:
            killer.join()
    print(f"bridge/telephones:   the controllers were killed {counts[0]} and {counts[1]} times", flush=True)


def kill(run, is_over, counts, place):
    """Kills a controller again and again."""
    chance = random.Random(place)
    while not is_over.wait(chance.random() * LONGEST):
        with contextlib.suppress(ValueError, ProcessLookupError):
            run.kill()
            counts[place] += 1


def the_bridge_is_killed(show):
    """The bridge itself is killed while two speak, with its links, and another one begins over the controller's journal: it ends
    their calls, and two telephones speak again, once the stations have begun anew, and the gateway, which would keep its end.
    """
    one, two = begin(show)
    show.hear(one, two)
    services_begin_anew(show, lambda: show.off(one, two))
    one, two = begin(show)
    show.hear(one, two)
    end(show, one, two)


def services_begin_anew(show, then=lambda: None):
    """The bridge is killed, and another one begins over the journal, in which two speak; then something is done, and the gateway and
    the stations begin anew too."""
    show.run.begin_anew()
    show.run.said.find("calls of before are over: 2, with 2 channels$", 0)
    then()
    show.around.kill("mgw")
    show.around.start_gateway()
    for number in (0, 1):
        show.around.kill(f"bts{number}")
        show.around.start_station(number)
    for number in (0, 1):
        show.run.said.find(rf"station 69{69 + number}/0/0 .*: there, from", 0)
    show.run.said.find("A: the centre is there", 0)
    show.empty()


SCENES = (killed_in_speech, killed_while_it_moves, killed_between, killed_at_each_step, upgraded, the_bridge_is_upgraded)
SCENES += (the_bridge_is_killed,)
# These are played only where they are named.
NAMED = (killed_at_random,)
