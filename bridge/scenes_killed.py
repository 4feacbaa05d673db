"""Scenes of bridge/telephones that aren't played unless they are named: each part of the network is killed at each stage of
a call. Whatever became of that call, nothing is left of it, and two telephones speak again."""
import time

from core_network import CELLS
from handset import Unheard
from harness import Unmet, must
from scenes_calls import begin, end
from show import ANOTHER, KNOWN, NUMBERS, THIRD
from telephone import DISCONNECT, LET_GO, LET_GO_COMPLETE, NORMAL, Moving, Telephone, call

# How many times telephones try to speak again: a centre that began anew takes no call at first.
TRIES = 4


def asks(one, _two, _show):
    """A call was asked for, and nobody has answered."""
    one.dial(NUMBERS[ANOTHER])


def rings(one, two, _show):
    """The other telephone rings."""
    one.dial(NUMBERS[ANOTHER])
    two.answer_paging()
    two.ring()


def speaks(one, two, show):
    """Both speak."""
    call(one, two)
    show.radio.wait(0.5)


def is_sent_away(one, two, show):
    """One was commanded to the other cell, and hasn't gone."""
    speaks(one, two, show)
    is_moving(one, show, 1)


def is_sent_far_away(one, two, show):
    """One was commanded to another controller's cell, and hasn't gone."""
    wake(show)
    speaks(one, two, show)
    is_moving(one, show, 64)


def wake(show):
    """A telephone registers at the other controller: where the centre began anew, it knows that one only once it has heard of it.
    """
    for _ in range(TRIES):
        it = Telephone(show.radio, THIRD, NUMBERS[THIRD], CELLS[2].arfcn)
        try:
            must(it.broadcast(0x1B), "cell 2 has no system information")
            it.register(CELLS[2].lac)
            return
        except Unheard:
            show.radio.wait(3)
        finally:
            show.off(it)


def is_moving(one, show, cell):
    """A telephone is commanded to a cell, and stays."""
    one.moving = Moving.STAYS
    show.ask(one, f"handover CALL {cell}")
    must(one.until(lambda: one.moved, 20), f"{one} isn't commanded")


def station(number):
    """What starts a station again, and waits for it."""

    def start(show):
        show.around.start_station(number)
        run = show.run if number < 2 else show.second
        run.said.expect(r"station 69\d\d/0/0 .*: there, from")

    return start


def centre(show):
    """Starts osmo-msc again, with its gateway."""
    show.around.start_centre_gateway()
    show.around.start_switch()


def transfer(show):
    """Starts osmo-stp again, and the centre, which was joined by it."""
    show.around.kill("msc")
    show.around.start_centre_gateway()
    show.around.start_centre()


STAGES = (asks, rings, speaks, is_sent_away, is_sent_far_away)
PARTS = {
    "bts0": station(0),
    "bts1": station(1),
    "bts2": station(2),
    "mgw": lambda show: show.around.start_gateway(),
    "msc": centre,
    "stp": transfer,
}
# On which station each telephone is.
ON = {"bts0": 0, "bts1": 1}
# Call control's discriminator, and what is answered to each of its messages that ends a call.
CALL_CONTROL = 0x03
ANSWERED = {DISCONNECT: LET_GO, LET_GO: LET_GO_COMPLETE}


def kill(show, name, stage):
    """Kills a part at a stage of a call, and starts it again once its loss was noticed, if it was."""
    one, two = show.telephone(KNOWN), show.telephone(ANOTHER, 1)
    try:
        stage(one, two, show)
        show.from_now()
        show.around.kill(name)
        if name in ON:
            (one, two)[ON[name]].vanish()
        for it in (one, two):
            finish(it)
    finally:
        show.off(one, two)
    PARTS[name](show)
    again(show)


def finish(it):
    """A telephone's call ends: it answers what it hears of that; where it hears nothing for long, its user hangs up."""
    end, hangs_up = time.monotonic() + 40, time.monotonic() + 15
    while it.is_on_channel() and not it.was_released and time.monotonic() < end:
        for message in it.came:
            kind = message[1] & 0x3F if message[0] & 0x0F == CALL_CONTROL else None
            if kind in ANSWERED:
                it.control(ANSWERED[kind])
        it.came = []
        if time.monotonic() > hangs_up and it.link.is_open:
            it.control(DISCONNECT, NORMAL)
            hangs_up = end
        it.radio.wait(0.3)


def again(show):
    """Two telephones speak again, sooner or later."""
    for left in reversed(range(TRIES)):
        hearers = list(show.radio.hearers)
        try:
            one, two = begin(show)
            show.hear(one, two)
            end(show, one, two)
            show.empty()
            return
        except (Unheard, Unmet) as error:
            if left == 0:
                raise
            print(f"bridge/telephones:   not yet: {str(error)[:200]}", flush=True)
            left_on = [hearer.__self__ for hearer in show.radio.hearers if hearer not in hearers]
            for it in left_on:
                finish(it)
            show.off(*left_on)
            show.radio.wait(5)


def scene_of(name):
    """The scene that kills a part at each stage."""

    def killed(show):
        for stage in STAGES:
            begun = time.monotonic()
            kill(show, name, stage)
            print(f"bridge/telephones:   {name}, {stage.__name__}: done in {time.monotonic() - begun:.0f} seconds", flush=True)

    killed.__name__ = f"killed_{name}"
    killed.__doc__ = f"{name} is killed at each stage of a call."
    return killed


SCENES = tuple(scene_of(name) for name in PARTS)
