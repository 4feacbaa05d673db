"""Scenes of bridge/telephones: the centre dies without a word, and the disk of the controller's journal is full."""
from core_network import CELLS
from handset import REJECTED, Handset
from harness import must
from scenes_again import services_begin_anew
from scenes_calls import begin, end, goes
from scenes_killed import again, centre, wake
from show import KNOWN, THIRD

# How many seconds it may take until the centre is taken for gone, or for there again: a connection isn't answered in 20
# (`connect`), and RESET is said every 10 (`t4`).
LONG = 60
# Subscribers who ask while the centre is dead.
OTHERS = (THIRD, "001010000000004", "001010000000005")


def the_disk_is_full(show):
    """The journal's disk is full while two speak: the controller goes on without a journal, which `network` says, and the call
    speaks, moves and ends. Once there is room the service is started again, and notes what comes."""
    one, two = begin(show)
    show.hear(one, two)
    show.run.fill_disk()
    goes(show, one, 1)
    show.expect(one, "^event complete .* -> done$")
    show.expect_in(show.run.said, "the journal ends, and the controller goes on$")
    show.run.ask("network")
    show.expect_of(show.run, "^controller: there; .*; journal: lost since [0-9:]+$")
    show.hear(one, two)
    end(show, one, two)
    show.empty()
    services_begin_anew(show)
    show.run.ask("network")
    show.expect_of(show.run, "^controller: there; .*; journal: noted$")
    one, two = begin(show)
    show.hear(one, two)
    end(show, one, two)


def the_centre_dies(show):
    """osmo-msc is killed while two speak, and osmo-stp takes what is for it: that three telephones in a row aren't answered shows
    that it is gone. Then the calls end, and a telephone that asks is rejected. Once osmo-msc is back, two speak."""
    one, two = begin(show)
    show.hear(one, two)
    show.around.kill("msc")
    for imsi in OTHERS:
        it = show.mobile(imsi)
        it.seize()
        it.open(it.update())
    gone = "A: the centre is away: 3 connections in a row aren't answered, .*; calls that end: [2-5]$"
    show.expect_in(show.run.said, gone, seconds=LONG)
    is_gone(show, one, two)
    wake(show)
    again(show)
    # osmo-bsc doesn't hear by itself that the centre began anew
    show.around.restart_controller()


def the_centre_is_gone(show):
    """osmo-msc is killed while two speak, and osmo-stp says that it can't be reached: the calls end at once, and a telephone that
    asks is rejected. Once osmo-msc is back, two speak."""
    one, two = begin(show)
    show.hear(one, two)
    show.around.kill("msc")
    gone = "A: the centre is away: the network says that it can't be reached; calls that end: 2$"
    show.expect_in(show.run.said, gone, seconds=LONG)
    is_gone(show, one, two)
    again(show)


def is_gone(show, one, two):
    """The centre was taken for gone: the calls of two telephones end, `network` says it, and a telephone is rejected; then the
    centre begins anew, and is there."""
    for it in (one, two):
        it.left(LONG)
    show.off(one, two)
    show.run.ask("network")
    show.expect_of(show.run, "^centre: not there since [0-9:]+; ")
    mobile = Handset(show.radio, KNOWN, CELLS[0].arfcn)
    must(mobile.answered(mobile.ask(), REJECTED, 10), "no IMMEDIATE ASSIGNMENT REJECT")
    centre(show)
    show.expect_in(show.run.said, "A: the centre is there$", seconds=LONG)


SCENES = (the_disk_is_full, the_centre_dies)
# Over M3UA, which tells of a centre that can't be reached.
OVER_M3UA = (the_centre_is_gone,)
