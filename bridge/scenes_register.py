"""Scenes of bridge/telephones: telephones that register at a real switching centre."""
from handset import ACCEPT, REJECTED
from harness import must
from show import ANOTHER, KNOWN, THIRD, UNKNOWN

# What mobiles hear beside: LOCATION UPDATING REJECT, IDENTITY REQUEST; and say: IDENTITY RESPONSE.
REJECT, WHO, IDENTITY = b"\x05\x04", b"\x05\x18", b"\x05\x19"


def a_known_mobile(show):
    """A mobile that the register knows asks for a channel, registers, hears CHANNEL RELEASE, and leaves."""
    show.registers(KNOWN)


def the_other_cell(show):
    """Another mobile registers in the other cell."""
    show.registers(ANOTHER, 1)


def asked_who_it_is(show):
    """A mobile with an identity that the centre never gave is asked who it is, and registers."""
    mobile = show.mobile(THIRD)
    show.begin(mobile, bytes.fromhex("05f412345678"))
    mobile.expect(WHO)
    mobile.say(mobile.numbered(IDENTITY + mobile.identity()))
    mobile.take_identity()
    show.leaves(mobile)


def an_unknown_mobile(show):
    """A mobile that the register doesn't know is rejected, and hears CHANNEL RELEASE."""
    mobile = show.mobile(UNKNOWN)
    show.begin(mobile)
    mobile.expect(REJECT)
    show.leaves(mobile)


def no_mobile(show):
    """Behind a burst no mobile makes itself known: the channel is taken back (T3101)."""
    mobile = show.mobile(KNOWN)
    show.calls += 1
    mobile.seize()
    show.run.expect(f"^in clear {show.calls}$")
    show.freed(mobile)


def nothing_free(show):
    """A cell has no free channel: the mobile hears IMMEDIATE ASSIGNMENT REJECT; once one is free it registers."""
    for number in range(1, 8):
        show.run.ask(f"open {100 + number} 0 0 {number}")
        show.run.expect(f"^event look {100 + number} -> record 0/0/{number} on$")
    mobile = show.mobile(KNOWN)
    show.calls += 1
    must(mobile.answered(mobile.ask(), REJECTED, 10), "no IMMEDIATE ASSIGNMENT REJECT")
    for number in range(1, 8):
        show.run.ask(f"clear {100 + number}")
        show.run.expect(f"^event released 0/0/{number} -> done$")
    show.registers(KNOWN)


def a_station_is_lost(show):
    """A station is lost while a mobile registers: the centre clears the call; the station comes back, and the mobile
    registers."""
    mobile = show.mobile(KNOWN)
    show.begin(mobile)
    mobile.expect(ACCEPT)
    show.around.kill("bts0")
    show.run.said.expect("station 6969/0/0 .*its link is lost, with 1 channels")
    show.freed(mobile)
    show.around.start_station(0)
    show.run.said.expect("station 6969/0/0 .*: there, from")
    show.registers(KNOWN)


def the_centre_is_restarted(show):
    """The centre is restarted: it says RESET to who speaks to it first, all calls end, and mobiles register again."""
    show.around.kill("msc")
    show.around.start_switch()
    mobile = show.mobile(KNOWN)
    show.begin(mobile)
    show.run.said.expect("A: the centre begins anew")
    show.leaves(mobile)
    show.run.said.expect("A: the centre is there")
    show.registers(KNOWN)


def the_link_is_lost(show):
    """osmo-stp is restarted while a mobile is on its channel: its call ends, both sides begin anew, and it registers."""
    mobile = show.mobile(KNOWN)
    show.begin(mobile)
    mobile.expect(ACCEPT)
    show.around.kill("stp")
    show.run.said.expect("A: the link is lost, and all calls end")
    show.leaves(mobile)
    show.around.kill("msc")
    show.around.start_centre()
    show.run.said.expect("A: the centre is there")
    show.registers(KNOWN)


SCENES = (
    a_known_mobile,
    the_other_cell,
    asked_who_it_is,
    an_unknown_mobile,
    no_mobile,
    nothing_free,
    a_station_is_lost,
    the_centre_is_restarted,
    the_link_is_lost,
)
