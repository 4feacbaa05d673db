"""Scenes of bridge/telephones: telephones that call one another, speak, and move."""
import statistics

from core_network import CELLS, CENTRE_TERMINAL, OSMO_CELLS, OSMO_TERMINAL, ask
from harness import must
from show import ANOTHER, KNOWN, MOST_MOVING, NUMBERS
from telephone import DISCONNECT, LET_GO, PAGED, PAGED_EITHER, TO_CALL_HALF, Moving, call, hang_up

# How many frames more than at osmo-bsc half of the handovers may cost.
FEW_MORE = 10


def begin(show, cells=(0, 1)):
    """Two telephones register, one calls the other, and they speak; the telephones."""
    one, two = show.telephone(KNOWN, cells[0]), show.telephone(ANOTHER, cells[1])
    call(one, two)
    show.radio.wait(0.5)
    return one, two


def end(show, one, two):
    """The call ends, and the telephones are switched off."""
    hang_up(one, two)
    show.off(one, two)


def sends_short_message(imsi):
    """The centre has a short message for a telephone."""
    ask(CENTRE_TERMINAL, f"subscriber imsi {imsi} sms sender msisdn 1003 send hello")


def a_short_message_alone(show):
    """A telephone that is at rest is paged, and gets a short message."""
    one = show.telephone(KNOWN)
    sends_short_message(KNOWN)
    one.answer_paging(PAGED)
    one.gets_short_message()
    one.left()
    show.off(one)


def a_call(show):
    """Two telephones speak, and the bridge says how many frames each way."""
    one, two = begin(show)
    show.hear(one, two)
    show.frames_are_counted(one)
    show.frames_are_counted(two)
    end(show, one, two)


def a_short_message_in_a_call(show):
    """A telephone gets a short message while it speaks, before and after a handover from which it comes back."""
    one, two = begin(show)
    one.moving = Moving.COMES_BACK

    def gets():
        sends_short_message(KNOWN)
        one.gets_short_message()

    show.hear(one, two, during=gets)
    goes(show, one, 1)
    show.expect(one, "^event undo .* -> record")
    show.hear(one, two, during=gets)
    end(show, one, two)


def goes(show, one, cell):
    """A telephone is handed over, and arrives."""
    moved = one.moved
    show.ask(one, f"handover CALL {cell}")
    must(one.until(lambda: one.moved > moved and one.link.is_open and one.link.is_said(), 20), f"{one} isn't handed over")


def within(show):
    """A call moves to the controller's other cell, and back."""
    one, two = begin(show)

    def moves(cell):
        goes(show, one, cell)
        show.expect(one, "^event complete .* -> done$")

    show.each_way(one, two, lambda: moves(1), lambda: moves(0))
    end(show, one, two)


def between(show):
    """A call moves to another controller, by the centre, and back."""
    one, two = begin(show)

    def moves(run):
        goes(show, one, 64)
        show.expect_of(run, "^event complete .* -> done$")

    show.each_way(one, two, lambda: moves(show.second), lambda: moves(show.run))
    must(show.bridge_of(one)[0] is show.run, "it isn't back")
    end(show, one, two)


def comes_back(show):
    """A telephone doesn't find the channel that it is sent to, and comes back: in the other cell, and at the other controller;
    each time speech goes on."""
    one, two = begin(show)
    one.moving = Moving.COMES_BACK

    def moves(cell):
        goes(show, one, cell)
        show.expect(one, "^event undo .* -> record")

    show.each_way(one, two, lambda: moves(1), lambda: moves(64))
    show.expect_of(show.second, "^event undo .* -> record")
    end(show, one, two)


def vanishes(show):
    """A telephone that is sent to another cell, or to another controller, isn't heard of any more: T3103 and T8 end its
    call."""
    for cell in (1, 64):
        one, two = begin(show)
        one.moving = Moving.VANISHES
        number = show.ask(one, f"handover CALL {cell}")
        show.expect(one, f"^event undo {number} t[38].* -> record", f"^event clear {number} -> done$")
        ends_alone(show, two)
        show.off(one, two)


def ends_alone(show, it):
    """A telephone hears that the call has ended: DISCONNECT or, where the other was lost, RELEASE."""
    kinds = [bytes([0x83 ^ 0x80 * it.is_called, kind]) for kind in (DISCONNECT, LET_GO)]
    must(it.until(lambda: any(message[:2] in kinds for message in it.came), 40), f"{it} doesn't hear of the end: {it.came}")
    is_disconnected = any(message[:2] == kinds[0] for message in it.came)
    it.control(LET_GO if is_disconnected else 0x2A)
    it.left(40)


def undone(show):
    """An operator takes handovers back while both speak: before the station has answered, once the telephone was commanded,
    and once it is said to be there; before another controller has answered, and once that has given a channel; and that
    one's operator takes it back. Speech goes on each time."""
    one, two = begin(show)
    one.moving = Moving.STAYS
    for stage in (at_once, commanded, detected, required, ordered, by_the_other):
        show.from_now()
        show.speak(one, two, lambda: stage(show, one))
        show.expect(one, "^event undo .* -> record")
        show.hear(one, two)
    end(show, one, two)


def at_once(show, one):
    """Both lines are given at once: the station hasn't answered yet."""
    show.ask(one, "handover CALL 1\nundo CALL")


def commanded(show, one):
    """The telephone was commanded, and hasn't gone."""
    number = show.ask(one, "handover CALL 1")
    show.expect(one, f"^event command {number} -> done$")
    show.radio.wait(0.2)
    show.ask(one, "undo CALL")


def detected(show, one):
    """The target's station is said to hear it, so that speech goes there; then it comes back here."""
    number = show.ask(one, "handover CALL 1")
    show.expect(one, f"^event command {number} -> done$")
    target = show.run.target_of(number)
    show.run.ask(f"abis 1 0 082701{8 | target:02x}")
    show.expect(one, f"^event detect 1/0/{target} -> owned {number}$")
    show.radio.wait(0.2)
    show.ask(one, "undo CALL")


def required(show, one):
    """Another controller was asked for, and the centre hasn't answered: its HANDOVER COMMAND comes too late."""
    show.ask(one, "handover CALL 64\nundo CALL")
    show.run.said.expect("HANDOVER COMMAND for an attempt that is over|HANDOVER REQUIRED REJECT for", 20)


def ordered(show, one):
    """The other controller has given a channel, and the telephone hasn't gone. There it isn't awaited any more."""
    number, moved = show.ask(one, "handover CALL 64"), one.moved
    show.expect(one, f"^event order {number} -> done$")
    must(one.until(lambda: one.moved > moved, 10), f"{one} isn't commanded")
    show.ask(one, "undo CALL")
    show.expect_of(show.second, "^event undo .* asked -> record")


def by_the_other(show, one):
    """The other controller's operator takes it back, and the telephone comes back."""
    number, moved = show.ask(one, "handover CALL 64"), one.moved
    show.expect(one, f"^event order {number} -> done$")
    must(one.until(lambda: one.moved > moved, 10), f"{one} isn't commanded")
    show.second.ask(f"undo {show.second.number_of('0/0/.')}")
    show.expect_of(show.second, "^event undo .* asked -> record")
    one.come_back()


def nobody_answers(show):
    """A telephone is called that is switched off: it is paged until that is given up, and the caller hears that the call
    ends."""
    one, two = show.telephone(KNOWN), show.telephone(ANOTHER, 1)
    show.off(two)
    given_up = show.run.known("paged")
    one.dial(NUMBERS[ANOTHER])
    ends_alone(show, one)
    must(one.until(lambda: show.run.known("paged") != given_up, 20), "the paging isn't given up")
    show.off(one)


def a_station_is_lost_in_a_call(show):
    """A station is killed with a call on it: the call ends on the other side too. It comes back, and has a call again."""
    one, two = begin(show)
    show.hear(one, two)
    show.around.kill("bts0")
    show.run.said.expect("station 6969/0/0 .*its link is lost, with 1 channels")
    one.vanish()
    ends_alone(show, two)
    show.around.start_station(0)
    show.run.said.expect("station 6969/0/0 .*: there, from")
    show.off(one, two)
    one, two = begin(show)
    show.hear(one, two)
    end(show, one, two)


def the_gateway_is_lost(show):
    """The media gateway is killed with a call on it: the call is silent, and ends as it should. While there is no gateway a
    call doesn't come about; once it is back, one does."""
    one, two = begin(show)
    show.around.kill("mgw")
    said, lost = show.count(one, two)
    must(min(lost) > min(said) - 10, f"speech goes on without a gateway: {lost} of {said} are lost")
    hang_up(one, two)
    one.dial(NUMBERS[ANOTHER])
    ends_alone(show, one)
    show.around.start_gateway()
    show.off(one, two)
    one, two = begin(show)
    show.hear(one, two)
    end(show, one, two)


def from_osmo_bsc(show):
    """A call that begins at osmo-bsc is handed over to this controller by the centre, and moves on."""
    one, two = begin(show, (3, 1))
    show.hear(one, two)

    show.speak(one, two, lambda: comes_to(one, 0))
    must(show.bridge_of(one)[0] is show.run, "it isn't here")
    show.hear(one, two)
    show.speak(one, two, lambda: goes(show, one, 1))
    show.hear(one, two)
    end(show, one, two)


def beside_osmo_bsc(show):
    """How many frames a handover within a controller costs: here, and at osmo-bsc. The other telephone is at a third one. Half of
    the handovers here cost a few, and few more than there."""
    ways = (
        ("this controller", (0, 1), lambda one, cell: goes(show, one, cell)),
        ("osmo-bsc", OSMO_CELLS, comes_to),
    )
    usual = []
    for name, cells, moves in ways:
        one, two = begin(show, (cells[0], 2))
        costs = [show.speak(one, two, lambda: moves(one, cells[(place + 1) % 2]), 1.0)[1] for place in range(10)]
        for way, lost in zip(("of the one that moves", "of the other"), zip(*costs)):
            print(f"bridge/telephones:   {name}: frames {way} that a handover costs: {sorted(lost)}", flush=True)
        usual.append([statistics.median(lost) for lost in zip(*costs)])
        end(show, one, two)
    for here, there in zip(*usual):
        must(here <= min(MOST_MOVING, there + FEW_MORE), f"a handover costs {here} frames, and {there} at osmo-bsc")


def comes_to(one, cell):
    """osmo-bsc hands a telephone over to one of its cells, or to another controller's, and it arrives."""
    moved, it = one.moved, CELLS[cell]
    ask(OSMO_TERMINAL, f"handover any to arfcn {it.arfcn} bsic {it.colours}")
    must(one.until(lambda: one.moved > moved and one.link.is_open and one.link.is_said(), 20), f"{one} isn't handed over")


def on_halves(show):
    """No whole channel is free: two telephones speak on halves."""
    one, two = show.telephone(KNOWN, 2), show.telephone(ANOTHER, 2)
    show.second.is_empty()
    places = ["1", "2", "3", "4", "5", "6/1", "7/1"]
    for number, place in enumerate(places):
        show.second.ask(f"open {500 + number} 0 0 {place}")
        show.expect_of(show.second, f"^event look {500 + number} -> record 0/0/{place} on$")
    call(one, two, (TO_CALL_HALF, PAGED_EITHER))
    must((one.half, two.half) == (0, 0), f"they are on {one.half} and {two.half}")
    show.radio.wait(0.5)
    show.hear(one, two)
    end(show, one, two)
    for number in range(len(places)):
        show.second.ask(f"clear {500 + number}")


SCENES = (
    a_short_message_alone,
    a_call,
    a_short_message_in_a_call,
    within,
    between,
    comes_back,
    vanishes,
    undone,
    nobody_answers,
    a_station_is_lost_in_a_call,
    the_gateway_is_lost,
    from_osmo_bsc,
    on_halves,
    beside_osmo_bsc,
)
