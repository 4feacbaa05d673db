"""Checks of who may ask for a channel: emergency calls come first, channels are kept for them, requests that are rejected are told
together, and access classes are barred. What is expected was worked out by hand from TS 44.018."""
import os
import signal
import types

from access import Cause, Request
from admission import MOST_WAITING, Admission, Queue, Waiting
from check_figures import await_figure
from harness import LIMIT, child, must
from network_harness import FIRST, SECOND, UPDATE, ask_until, assigned, burst, clear, rejected, say, sent
from rsl import Channel

# A burst for an emergency call (table 9.1.8.1: 101xxxxx), and what its mobile says first: CM SERVICE REQUEST (TS 24.008, 9.2.9).
EMERGENCY, SERVICE = "a50a0d", "0524720357188105f44595ef80"
FIGURES = ("--figures", "figures", "--figures-every", "0.1")
# IMMEDIATE ASSIGN COMMAND (TS 48.058, 8.5.6) up to the requests of an IMMEDIATE ASSIGNMENT REJECT (9.1.20): the pseudo length of 19
# octets, discriminator, type, page mode 'same as before'; what fills the frame stands behind them.
REJECT, REST = "0c1601902b17" + "4d063a03", "2b2b2b"
# System information 1 to 4 of the cell 0, up to the RACH Control Parameters, and what fills the frames.
BROADCAST = {
    1: ("0c1101801e012717550619" + "00000000000000000800000000000000", "2b"),
    2: ("0c1101801e02271759061a" + "00000000000000200000000000000000" + "ff", ""),
    3: ("0c1101801e03271749061b006400f1100017c80305274540", "2b2b2b2b"),
    4: ("0c1101801e04271731061c00f11000174540", "2b" * 10),
}


def told_together(station, *references):
    """Waits for a rejection of these requests by one message, with T3122 of 10 seconds (0A)."""
    sent(station, REJECT + "".join(f"{it}0a" for it in references) + REST)


def serve(run, station, number, update, cell=100):
    """A mobile that has its channel makes itself known, and its call is cleared."""
    say(station, f"020601{number}02000b{len(update) // 2:04x}{update}")
    clear(run, station, number, run.centre.begun(update, cell))


def emergency_first(start, _room, _program):
    """An emergency call comes in front of all requests that wait for the controller: it gets the last channel. The others are told
    together that there is none."""
    run = start()
    station = run.begin()
    os.kill(child(run), signal.SIGSTOP)
    burst(station, "050a0d")
    # the controller is asked for that one's channel before the others come
    station.settle()
    for reference in ("060a0d", "070a0d", EMERGENCY):
        burst(station, reference)
    station.settle()
    ask_soon(run, "network", "^access: .*; requests that wait: 3$")
    os.kill(child(run), signal.SIGCONT)
    # the channels 0/0/1 and 0/0/2, whose training sequence is 1, on the carrier 60 (9.1.18)
    for number, reference in (("09", "050a0d"), ("0a", EMERGENCY)):
        assigning = bytes.fromhex("0c1601902b17" + f"2d063f03{number}203c{reference}0000" + "2b" * 11)
        must(station.await_message(lambda _stream, message: message == assigning, LIMIT), f"{reference} gets another channel")
    told_together(station, "060a0d", "070a0d", "060a0d", "070a0d")
    serve(run, station, "09", UPDATE)
    serve(run, station, "0a", SERVICE)
    run.end()


def ask_soon(run, question, pattern):
    """An operator asks, while the controller answers nothing, and is answered by a line that a pattern describes."""
    run.ask(question)
    run.out.expect(pattern)


def told_by_fours(start, _room, _program):
    """Up to four requests are rejected by one message; where there are fewer they stand again (9.1.20.3)."""
    run = start(acknowledges=False)
    run.centre.expect("09000305090242fe04435101fe06000430040120")
    station = run.station(FIRST)
    for count, told in ((5, ((0, 1, 2, 3), (4, 4, 4, 4))), (2, ((0, 1, 0, 1),)), (3, ((0, 1, 2, 0),)), (1, ((0, 0, 0, 0),))):
        references = [f"05{count:02x}{place:02x}" for place in range(count)]
        octets = [bytes.fromhex(f"0c130188" f"13{it}1100") for it in references]
        station.send(b"".join(len(it).to_bytes(2, "big") + b"\0" + it for it in octets))
        for places in told:
            told_together(station, *(references[place] for place in places))
    run.end(is_empty=False)


def kept_for_emergencies(start, room, _program):
    """The last free channel of each cell is kept for emergency calls; a call that is rejected for that is counted. One for which
    no channel is left is rejected like all."""
    run = start(emergency_reserve=1, words=(FIGURES[0], room / "figures", *FIGURES[2:]))
    station, other = run.begin(), run.station(SECOND)
    burst(station, "050a0d")
    first = assigned(station, "050a0d")
    burst(station, "060a0d")
    rejected(station, "060a0d")
    burst(other, "080a0d")
    there = assigned(other, "080a0d", training=2, carrier=70)
    burst(station, EMERGENCY)
    second = assigned(station, EMERGENCY)
    burst(station, "a60a0d")
    rejected(station, "a60a0d")
    for reason in ("what is free is kept for emergency calls", "no channel is free"):
        await_figure(room / "figures", 1, "gofnild_cell_rejected_requests_total", cell="0", reason=reason)
    ask_until(run, "network", "^access: barred: emergency; kept for emergency calls in each cell: 1; requests that wait: 0$")
    serve(run, station, first, UPDATE)
    serve(run, station, second, SERVICE)
    serve(run, other, there, UPDATE, 101)
    run.end()


def emergencies_are_awaited(start, _room, _program):
    """An emergency call isn't rejected since others await their mobiles; one is that finds as many of its own kind."""
    run = start(awaited=1)
    station = run.begin()
    burst(station, "050a0d")
    first = assigned(station, "050a0d")
    burst(station, EMERGENCY)
    second = assigned(station, EMERGENCY)
    burst(station, "a60a0d")
    rejected(station, "a60a0d")
    asked = [line for line in run.out.lines[: run.catch_up()] if line.startswith("in seize")]
    must(len(asked) == 2, f"the controller is asked for channels: {asked}")
    serve(run, station, first, UPDATE)
    serve(run, station, second, SERVICE)
    run.end()


def half_channels_are_kept(_start, _room, _program):
    """Half a channel is kept where it would take a full one that is; which half the controller gives is the lowest."""
    full = {timeslot: Channel(0, 0, 0x08 | timeslot) for timeslot in range(8)}
    halves = {timeslot: [Channel(0, 0, kind | timeslot) for kind in (0x10, 0x18)] for timeslot in range(8)}
    # the timeslots at full rate, and at half rate; the channels in use; how many are kept; and the rates that a call gets for
    # which half a channel will do
    cases = [
        ((1, 2), (), [], 0, [b"full", b"half"]),
        ((1, 2), (), [], 1, [b"full", b"half"]),
        ((1, 2), (), [full[1]], 1, [b"half"]),
        ((1, 2), (3,), [], 2, [b"half"]),
        ((1, 2), (2, 3), [], 2, []),
        ((1, 2), (2, 3), [full[1]], 1, []),
        ((1, 2), (2, 3), [full[1], halves[2][0]], 1, [b"full", b"half"]),
        ((1, 2), (3,), [], 3, [b"half"]),
    ]
    for timeslots, at_half, used, reserve, expected in cases:
        site = {0: {"full": [full[it] for it in timeslots], "half": [one for it in at_half for one in halves[it]]}}
        relay = types.SimpleNamespace(site=site, calls=types.SimpleNamespace(channels=dict.fromkeys(used)))
        config = types.SimpleNamespace(broadcast=types.SimpleNamespace(neci=1), awaited=4, emergency_reserve=reserve)
        admission = Admission(types.SimpleNamespace(relay=relay), None, config)
        case = f"{timeslots}, {at_half}, {used}, {reserve}"
        # where none is free, that is for the controller to say
        found = admission.rates(0, Cause.CALL_HALF)
        must(found == expected, f"{case}: {found}")
        must(admission.rates(0, Cause.EMERGENCY) == [b"full"], f"{case}: an emergency call has {found}")


def room_for_emergencies(_start, _room, _program):
    """So many requests of a cell wait, and no more: then an emergency call takes the room of the last one that is none."""
    queue = Queue()
    station = types.SimpleNamespace(cell=0)
    others = [Waiting(station, Request(bytes([5, 0, place]), 0)) for place in range(MOST_WAITING + 1)]
    urgent = [Waiting(station, Request(bytes([0xA5, 0, place]), 0)) for place in range(MOST_WAITING + 1)]
    must([queue.add(it) for it in others] == [*[None] * MOST_WAITING, others[-1]], "one more than may wait has room")
    must(queue.add(urgent[0]) is others[-2], "an emergency call takes no room")
    must([queue.add(it) for it in urgent[1:-1]] == others[-3::-1], "emergency calls take other room")
    must(queue.add(urgent[-1]) is urgent[-1], "an emergency call takes that of another")
    must([queue.next() for _ in range(MOST_WAITING + 1)] == [*urgent[:-1], None], "their order is another")


def too_late(start, room, _program):
    """A request that has waited for five seconds is rejected: its mobile has given up (T3126, clause 11.1.1)."""
    run = start(words=(FIGURES[0], room / "figures", *FIGURES[2:]))
    station = run.begin()
    os.kill(child(run), signal.SIGSTOP)
    burst(station, "050a0d")
    station.settle()
    burst(station, "060a0d")
    rejected(station, "060a0d")
    reason = "the request has waited too long"
    await_figure(room / "figures", 1, "gofnild_cell_rejected_requests_total", cell="0", reason=reason)
    os.kill(child(run), signal.SIGCONT)
    serve(run, station, assigned(station, "050a0d"), UPDATE)
    run.end()


def broadcast(station, access):
    """Waits for system information 1 to 4 with these RACH Control Parameters."""
    for head, rest in BROADCAST.values():
        sent(station, head + access + rest)


def barred_by_config(start, room, _program):
    """CONFIG bars access classes: of the two octets behind E5 (10.5.2.29) the first has classes 15 to 8 and the second 7 to 0, from
    the highest bit on, and in the place of class 10 emergency calls."""
    run = start(broadcast="barred_classes = [0, 9, 15]", words=(FIGURES[0], room / "figures", *FIGURES[2:]))
    station = run.begin()
    # 1000 0110, 0000 0001
    broadcast(station, "e58601")
    ask_until(run, "network", "^access: barred: 0, 9, emergency, 15; ")
    for name, is_barred in (("0", 1), ("1", 0), ("9", 1), ("emergency", 1), ("15", 1), ("14", 0)):
        await_figure(room / "figures", is_barred, "gofnild_barred_class", **{"class": name})
    run.end()


def barred_by_operators(start, room, _program):
    """Operators bar classes, and unbar them: all stations that are there are told at once, those that come later once they do; what
    changes nothing isn't told."""
    run = start(words=(FIGURES[0], room / "figures", *FIGURES[2:]))
    station = run.begin()
    broadcast(station, "e50400")
    steps = [
        # 0000 0100, 0000 1000
        ("bar class 3", "e50408", "barred: 3, emergency"),
        # 0001 0100, 0000 1000: class 12
        ("bar class 12", "e51408", "barred: 3, emergency, 12"),
        ("unbar class emergency", "e51008", "barred: 3, 12"),
        ("unbar class 3", "e51000", "barred: 12"),
        ("unbar class 12", "e50000", "barred: none"),
        ("bar class emergency", "e50400", "barred: emergency"),
        # 0000 0101, 1000 0000
        ("bar class 8", "e50500", "barred: 8, emergency"),
        ("bar class 7", "e50580", "barred: 7, 8, emergency"),
    ]
    for line, octets, answer in steps:
        run.ask(line)
        broadcast(station, octets)
        run.out.expect(f"^{answer}$")
    other = run.station(SECOND)
    sent(other, "0c1101801e012717550619" + "00000000000000200000000000000000" + "e50580" + "2b")
    await_figure(room / "figures", 1, "gofnild_barred_class", **{"class": "7"})
    before = len(station.came)
    run.ask("bar class 7")
    run.out.expect("^barred: 7, 8, emergency$")
    for line in ("bar class 10", "bar class 16", "bar class", "bar 3", "unbar class x", "bar class 1 2"):
        run.ask(line)
        run.out.expect(f"^refused: {line}: bar class N or unbar class N, N is 0 to 9, 11 to 15 or emergency$")
    station.settle()
    told = [it for _, it in station.came[before:] if it[:2] == b"\x0c\x11"]
    must(not told, "what changes nothing is told")
    ask_until(run, "help", "^unbar class N: ")
    run.end()


CHECKS = [
    emergency_first,
    told_by_fours,
    kept_for_emergencies,
    emergencies_are_awaited,
    half_channels_are_kept,
    room_for_emergencies,
    too_late,
    barred_by_config,
    barred_by_operators,
]
