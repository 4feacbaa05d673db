"""Figures of links, of calls, and of what came of the lines, in a file that is replaced whole every so many seconds."""
import collections
import errno
import os
import stat
import time

from cell_figures import of_cells, of_cells_of_network
from exposition import COUNTER, GAUGE, Family, text_of
from stations import STATES
from tell import OUTPUT, Level, say

# Between which attempts of calls figures tell; so that each is there also where it is 0.
ATTEMPTS = ("none", "internal", "incoming", "outgoing")


class FiguresFile:
    """The file. Who reads it finds one text or the next, never a part."""

    def __init__(self, path, seconds, times, families, is_first=True):
        """`families` gives the figures of now, which are written every so many seconds. Where another bridge has written them that
        isn't the first time."""
        self.path, self.seconds, self.times, self.families = path, seconds, times, families
        self.is_failing = False
        if is_first and os.path.lexists(path) and not stat.S_ISREG(os.lstat(path).st_mode):
            raise OSError(f"{path!r}: is there, and is no file")
        self.write(is_first)

    def wait(self):
        """Has it written again later."""
        self.times.set("figures", self.seconds, self.write)

    def write(self, is_first=False):
        """Writes it, and again later. Where it can't be written the old one stays; that is told once. Where it never was, and that
        isn't for want of room, it is wrong."""
        try:
            self.put()
        except OSError as error:
            if is_first and error.errno not in (errno.ENOSPC, errno.EDQUOT):
                raise
            if not self.is_failing:
                say(f"{self.path}: the figures can't be written now: {error}", Level.ERROR)
            self.is_failing = True
        else:
            if self.is_failing:
                say(f"{self.path}: the figures are written again")
            self.is_failing = False
        self.wait()

    def put(self):
        """Replaces the file."""
        beside = f"{self.path}.new"
        if os.path.lexists(beside):
            os.unlink(beside)
        # none that another has put there is written to; others may read it
        number = os.open(beside, os.O_WRONLY | os.O_CREAT | os.O_EXCL | os.O_CLOEXEC, 0o644)
        try:
            with open(number, "wb") as file:
                file.write(text_of([*self.families(), written()]).encode(errors="replace"))
            os.replace(beside, self.path)
        except OSError:
            os.unlink(beside)
            raise

    def finish(self):
        """The bridge ends, and the figures with it: what it counted once is no figure of now."""
        self.times.forget("figures")
        if os.path.lexists(self.path):
            os.unlink(self.path)


def written():
    """When the figures were written: by it one sees those of a bridge that was killed, or hangs."""
    name = "gofnild_written_timestamp_seconds"
    return Family(name, GAUGE, "When these figures were written, since 1970.").add(f"{time.time():.3f}")


def family_of(name, kind, text, label, counts):
    """A family with a sample for each name of a label."""
    family = Family(name, kind, text)
    for it, count in counts.items():
        family.add(count, **{label: it})
    return family


def of_stations(relay):
    """The figures of the bridge of stations."""
    left_out = Family("gofnild_output_lines_left_out", COUNTER, "Lines of standard output that nobody read in time.")
    up = Family("gofnild_controller_up", GAUGE, "Whether the controller takes lines.").add(int(not relay.is_away))
    again = Family("gofnild_controller_restarts", COUNTER, "How often the controller was started again.").add(relay.again.count)
    text = "Faults of the bridge itself, by whose octets, answers or lines were handled then."
    met = family_of("gofnild_faults", COUNTER, text, "place", relay.faults.counts)
    own = [up, again, *of_journal(relay), left_out.add(OUTPUT.left_out), met]
    return [*own, *of_links(relay), *of_book(relay), *of_lines(relay), *of_cells(relay)]


def of_journal(relay):
    """Whether the controller's journal is written; there is no figure where the controller was begun without one."""
    up = Family("gofnild_journal_up", GAUGE, "Whether the controller notes what comes of lines in its journal.")
    return [up.add(int(relay.again.notes)) if relay.again.journal else up]


def of_links(relay):
    """What is known of each station, and of its link."""
    up = Family("gofnild_station_up", GAUGE, "Whether the station's link is there.")
    channels = Family("gofnild_station_channels", GAUGE, "Channels that the station doesn't have at rest, by their state.")
    came = Family("gofnild_station_received_messages", COUNTER, "Messages of the station that were handed on.")
    sent = Family("gofnild_station_sent_messages", COUNTER, "Messages that were sent to the station.")
    unsent = Family("gofnild_station_unsent_messages", COUNTER, "Messages for the station while it wasn't there.")
    passed = Family("gofnild_station_passed_over_messages", COUNTER, "Messages of the station that weren't handed on, by name.")
    lost = Family("gofnild_station_lost_links", COUNTER, "How often the station's link was lost.")
    for station in relay.stations.values():
        who = {"unit": station.unit, "cell": station.cell, "trx": station.trx}
        up.add(int(station.link is not None), **who)
        states = collections.Counter(use.state for use in station.channels.values())
        for state in STATES:
            channels.add(states[state], **who, state=state)
        came.add(station.came, **who)
        sent.add(station.sent, **who)
        unsent.add(station.unsent, **who)
        lost.add(station.lost, **who)
        for message, count in sorted(station.passed.items()):
            passed.add(count, **who, message=message)
    return [up, channels, came, sent, unsent, passed, lost]


def of_book(relay):
    """The calls of the radio book, as its events tell them."""
    attempts = collections.Counter(call.kind or "none" for call in relay.calls.calls.values())
    lost = Family("gofnild_calls_on_lost_channels", GAUGE, "Calls whose channel is lost.")
    return [
        family_of("gofnild_calls", GAUGE, "Calls, by their attempt at handover.", "attempt", {it: attempts[it] for it in ATTEMPTS}),
        lost.add(len(relay.lost.lost)),
    ]


def of_lines(relay):
    """What came of the lines that the controller was given."""
    counts = relay.counts
    names = ("in", "line", "fault", "none")
    texts = (
        ("read_lines", "Lines that the controller could read."),
        ("unread_lines", "Lines that the controller couldn't read."),
        ("faulty_lines", "Lines whose octets are no message."),
        ("lines_without_channel", "Lines for which no channel was free."),
    )
    families = [Family(f"gofnild_{name}", COUNTER, text).add(counts[it]) for it, (name, text) in zip(names, texts)]
    events = Family("gofnild_events", COUNTER, "Events that were asked of the book, by name and reply.")
    for (event, reply), count in sorted(relay.events.items()):
        events.add(count, event=event, reply=reply)
    return [*families, events]


def of_network(relay):
    """What a network has beside: the centre, calls, and speech."""
    side = relay.a_side
    up = Family("gofnild_centre_link_up", GAUGE, "Whether the link to the centre is there.").add(int(side.is_up))
    there = Family("gofnild_centre_up", GAUGE, "Whether the centre and this side have both begun anew.").add(int(side.is_there))
    texts = {
        "connections": ("gofnild_calls_begun_on_air", "Calls that began on the air."),
        "handovers": ("gofnild_calls_come_by_handover", "Calls that came from another controller."),
        "resets": ("gofnild_centre_resets", "How often the centre began anew."),
        "doubts": ("gofnild_centre_doubts", "How often the centre was taken for gone, though its link was there."),
        "cleared": ("gofnild_calls_cleared_in_doubt", "Calls that ended since the centre was taken for gone."),
    }
    counted = [Family(*texts[name][:1], COUNTER, texts[name][1]).add(count) for name, count in side.counts.items()]
    passed = family_of(
        "gofnild_centre_passed_over", COUNTER, "What the centre sent that nobody takes.", "what", dict(sorted(relay.passed.items()))
    )
    return [up, there, *counted, passed, *of_paging(relay), *of_speech(relay), *of_cells_of_network(relay)]


def of_paging(relay):
    """How often mobiles were called."""
    counts, ends = relay.paging.counts, ("answered", "given up")
    paged = Family("gofnild_pagings", COUNTER, "Mobiles that were called.").add(counts["sought"])
    text = "Mobiles that were called, by what came of it."
    return [paged, family_of("gofnild_paging_ends", COUNTER, text, "end", {it: counts[it] for it in ends})]


def of_speech(relay):
    """What became of speech, and of what the gateway was asked."""
    gateway = relay.media.gateway
    return [
        Family("gofnild_speech_endpoints", GAUGE, "Endpoints at the gateway.").add(len(relay.media.all)),
        Family("gofnild_gateway_silent", GAUGE, "Whether the gateway doesn't answer.").add(int(gateway.silent_since is not None)),
        Family("gofnild_gateway_open_transactions", GAUGE, "Transactions without an answer yet.").add(len(gateway.asked)),
        family_of("gofnild_gateway_transactions", COUNTER, "What became of transactions.", "what", gateway.counts),
    ]
