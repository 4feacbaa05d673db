"""The checks of paging: the octets are those of osmo-msc and osmo-bsc, or what the layouts make of them for other mobiles."""
import time

from centre import RESET, UNIT_DATA
from harness import must
from network_harness import FIRST, SECOND, UPDATE, begin, clear, sent

# PAGING of osmo-msc for the IMSI 001010000000002 and its TMSI in the location area 23, the PAGING COMMAND that osmo-bsc made
# of it (TS 48.058, 8.5.5), and the mobile's PAGING RESPONSE (TS 44.018, 9.1.25).
PAGING = "0016520808091010000000002009043b131e271a03050017"
COMMAND = "0c1501900e020c05f43b131e272800"
RESPONSE = "0627070357188105f43b131e27"
# The elements of that: IMSI, TMSI, cells; and what is sent for the IMSI alone.
IMSI, TMSI, AREA = "08080910100000000020", "09043b131e27", "1a03050017"
BY_IMSI = "0c1501900e020c0809101000000000202800"


def paging(run, *elements):
    """The centre pages."""
    run.centre.send(page(*elements))


def page(*elements):
    """PAGING with these elements, in a message of SCCP."""
    body = "52" + "".join(elements)
    message = f"00{len(body) // 2:02x}{body}"
    return f"{UNIT_DATA}{len(message) // 2:02x}{message}"


def identity(imsi):
    """An IMSI of 15 digits as an identity (TS 24.008, 10.5.1.4)."""
    return f"{imsi[0]}9" + "".join(imsi[at + 1] + imsi[at] for at in range(1, 15, 2))


def count(station, text=COMMAND):
    """How many times a station was sent a message."""
    return station.count(lambda _stream, message: message.hex() == text)


def answers(run, station, response=RESPONSE, reference="870e0d"):
    """A mobile answers; its channel and its connection."""
    return begin(run, station, reference=reference, update=response)


# Each gets a function that starts a network, with options of CONFIG, a folder, and the program.


def paged(start, _room, _program):
    """A mobile is paged in each cell of its location area, again and again, until it answers; then no more."""
    run = start(t3113=0.5, pagings=100)
    station, other = run.begin(), run.station(SECOND)
    run.centre.send(f"{UNIT_DATA}18{PAGING}")
    for it in (station, other):
        for _ in range(3):
            sent(it, COMMAND)
    number, connection = answers(run, station)
    run.settle()
    counts = count(station), count(other)
    time.sleep(1.5)
    must((count(station), count(other)) == counts, "it is paged once it has answered")
    clear(run, station, number, connection)
    run.end()
    run.said.expect("paged: 1, of which 1 answered, 0 didn't")


def answered_by_another(start, _room, _program):
    """Another identity's answer, one that is cut, and a first message that is no answer don't end a paging; that by the IMSI
    does, where a TMSI was paged."""
    run = start(t3113=0.3, pagings=100, t3101=60)
    station = run.begin()
    run.centre.send(f"{UNIT_DATA}18{PAGING}")
    sent(station, COMMAND)
    # another TMSI; an identity of another kind with the same octets; another IMSI; cut
    others = ("05f43b131e28", "05f23b131e27", "080910100000000030", "05f43b13")
    others = [*("06270703571881" + it for it in others), UPDATE]
    for place, message in enumerate(others):
        number, connection = answers(run, station, message, f"870e0{place}")
        sent(station, COMMAND)
        clear(run, station, number, connection)
    number, connection = answers(run, station, "06270703571881" + IMSI[2:], "870f0d")
    run.settle()
    at = count(station)
    time.sleep(1)
    must(count(station) == at, "it is paged once it has answered")
    clear(run, station, number, connection)
    run.end()


def one_tmsi_of_two(start, _room, _program):
    """A TMSI that one mobile had is another's now: where the first answers by its IMSI, the second's answer by the TMSI still ends
    its paging."""
    run = start(t3113=0.3, pagings=100)
    station = run.begin()
    run.centre.send(f"{UNIT_DATA}18{PAGING}")
    paging(run, "08080910100000000030", TMSI, AREA)
    number, connection = answers(run, station, "06270703571881" + IMSI[2:])
    clear(run, station, number, connection)
    number, connection = answers(run, station, reference="870f0d")
    clear(run, station, number, connection)
    run.end()
    run.said.expect("paged: 2, of which 2 answered, 0 didn't")


def nobody_answers(start, _room, _program):
    """A paging that nobody answers is given up after as many times as CONFIG has; the same mobile is paged anew then. A second
    PAGING for it begins anew, and doesn't double it."""
    run = start(t3113=0.4, pagings=2)
    station = run.begin()
    for place in range(2):
        paging(run, IMSI, TMSI, AREA)
        for _ in range(2):
            sent(station, COMMAND)
        time.sleep(1.5)
        must(count(station) == 2 * place + 2, f"it is paged {count(station)} times")
    run.centre.send(page(IMSI, TMSI, AREA), page(IMSI, AREA))
    for text in (COMMAND, BY_IMSI, BY_IMSI):
        sent(station, text)
    time.sleep(1)
    must((count(station), count(station, BY_IMSI)) == (5, 2), "a paging that began anew goes on")
    run.end()
    run.said.expect("paged: 4, of which 0 answered, 3 didn't")


def paging_groups(start, _room, _program):
    """The group follows from the IMSI's last three digits and from what the cell broadcasts (TS 45.002, 6.5.2)."""
    # 321 and 999 modulo 8 * 5, 9 * 2, 2 * 9, and of a combined channel 2 * 9 and 1 * 2
    cases = [
        ("", 0x01, 0x27),
        ("bs_ag_blks_res = 0\nbs_pa_mfrms = 2", 0x0F, 0x09),
        ("bs_ag_blks_res = 7\nbs_pa_mfrms = 9", 0x0F, 0x09),
        ("ccch_conf = 1\nbs_ag_blks_res = 0\nbs_pa_mfrms = 7", 0x06, 0x0C),
        ("ccch_conf = 1\nbs_ag_blks_res = 2\nbs_pa_mfrms = 2", 0x01, 0x01),
    ]
    for broadcast, *groups in cases:
        run = start(broadcast=broadcast)
        station = run.begin()
        for imsi, group in zip(("001010000000321", "001010000000999"), groups):
            paging(run, f"0808{identity(imsi)}", AREA)
            sent(station, f"0c1501900e{group:02x}0c08{identity(imsi)}2800")
        run.end()


def cells_of_a_paging(start, _room, _program):
    """It is paged in the cells that the list names, in each form of that; in all where the form isn't known. The channel that
    it is to ask for is passed on."""
    run = start()
    station, other = run.begin(), run.station(SECOND)
    # whole, by area and cell, by cell, by area with network, by area, all, unknown
    lists = [
        ("1a080000f11000170065", 0, 1),
        ("1a050100170064", 1, 0),
        ("1a090100170064" + "00170065", 1, 1),
        ("1a03020065", 0, 1),
        ("1a060400f1100017", 1, 1),
        ("1a060400f1200017", 0, 0),
        ("1a03050018", 0, 0),
        ("1a0505" + "00180017", 1, 1),
        ("1a0106", 1, 1),
        ("1a010b", 1, 1),
    ]
    for place, (cells, *_) in enumerate(lists):
        paging(run, f"0808{identity(f'0010100000001{place:02d}')}", cells, "2402")
    paging(run, IMSI, "1a0106")
    for it, at in ((station, 1), (other, 2)):
        sent(it, BY_IMSI)
        for place, counts in enumerate(lists):
            command = f"0c1501900e{(100 + place) % 40:02x}0c08{identity(f'0010100000001{place:02d}')}2802"
            must(count(it, command) == counts[at], f"{counts[0]}: station {at} is sent it {count(it, command)} times")
    run.end()
    run.said.expect("A: PAGING for no cell of this controller: 2$")


def torn_paging(start, _room, _program):
    """A PAGING without an IMSI or cells, with another identity, or one that is cut pages nobody."""
    run = start()
    station = run.begin()
    for elements in (
        (IMSI,),
        (TMSI, AREA),
        ("0805f43b131e27", AREA),
        ("080809101000000000a0", AREA),
        ("0801f1", AREA),
        ("0800", AREA),
        (IMSI, "09033b131e", AREA),
        (IMSI, "1a020500"),
        (IMSI, "1a00"),
        (IMSI, "1a03050017"[:8]),
        (IMSI, AREA, "24"),
        ("08",),
        (),
    ):
        paging(run, *elements)
    paging(run, IMSI, TMSI, AREA)
    sent(station, COMMAND)
    must(station.count(lambda _stream, message: message[:2] == b"\x0c\x15") == 1, "a torn one is sent")
    run.end()
    run.said.expect("A: PAGING that is torn: 13$")


def paging_ends_with_the_centre(start, _room, _program):
    """The centre's RESET ends all pagings; before it is acknowledged nobody is paged."""
    run = start(t3113=0.3, pagings=100, t13=0.5)
    station = run.begin()
    paging(run, IMSI, TMSI, AREA)
    sent(station, COMMAND)
    run.centre.send(RESET, page(IMSI, TMSI, AREA))
    run.said.expect("A: the centre begins anew")
    run.centre.expect("09000305090242fe04435101fe03000131")
    run.settle()
    at = count(station)
    time.sleep(1)
    must(count(station) == at, "it is paged yet")
    paging(run, IMSI, TMSI, AREA)
    sent(station, COMMAND)
    run.end()


def paged_where_a_station_comes_back(start, _room, _program):
    """A station that isn't there isn't sent anything; one that comes back is, from the next time on."""
    run = start(t3113=0.5, pagings=100)
    station = run.begin()
    station.leave()
    run.said.expect("its link is lost")
    paging(run, IMSI, TMSI, AREA)
    station = run.station(FIRST)
    sent(station, COMMAND)
    number, connection = answers(run, station)
    clear(run, station, number, connection)
    run.end()


CHECKS = [
    paged,
    answered_by_another,
    one_tmsi_of_two,
    nobody_answers,
    paging_groups,
    cells_of_a_paging,
    torn_paging,
    paging_ends_with_the_centre,
    paged_where_a_station_comes_back,
]
