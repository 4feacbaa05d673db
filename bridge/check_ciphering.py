"""The checks of ciphering: a call in clear is taken where the centre permits it, any other is refused."""
import re
import time

from harness import must
from network_harness import REQUEST, begin, clear, down, said, sent, up

# CIPHER MODE COMMAND of osmo-msc that permits A5/1 alone, and asks for the IMEISV; its key.
KEY = "7fe40921e52df800"
COMMAND = f"000e530a0902{KEY}2301"
# What there is no call in clear for, by its octets, and the cause of CIPHER MODE REJECT (TS 48.008, 3.2.2.5).
REFUSED = (
    (COMMAND, "40"),
    (f"000e530a09fe{KEY}2300", "40"),
    ("0004530a0102", "40"),
    ("0003530a00", "40"),
    ("0003532300", "52"),
    ("000153", "52"),
    ("0004530a0901", "51"),
    ("0005530a010123", "51"),
)


# Each gets a function that starts a network, with options of CONFIG, a folder, and the program.


def in_clear(start, _room, _program):
    """The centre permits a call in clear: the mobile is told so (TS 44.018, 9.1.9), with its IMEISV where that is asked for,
    and the centre is told what it answers."""
    run = start()
    station = run.begin()
    number, connection = begin(run, station)
    # an answer that nobody asked for
    said(station, number, "0632")
    up(run, station, number, connection, "055b")
    asked = (f"000e530a0903{KEY}2300", "063500"), ("0004530a0101", "063500"), (f"000e530a0901{KEY}2301", "063510")
    for command, told in asked:
        run.centre.data(connection, command)
        sent(station, f"030101{number}02000b0003{told}")
        if told == "063510":
            said(station, number, "0632" + "17095321436587092143f5")
            # as libosmocore writes it: gsm0808_create_cipher_complete
            run.centre.expect(f"06{connection}0001140012" + "55200d063217095321436587092143f52c01")
        else:
            said(station, number, "0632")
            run.centre.expect(f"06{connection}0001050003" + "552c01")
    said(station, number, "0632")
    up(run, station, number, connection, "055b")
    clear(run, station, number, connection)
    run.end()
    must(sum("0003552c01" in it for it in run.centre.came) == 2, "it is told again")
    must(any("CIPHERING MODE COMPLETE that isn't awaited 2" in line for line in run.said.lines), "answers aren't counted")


def long_answer(start, _room, _program):
    """A mobile's answer is as long as the air carries: the centre gets it where its message has room for that; else it hears
    without it that the mobile has answered."""
    run = start()
    station = run.begin()
    number, connection = begin(run, station)
    for length in (248, 249, 250, 251):
        run.centre.data(connection, "0004530a0101")
        sent(station, f"030101{number}02000b0003063500")
        answer = "0632" + "2b" * (length - 2)
        said(station, number, answer)
        contents = f"20f8{answer}" if length == 248 else ""
        size = 3 + len(contents) // 2
        run.centre.expect(f"06{connection}0001{size + 2:02x}00{size:02x}55{contents}2c01")
    clear(run, station, number, connection)
    run.end()


def refused(start, _room, _program):
    """The centre doesn't permit a call in clear, or what it permits can't be read: CIPHER MODE REJECT, and the mobile isn't
    told."""
    run = start()
    station = run.begin()
    number, connection = begin(run, station)
    for command, cause in REFUSED:
        run.centre.data(connection, command)
        run.centre.expect(f"06{connection}0001060004590401{cause}")
    down(run, station, number, connection, "0521")
    must(not any("0003063" in it[1].hex() for it in station.came), "the mobile is told")
    clear(run, station, number, connection)
    run.end()


def while_it_moves(start, _room, _program):
    """The centre asks while the mobile is sent to another channel: the mobile is told where it is then."""
    run = start()
    station = run.begin()
    number, connection = begin(run, station)
    run.ask("handover 1 64")
    run.centre.expect(f"06{connection}00010e000c1104010c1b1a0501001800c8")
    run.centre.data(connection, "0016131709062b0b50096050000505080000f00000000000")
    sent(station, f"030101{number}02000b0009062b0b500960500005")
    run.centre.data(connection, "0004530a0101")
    time.sleep(0.3)
    must(not any("063500" in it[1].hex() for it in station.came), "the mobile is told where it isn't any more")
    said(station, number, "06286f")
    run.centre.expect(f"06{connection}00010800061604010a156f")
    sent(station, f"030101{number}02000b0003063500")
    said(station, number, "0632")
    run.centre.expect(f"06{connection}0001050003" + "552c01")
    clear(run, station, number, connection)
    run.end()


def comes_ciphered(start, _room, _program):
    """A call comes from another controller that is ciphered there: it is refused, and the controller isn't asked. So is one
    that may not be in clear, by the controller."""
    run = start()
    station = run.begin()
    # as osmo-msc sent it: A5/1 is in use, and alone permitted; then clear is permitted too; then nothing is said of what is
    # in use
    ciphered = REQUEST.replace("0a0101", f"0a0902{KEY}").replace("04010c", "04010c2c02").replace("003d10", "004710")
    permitted = ciphered.replace("0a0902", "0a0903")
    unsaid = REQUEST.replace("0a0101", f"0a0902{KEY}").replace("003d10", "004510")
    for request in (ciphered, permitted, unsaid):
        asked = [line for line in run.out.lines if re.match(r"in a \d+ 00..10", line)]
        must(not asked, f"the controller is asked {asked}")
        run.centre.ask("aaaaaa", request)
        connection = run.centre.expect("02aaaaaa(......)0200")[1]
        run.centre.expect("06aaaaaa0001060004160401" + "40")
        run.centre.release(connection, "aaaaaa")
        run.centre.expect(f"05aaaaaa{connection}")
    run.expect(r"^in a \d+ 004510")
    # in clear, by what is in use too
    run.centre.ask("bbbbbb", REQUEST.replace("04010c", "04010c2c01").replace("003d10", "003f10"))
    connection = run.centre.expect("02bbbbbb(......)0200")[1]
    run.centre.expect("06bbbbbb00011f001d121709.*")
    run.centre.release(connection, "bbbbbb")
    run.expect("^event released 0/0/1 -> done$")
    run.gateway.emptied()
    run.end()


CHECKS = [in_clear, long_answer, refused, while_it_moves, comes_ciphered]
