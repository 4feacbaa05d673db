"""Calls that speak, for the checks of a network: what goes between its station, the media gateway and the centre, in octets of
osmo-bsc, osmo-msc and osmo-bts."""
from network_harness import begin, said, say, sent

# A call's first message, CM SERVICE REQUEST; and ASSIGNMENT REQUEST of osmo-msc: speech at either rate, in five versions; the
# centre has it at 127.0.0.1, port 4002.
SERVICE = "0524710357188105f44595ef80"
ASSIGN = "0022010b07010aa19181a5057c067f0000010fa27d0983ff578280843f07817f01000080"
CENTRE_PORT = 4002


class Call:
    """A call that speaks: its mobile's channel, its connection to the centre, its endpoint, and the ports of this."""

    def __init__(self, run, station, number, connection):
        self.run, self.station, self.number, self.connection = run, station, number, connection
        self.endpoint = None
        self.centre_port = self.station_port = 0

    def at(self, station=None, number=None):
        """The port where a station has its speech."""
        return (station or self.station).ports + 2 * int(number or self.number, 16)

    def speaks(self, *ports):
        """Waits until the gateway speaks with the centre, and with a station at these ports."""
        self.run.gateway.speaks(self.endpoint, CENTRE_PORT, *(ports or (self.at(),)))


def start_call(run, station, **options):
    """A mobile asks for a call."""
    return Call(run, station, *begin(run, station, update=SERVICE, **options))


def joined(call, station, number, mode="00", payload="03"):
    """A station is asked where it has a channel's speech, and is told where the gateway has it; the port of that."""
    sent(station, f"7e7001{number}f4{int(mode, 16) | 0x10:02x}f2{payload}")
    local = sent(station, f"7e7301{number}f80000f07f000001f1(....)f4{mode}f2{payload}")[1]
    return int(local, 16)


def ask_for_speech(call, request=ASSIGN):
    """The centre asks for speech, up to CHANNEL MODE MODIFY (TS 44.018, 9.1.5), which the mobile is told."""
    call.run.centre.data(call.connection, request)
    call.station_port = joined(call, call.station, call.number)
    told_mode(call)
    call.endpoint = f"rtpbridge/{call.run.gateway.endpoint_count}@mgw"


def told_mode(call, mode="01", description="203c"):
    """The mobile is told its channel's mode."""
    sent(call.station, f"030101{call.number}02000b00060610{call.number}{description}{mode}")


def take_mode(call, mode="01", description="203c"):
    """The mobile takes it."""
    said(call.station, call.number, f"0617{call.number}{description}{mode}")


def assigned_speech(call, chosen="2198", version="01", codec="80"):
    """ASSIGNMENT COMPLETE (TS 48.008, 3.2.1.2) comes: chosen channel, no encryption, speech version, address and codec."""
    elements = f"{chosen}2c0140{version}7c067f000001(....)7e01{codec}"
    found = call.run.centre.expect(f"06{call.connection}000114001202{elements}")
    call.centre_port = int(found[1], 16)


def speak(call, request=ASSIGN):
    """A call gets speech."""
    ask_for_speech(call, request)
    take_mode(call)
    assigned_speech(call)
    call.speaks()


def failed(call, cause):
    """ASSIGNMENT FAILURE (3.2.1.3) comes, with a cause."""
    call.run.centre.expect(f"06{call.connection}0001060004030401{cause}")


def detect(station, number):
    """A mobile is on its target: HANDOVER DETECTION."""
    say(station, f"082701{number}")


def deleted(call):
    """The gateway is asked to delete a call's endpoint, of which nothing is left then."""
    call.run.gateway.expect(rf"DLCX \d+ {call.endpoint} MGCP 1\.0\r\nC: [0-9a-f]+\r\n")
    call.run.gateway.emptied()
