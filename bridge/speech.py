"""Speech of a mobile on the virtual air: frames that are counted on the other side. osmo-bts-virtual has them in GSMTAP, each
behind an octet that says which codec it is of: half rate, then a head of RFC 5993 and 14 octets; full rate, then 33 octets."""
from osmocom import Clock

# The channels of GSMTAP that carry speech, of a whole channel and of a half.
VOICE, VOICE_HALF = 0x10, 0x11
# The codec of a frame, and how its first octet begins: the head of half rate, the mark of full rate.
HALF_RATE, FULL_RATE, MARK = 0, 1, 0xD0
FULL_LENGTH, HALF_LENGTH = 33, 15
# A frame has 20 milliseconds of speech.
PERIOD = 0.02


class Voice:
    """What a mobile says and hears. Each of its frames has who speaks, three digits of its number, and a number."""

    def __init__(self, mobile):
        self.mobile, self.who = mobile, int(mobile.imsi[-3:])
        self.clock = Clock(PERIOD, self.speak)
        self.said, self.heard = 0, []

    def start(self):
        """Speaks from now on."""
        self.said, self.heard = 0, []
        self.clock = Clock(PERIOD, self.speak)
        self.mobile.radio.clocks.append(self.clock)

    def stop(self):
        """Speaks no more."""
        if self.clock in self.mobile.radio.clocks:
            self.mobile.radio.clocks.remove(self.clock)

    def speak(self):
        """Says a frame."""
        mobile = self.mobile
        self.said += 1
        rest = self.who.to_bytes(2, "big") + self.said.to_bytes(3, "big")
        if mobile.half is None:
            channel, octets = VOICE, bytes([FULL_RATE, MARK]) + bytes(FULL_LENGTH - 6) + rest
        else:
            channel, octets = VOICE_HALF, bytes([HALF_RATE, 0]) + bytes(HALF_LENGTH - 6) + rest
        mobile.radio.put(mobile.arfcn, mobile.timeslot, channel, octets, mobile.half or 0)

    def hear(self, frame):
        """Takes a frame of its channel, where that is speech; whether it is. A frame that the station filled in isn't counted.
        """
        if frame.channel not in (VOICE, VOICE_HALF):
            return False
        lengths = {FULL_RATE: FULL_LENGTH, HALF_RATE: HALF_LENGTH}
        octets = frame.octets
        who = int.from_bytes(octets[-5:-3], "big")
        if len(octets) == 1 + lengths.get(octets[0], -1) and who != self.who and not any(octets[2:-5]) and who:
            self.heard.append(int.from_bytes(octets[-3:], "big"))
        return True
