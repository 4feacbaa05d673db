"""A media gateway for tests, over UDP. Its octets are those that osmo-mgw answers: nothing of the bridge's own reading or
writing is used, so that a mistake there isn't made here too."""
import contextlib
import re
import socket
import threading
import time

# A transaction: what is asked, its number, and the endpoint.
ASKED = re.compile(r"(CRCX|MDCX|DLCX) (\d+) (\S+) MGCP 1\.0")
# Where the gateway has connections: the first port.
FIRST_PORT = 4002
# So many ports it has before it begins with the first anew: each is even, and the next one is for reports.
PORTS = 16_384


class TestGateway:
    """A gateway. What it is asked is kept, as lines, and waited for by `expect`."""

    def __init__(self):
        self.socket = socket.socket(socket.AF_INET, socket.SOCK_DGRAM)
        self.socket.bind(("127.0.0.1", 0))
        self.port = self.socket.getsockname()[1]
        # what isn't answered; what is refused, with which code; and how often each is answered
        self.unanswered, self.refused, self.times = set(), {}, 1
        # what is put in place of an answer: a function of its text
        self.changed_answer = lambda text: text
        self.came, self.at = [], 0
        # by endpoint its connections, each with what was last said of the other side; how many there were of both
        self.endpoints, self.endpoint_count, self.connection_count = {}, 0, 0
        # by the number of a transaction, what was answered
        self.answered = {}
        self.peer = None
        self.changed = threading.Condition()
        threading.Thread(target=self.serve, daemon=True).start()

    def serve(self):
        """Takes what is asked."""
        while True:
            try:
                octets, self.peer = self.socket.recvfrom(4096)
            except OSError:
                return
            if not octets:
                # it is shut
                return
            text = octets.decode()
            with self.changed:
                self.came.append((time.monotonic(), text))
                self.take(text)
                self.changed.notify_all()

    def take(self, text):
        """Takes something, and answers it. What is asked again is answered as before, but a wildcard, which osmo-mgw takes for
        another one."""
        verb, number, endpoint = ASKED.match(text).groups()
        if verb in self.unanswered:
            return
        if number not in self.answered or "*" in endpoint:
            self.answered[number] = self.answer(verb, number, endpoint, text)
        for _ in range(self.times):
            self.send(self.changed_answer(self.answered[number]))

    def answer(self, verb, number, endpoint, text):
        """What is answered."""
        if verb in self.refused:
            return f"{self.refused[verb]} {number} FAIL\r\n"
        if verb == "CRCX":
            return self.create(number, endpoint, text)
        if endpoint not in self.endpoints:
            return f"515 {number} FAIL\r\n"
        if verb == "DLCX":
            self.delete(endpoint, text)
            return f"250 {number} OK\r\n"
        name = re.search(r"^I: (\S+)\r$", text, re.M)[1]
        if name not in self.endpoints[endpoint]:
            return f"515 {number} FAIL\r\n"
        if "\r\nm=audio " in text:
            self.endpoints[endpoint][name] = other_side(text)
        return f"200 {number} OK\r\n"

    def create(self, number, endpoint, text):
        """Makes a connection."""
        is_new = "*" in endpoint
        if is_new:
            self.endpoint_count += 1
            endpoint = f"rtpbridge/{self.endpoint_count}@mgw"
            self.endpoints[endpoint] = {}
        elif endpoint not in self.endpoints:
            return f"500 {number} FAIL\r\n"
        self.connection_count += 1
        name, port = f"C0FFEE{self.connection_count:02X}", FIRST_PORT + 2 * ((self.connection_count - 1) % PORTS)
        self.endpoints[endpoint][name] = other_side(text)
        payload = re.search(r"^m=audio \d+ RTP/AVP (\d+)\r$", text, re.M)[1]
        head = f"200 {number} OK\r\n" + (f"Z: {endpoint}\r\n" if is_new else "") + f"I: {name}\r\n\r\n"
        session = f"v=0\r\no=- {name} 23 IN IP4 127.0.0.1\r\ns=-\r\nc=IN IP4 127.0.0.1\r\nt=0 0\r\n"
        return head + session + f"m=audio {port} RTP/AVP {payload}\r\na=ptime:20\r\n"

    def delete(self, endpoint, text):
        """Deletes a connection, or all of an endpoint."""
        found = re.search(r"^I: (\S+)\r$", text, re.M)
        if found:
            self.endpoints[endpoint].pop(found[1], None)
        if not found or not self.endpoints[endpoint]:
            del self.endpoints[endpoint]

    def send(self, text):
        """Sends something."""
        self.socket.sendto(text if isinstance(text, bytes) else text.encode(), self.peer)

    def expect(self, pattern, seconds=60):
        """Waits until it is asked what a pattern describes, behind what was waited for before; the match."""

        def find():
            for place in range(self.at, len(self.came)):
                if found := re.fullmatch(pattern, self.came[place][1], re.S):
                    self.at = place + 1
                    return found
            return None

        with self.changed:
            found = self.changed.wait_for(find, seconds)
        if not found:
            raise TimeoutError(f"the gateway isn't asked {pattern}, but {[it[1] for it in self.came[self.at :]][-8:]}")
        return found

    def emptied(self, seconds=60):
        """Waits until no endpoint is in use."""
        with self.changed:
            if not self.changed.wait_for(lambda: not self.endpoints, seconds):
                raise TimeoutError(f"endpoints stay in use: {self.endpoints}")

    def speaks(self, endpoint, *ports, seconds=60):
        """Waits until the connections of an endpoint have their other sides at these ports."""

        def holds():
            return sorted(int(it[1]) for it in self.endpoints.get(endpoint, {}).values() if it) == sorted(ports)

        with self.changed:
            if not self.changed.wait_for(holds, seconds):
                raise TimeoutError(f"{endpoint} has not {ports}, but {self.endpoints}")

    def stop(self):
        """Answers no more."""
        with contextlib.suppress(OSError):
            self.socket.shutdown(socket.SHUT_RDWR)
        self.socket.close()


def other_side(text):
    """Where the other side has the speech: its address and its port; None where that isn't said."""
    found = re.search(r"^c=IN IP4 (\S+)\r\nt=0 0\r\nm=audio (\d+) ", text, re.M)
    return found and found.groups()
