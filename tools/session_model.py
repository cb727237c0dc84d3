"""A plain model of framers and of one connected stream that answers by a script, for the checks beside it.

It is written from what docs/FORMATS.md says, and shares nothing with the crates.
"""

MOST = 4194304
NEVER = 1 << 63


class Len16:
    """Two bytes of the length, and the body."""

    @staticmethod
    def encode(body):
        return len(body).to_bytes(2, "big") + body if len(body) <= 65535 else None

    @staticmethod
    def first(data):
        if len(data) < 2 or len(data) < 2 + int.from_bytes(data[:2], "big"):
            return ("need",)
        used = 2 + int.from_bytes(data[:2], "big")
        return ("message", data[2:used], used)


class Line:
    """The body and a byte 10, which no body has."""

    @staticmethod
    def encode(body):
        return body + b"\n" if len(body) <= 65535 and b"\n" not in body else None

    @staticmethod
    def first(data):
        place = data.find(b"\n")
        if 0 <= place <= 65535:
            return ("message", data[:place], place + 1)
        return ("bad", 65535) if len(data) > 65535 else ("need",)


class Netstring:
    """The length in decimal, a colon, the body, a comma."""

    @staticmethod
    def encode(body):
        return b"%d:%s," % (len(body), body) if len(body) <= 65535 else None

    @staticmethod
    def first(data):
        number = ""
        for place, byte in enumerate(data):
            char = chr(byte)
            if char == ":" and number:
                end = place + 1 + int(number)
                if len(data) <= end:
                    return ("need",)
                return ("message", data[place + 1:end], end + 1) if data[end:end + 1] == b"," else ("bad", end)
            if not char.isdigit() or byte > 57 or number == "0" or int(number + char) > 65535:
                return ("bad", place)
            number += char
        return ("need",)


FRAMERS = {"len16": Len16, "line": Line, "netstring": Netstring}


def encoded(chain, body):
    """The bytes of a message, or the layer that cannot encode it: the last layer is the first to frame it."""
    for layer in reversed(range(len(chain))):
        body = FRAMERS[chain[layer]].encode(body)
        if body is None:
            return None, layer
    return body, None


def first_of(chain, data):
    """What bytes begin with, through a chain that is not empty."""
    found = FRAMERS[chain[0]].first(data)
    if found[0] != "message":
        return found if found[0] == "need" else ("bad", 0, found[1])
    body, used = found[1], found[2]
    for layer in range(1, len(chain)):
        inner = FRAMERS[chain[layer]].first(body)
        if inner[0] == "need":
            return ("bad", layer, len(body))
        if inner[0] == "bad":
            return ("bad", layer, inner[1])
        if inner[2] < len(body):
            return ("bad", layer, inner[2])
        body = inner[1]
    return ("message", body, used)


class Clock:
    """The time that all sockets share."""

    def __init__(self, at):
        self.now = at


class Stream:
    """One connected stream that answers by a script, whose times count from its completion."""

    def __init__(self, case, clock, begun):
        self.case, self.time, self.begun = case, clock, begun
        self.readable, self.events = b"", list(case["peer"])

    @property
    def clock(self):
        return self.time.now

    @clock.setter
    def clock(self, now):
        self.time.now = now

    def failure(self):
        fails = [self.begun + at for what, at, _ in self.case["peer"] if what == "fails"]
        return fails[0] if fails else NEVER

    def send(self, data, until):
        held = self.begun + (self.case["holds"] or 0)
        if held > self.clock:
            if held > until:
                self.clock = max(self.clock, until)
                return ("timed",)
            self.clock = held
        if self.failure() <= self.clock:
            return ("failed", [value for what, _, value in self.case["peer"] if what == "fails"][0])
        count = min(self.case["take"] or len(data), len(data))
        if self.case["echo"]:
            self.readable += data[:count]
        return ("sent", count)

    def came(self):
        """Takes in the bytes of the lines whose time has come, up to an end or a failure."""
        while self.events and self.events[0][0] == "sends" and self.begun + self.events[0][1] <= self.clock:
            self.readable += self.events.pop(0)[2]

    def receive(self, most, until):
        while True:
            self.came()
            if self.readable:
                count = min(self.case["give"] or most, most, len(self.readable))
                got, self.readable = self.readable[:count], self.readable[count:]
                return ("got", got)
            if self.events and self.begun + self.events[0][1] <= self.clock:
                return ("ended",) if self.events[0][0] == "ends" else ("failed", self.events[0][2])
            if self.events and self.begun + self.events[0][1] <= until:
                self.clock = self.begun + self.events[0][1]
                continue
            self.clock = max(self.clock, until)
            return ("timed",)
