"""commission_model.py: a second source for `commission`, written from document 01 and from request 9 of document 02: what a
frame means for the table of channels, the table and its four counts, and the answer to each line."""
import re

from frame_meanings import frame_meaning

LONGEST_LINE = 16384  # bytes, without the line end; a CR before the line end is one of them
MOST = 4294967295  # a count goes no further

# What an AT event of W26 (0041) and an AT response (0045) print, typed by hand. `~` is CR LF. The rules of event lines are
# not written a second time here: a text that is UTF-8 and is not in these tables is asked of no program.
EVENTS = {
    "~+UUETHLU~": "ATEvent EthernetLinkUp",
    "~+UUDPD:3~": "ATEvent PeerDisconnected 3",
    "~+UUDPD:+007~": "ATEvent PeerDisconnected 7",
    "~+UUDPC:3,2,1,192.168.0.5,5000,10.0.0.2,65535~": (
        "ATEvent PeerConnectedIP 3 0 TCP 3139322e3136382e302e35 5000 31302e302e302e32 65535"
    ),
    "~+UUDPC:3,1,0,112233445566p,670~": "ATEvent PeerConnectedBluetooth 3 0 31313232333334343535363670 670",
    "~+UUWLD:7,4~": "ATEvent WifiLinkDisconnected 7 SecurityProblems",
    "~+UUNERR:0,1~": "ATEvent NetworkError 0 1",
    "": "refused AtPacketError FramingDecodeFailed",
    "~": "refused AtPacketError FramingDecodeFailed",
    "~+UUETHLU": "refused AtPacketError FramingDecodeFailed",
    "~+UUDPC:1,4,x~": "refused AtPacketError TypeDecodeUnsupported",
    "~+UUDPD~": "refused AtPacketError TypeDecodeParameterMissing",
    "~+UUDPD:65536~": "refused AtPacketError TypeDecodeParameterDataTypeInvalid",
    "~+UUDPD:~": "refused AtPacketError TypeDecodeParameterDataTypeInvalid",
    "~UUNERR:0,1~": "refused AtPacketError EventUnknown",
    "~+UESOC:1~": "refused AtPacketError EventUnknown",
}
RESPONSES = {
    "~OK~": "ATResponse Ok -",
    "~+A~OK~": "ATResponse Ok 2b41",
    "~ERROR~": "ATResponse Error",
    "AT~+B~C~": "ATResponse Other 2b420d0a43",
    "~~": "ATResponse Other -",
    "": "refused AtPacketError FramingDecodeFailed",
    "OK": "refused AtPacketError FramingDecodeFailed",
    "~": "refused AtPacketError FramingDecodeFailed",
    "~OK": "refused AtPacketError FramingDecodeFailed",
}


def at_text(typed):
    return typed.replace("~", "\r\n").encode()


# Of each typed frame the identifier and the text
TYPED = {
    identifier + at_text(typed): line
    for identifier, lines in ((b"\x00\x41", EVENTS), (b"\x00\x45", RESPONSES))
    for typed, line in lines.items()
}
# What the first word of a meaning is to the table; the other words are of packets that change nothing
STEPS = {"ConnectEvent": "connect", "DisconnectEvent": "disconnect", "DataEvent": "data", "refused": "refused"}


def meaning(frame):
    """The line that judge prints, or None where the model cannot say it."""
    return frame_meaning(frame) or TYPED.get(frame[3:-1])


# What a line says

HEX = re.compile("( *[0-9A-Fa-f]{2})+ *")
NUMBER = re.compile("0*([0-9]{1,3})")


def frame_of(text):
    """The bytes that hex says, or None."""
    if text == "-":
        return b""
    return bytes.fromhex(text) if HEX.fullmatch(text) else None


def channel_of(text):
    """The number of a channel, or None."""
    match = NUMBER.fullmatch(text)
    return int(match[1]) if match and int(match[1]) <= 255 else None


def lines_of(given):
    """The last line may lack its line end; without a byte it is none."""
    lines = given.split(b"\n")
    return lines if lines[-1] else lines[:-1]


class Commission:
    """The table: of each open channel the remote address, 4 bytes, and the remote port. A channel that is not in it is
    closed."""

    def __init__(self):
        self.remotes = {}
        self.count = dict.fromkeys(("reopened", "closed", "stray", "refused"), 0)

    def add(self, name):
        self.count[name] = min(self.count[name] + 1, MOST)

    # Frames: a step for each kind, which gets the payload

    def connect(self, payload):
        if payload[0] in self.remotes:
            self.add("reopened")
        self.remotes[payload[0]] = payload[3:7], int.from_bytes(payload[7:9], "big")

    def disconnect(self, payload):
        if self.remotes.pop(payload[0], None) is None:
            self.add("closed")

    def data(self, payload):
        if payload[0] not in self.remotes:
            self.add("stray")

    def other(self, payload):
        pass

    def refused(self, payload):
        self.add("refused")

    def feed(self, frame):
        line = meaning(frame)
        getattr(self, STEPS.get(line.split(" ")[0], "other"))(frame[5:-1])
        return line

    # Answers

    def row(self, channel):
        if channel not in self.remotes:
            return f"{channel} closed"
        address, port = self.remotes[channel]
        return f"{channel} open ipv4 {'.'.join(map(str, address))} {port}"

    def rows(self):
        return [self.row(channel) for channel in sorted(self.remotes)] + ["end"]

    def counts(self):
        return " ".join(f"{name} {count}" for name, count in self.count.items())

    def what(self):
        return ["what?"]

    def answer(self, line):
        if len(line) > LONGEST_LINE:
            return self.what()
        return self.said(line.removesuffix(b"\r").decode("latin-1"))

    def said(self, text):
        word, space, rest = text.partition(" ")
        frame = frame_of(rest) if word == "frame" and space else None
        channel = channel_of(rest) if word == "row" and space else None
        if frame is not None:
            return [self.feed(frame)]
        if channel is not None:
            return [self.row(channel)]
        if text == "rows":
            return self.rows()
        if text == "counts":
            return [self.counts()]
        return self.what()

    def answers(self, given):
        return "".join(f"{row}\n" for line in lines_of(given) for row in self.answer(line)).encode()
