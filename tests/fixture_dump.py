"""fixture_dump.py: a dump of 65,536 bytes as a bad cable gives it: frames of all kinds, frames that lost bytes or bits, AA,
55 and whole frames inside data, and noise. judge.txt has a line for each whole frame of the AT layer in it."""
import hashlib
import random

SIZE = 65536
# Of the dump. It makes a change of Python's library visible, which would else be another dump and no more.
SHA256 = "c6650c7d85b57fa5c09c7d0d7144e24a3d5abc5f63006abfc18f3ff26a3671f1"

EVENTS = (
    b"+UUETHLU",
    b"+UUDPC:1,2,1,192.168.0.5,5000,10.0.0.2,65535",
    b"+UUDPC:+007,3,6,,0,::1,00080",
    b"+UUDPC:3,1,0,112233445566p,670",
    b"+UUBTACLC:0,1,CCF9578E0D8Ap",
    b"+UUWLD:7,4",
    b"+UUNERR:0,1",
    b"+UUDPD",
    b"+UUDPD:65536",
    b"+UUDPC:1,4,x",
    b"UUNERR:0,1",
)
RESPONSES = b"\r\nOK\r\n", b"\r\n+A\r\nOK\r\n", b"\r\nERROR\r\n", b"AT\r\n+B\r\nC\r\n", b"OK", b"\x80"
REQUESTS = b"AT\r", b"AT+UWSCA=0,3\r", b"AT+UDCP=tcp://10.0.0.2:5000/\r", b"", b"AT\xff\r"
RUNS = b"\xaa", b"\x55", b"\x00", b"\xff", b"\xaa\x55", b"\xaa\x00", b"U\xaa\xaa"


def frame(identifier, payload, top=0):
    """The top 4 bits of the length are ignored when a frame is read."""
    return b"\xaa" + (top << 12 | len(payload) + 2).to_bytes(2, "big") + identifier.to_bytes(2, "big") + payload + b"\x55"


class Chance:
    """It rests on random() alone, which Python documents as the same for a seed in every version."""

    def __init__(self, seed):
        self.random = random.Random(seed).random

    def below(self, count):
        return int(self.random() * count)

    def pick(self, choices):
        return choices[self.below(len(choices))]

    def bytes(self, count):
        return bytes([int(self.random() * 256) for _ in range(count)])


def some_data(chance):
    """The bytes of a data event: text, noise, AA and 55, or frames."""
    kind = chance.below(8)
    if kind < 3:
        return f"T={chance.below(400) / 10};P={chance.below(9999)}\r\n".encode() * (1 + chance.below(4))
    if kind < 5:
        return chance.bytes(chance.below(90))
    if kind < 7:
        return b"".join(chance.pick((b"\xaa", b"\x55", b"\x00\x02", b"\x00")) for _ in range(chance.below(60)))
    return b"".join(some_frame(chance, False) for _ in range(1 + chance.below(3)))


def some_frame(chance, may_nest=True):
    """A frame that passes checks 1 to 3; one in two hundred of the outer ones is of the largest size."""
    top = chance.below(16) if chance.below(8) == 0 else 0
    channel = bytes([chance.below(256)])
    if may_nest and chance.below(200) == 0:
        return frame(0x31, channel + chance.bytes(4092), top)
    kind = chance.below(40)
    if kind < 22:
        data = some_data(chance) if may_nest else chance.bytes(chance.below(20))
        return frame(chance.pick((0x31, 0x36)), channel + data, top)
    if kind < 26:
        return frame(0x41, b"\r\n" + chance.pick(EVENTS) + b"\r\n", top)
    if kind < 29:
        return frame(0x45, chance.pick(RESPONSES), top)
    if kind < 32:
        return frame(0x44, chance.pick(REQUESTS), top)
    if kind < 34:
        return frame(0x11, channel + b"\x02" + chance.bytes(13), top)
    if kind < 36:
        return frame(0x21, chance.bytes(chance.pick((0, 1, 1, 1, 2))), top)
    return frame(chance.pick((0x31, 0x56, 0x71, 0x0072, 0x3100)), chance.bytes(chance.pick((0, 0, 3))), top)


def damaged(chance, whole):
    """A frame that lost its start, its end or bytes in between, got one more byte, or has other bits in its first or its
    last bytes."""
    at = chance.below(len(whole))
    kind = chance.below(6)
    if kind == 0:
        return whole[at + 1 :]
    if kind == 1:
        return whole[:at]
    if kind == 2:
        return whole[:at] + whole[at + 1 + chance.below(5) :]
    if kind == 3:
        return whole[:at] + chance.bytes(1) + whole[at:]
    at = chance.pick((0, 1, 2, len(whole) - 1))
    return whole[:at] + bytes([whole[at] ^ 1 << chance.below(8)]) + whole[at + 1 :]


def noise(chance):
    if chance.below(2):
        return chance.bytes(chance.below(40))
    return chance.pick(RUNS) * (1 + chance.below(12))


def noisy_dump(chance, size):
    dump = bytearray()
    while len(dump) < size:
        kind = chance.below(10)
        if kind < 6:
            dump += some_frame(chance)
        elif kind < 8:
            dump += damaged(chance, some_frame(chance))
        else:
            dump += noise(chance)
    return bytes(dump[:size])


def fixture_dump():
    return noisy_dump(Chance(27), SIZE)


def sum_of(dump):
    return hashlib.sha256(dump).hexdigest()
