"""commission_frames.py: the lines of a generated session of `commission`: frames of all kinds on channels that open, close
and open again, frames that are refused, odd lines, and questions."""
from commission_model import EVENTS, LONGEST_LINE, RESPONSES, at_text, meaning
from fixture_dump import damaged, frame

BLOCK = 1000  # frames, after which all rows and the counts are asked
FEW = 0, 1, 3, 0x55, 127, 128, 0xAA, 254, 255  # channels
EDGES = 0, 1, 2, 9, 10, 99, 100, 127, 128, 254, 255  # bytes of addresses and ports
# How many of 20 frames are of a kind: c connect, d disconnect, e data event, s data command, o other packet, b broken in
# one of checks 1 to 8, x damaged at any place, n noise
MOODS = (
    "cccccdddeeeessoobbxn",
    "ccccccccccdeesobbbxn",
    "cddddddddddeesobbbxn",
    "cdeeeeeeesssssobbbxn",
    "ccdeesooooobbbbbxxnn",
)
# Lines that are not understood, but for the first, which has a CR
ODD_LINES = [b"rows\r", b"\r", b"", b"\x00", b"x" * LONGEST_LINE, b"row 3" * 3277]
ODD_LINES += b"what?|frame|frame |frame aa5|frame aa000300210355x|frame a a5 5|frame  -|frame --".split(b"|")
ODD_LINES += b"FRAME aa000300210355|row|row |row 256|row  3|row 3 |row +3|row -1|row 4294967299".split(b"|")
ODD_LINES += b"rows | rows|rows 1|counts |counts 1|Counts".split(b"|")


def some_top(chance):
    """The top 4 bits of a length, which are ignored."""
    return chance.below(16) if chance.below(8) == 0 else 0


def some_bytes(chance, count):
    return bytes([chance.pick(EDGES) if chance.below(2) else chance.below(256) for _ in range(count)])


def some_connect(chance, channel):
    ends = some_bytes(chance, 13) if chance.below(50) else bytes(13)
    return frame(0x11, channel + b"\x02" + ends, some_top(chance))


def some_data(chance, channel, identifier):
    if chance.below(1000) == 0:
        return frame(identifier, channel + b"\xaa" * 4092, some_top(chance))
    inner = frame(chance.pick((0x11, 0x21)), channel) if chance.below(10) == 0 else b""
    return frame(identifier, channel + chance.bytes(chance.below(12)) + inner, some_top(chance))


def at_payload(chance, lines):
    """A text of which the model has the outcome, or one that is not UTF-8."""
    text = at_text(chance.pick(list(lines)))
    return text if chance.below(6) else text + chance.pick((b"\x80", b"\xff", b"\xc3", b"\xed\xa0\x80"))


def some_other(chance, channel):
    kind = chance.below(5)
    if kind == 0:
        return frame(0x41, at_payload(chance, EVENTS), some_top(chance))
    if kind == 1:
        return frame(0x45, at_payload(chance, RESPONSES), some_top(chance))
    if kind == 2:
        text = chance.pick((b"", b"AT\r", b"\xc3\xa9", b"\xf4\x8f\xbf\xbf", b"\x7f"))
        return frame(0x44, text if channel[0] > 127 else channel + text, some_top(chance))
    ignored = chance.pick((b"", channel, channel + b"\x02" + chance.bytes(13)))
    return frame(chance.pick((0x56, 0x71)), ignored, some_top(chance))


def some_broken(chance, channel):
    """A frame that one of checks 1 to 8 refuses, with a channel where a frame of its kind has it."""
    ends = some_bytes(chance, 13)
    connect, disconnect = frame(0x11, channel + b"\x02" + ends), frame(0x21, channel)
    whole = chance.pick((connect, disconnect, frame(0x31, channel), frame(0x36, channel + ends)))
    check = 1 + chance.below(8)
    if check == 1:
        return chance.pick((b"", b"\xaa", b"\x55", whole[1:], whole[:-1], b"\xab" + whole[1:], whole[:-1] + b"\x54"))
    if check == 2:
        short = frame(0x11, channel), frame(0x11, b""), frame(0x31, b""), frame(0x36, b"")
        return chance.pick((b"\xaa\x55", b"\xaa\x00\x55", b"\xaa\x00\x02\x55", b"\xaa\x00\x03\x21\x55", *short))
    if check == 3:
        length = int.from_bytes(whole[1:3], "big") + chance.pick((-2, -1, 1, 2, 4, 0x100, 0x800))
        return whole[:1] + length.to_bytes(2, "big") + whole[3:]
    if check == 4:
        near = 0x00, 0x10, 0x12, 0x20, 0x22, 0x30, 0x32, 0x35, 0x37, 0x61, 0x0111, 0x1100, 0x2100, 0x8021
        return frame(chance.pick(near), whole[5:-1])
    if check == 5:
        return frame(0x11, channel + chance.pick((b"\x00", b"\x01", b"\x03", b"\x04", b"\x82", b"\xff")) + ends)
    if check == 6:
        return frame(0x11, channel + b"\x02" + chance.pick((b"", ends[:9], ends[:12], ends + b"\x00", ends + ends)))
    if check == 7:
        return frame(0x21, chance.pick((b"", channel + channel, channel + b"\x00", b"\x00" + channel, channel * 5)))
    no_text = b"\xff", b"AT\x80\r", b"\xc0\x80", b"\xed\xa0\x80", b"\xf4\x90\x80\x80", channel + b"\xc3"
    return frame(0x44, chance.pick(no_text))


def some_noise(chance):
    content = chance.bytes(chance.below(30))
    return content if chance.below(2) else b"\xaa" + content + b"\x55"


def some_frame(chance, mood, channels):
    channel = bytes([chance.pick(channels)])
    kind = chance.pick(mood)
    if kind == "c":
        return some_connect(chance, channel)
    if kind == "d":
        return frame(0x21, channel, some_top(chance))
    if kind in "es":
        return some_data(chance, channel, 0x31 if kind == "e" else 0x36)
    if kind == "o":
        return some_other(chance, channel)
    if kind == "b":
        return some_broken(chance, channel)
    if kind == "x":
        return damaged(chance, some_frame(chance, "cdeso", channels))
    return some_noise(chance)


def spelt(chance, whole):
    """A frame in hex, in one of the ways that people type it."""
    digits, kind = whole.hex(), chance.below(6)
    if not whole:
        return "-"
    if kind == 1:
        return digits.upper()
    if kind == 2:
        return whole.hex(" ").upper()
    if kind == 3:
        return "".join(chance.pick((digit, digit.upper())) for digit in digits[:60]) + digits[60:]
    if kind == 4:
        return " " * chance.below(3) + whole.hex(" ").replace(" ", "  ", 3) + " " * chance.below(3)
    return digits


def generated_lines(chance, frames):
    """Lines without their ends: frames, with an odd line now and then; the counts and all rows after each block, and at the
    end."""
    mood, channels = MOODS[0], FEW
    for number in range(1, frames + 1):
        whole = some_frame(chance, mood, channels)
        while meaning(whole) is None:
            whole = some_frame(chance, mood, channels)
        yield b"frame " + spelt(chance, whole).encode()
        if chance.below(50) == 0:
            yield chance.pick(ODD_LINES)
        if number % BLOCK == 0:
            yield from questions(number // BLOCK % 3)
            mood, channels = chance.pick(MOODS), chance.pick((FEW, range(256)))
    yield from questions(0)


def questions(zeros):
    """The rows also one by one, each number with so many zeros before it."""
    return [b"rows", b"counts", *(b"row " + b"0" * zeros + str(channel).encode() for channel in range(256))]
