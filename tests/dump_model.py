"""dump_model.py: a second source for `dump`, written from document 02, request 8, and document 01: which bytes of a dump are
kept, what a kept frame means, the line of totals, and the records of the capture."""
import struct

from judge_cases import judge_cases

TYPED = dict(judge_cases())


def kept_length(dump, at):
    """The length of the run that is kept at a place with AA, or 0."""
    if at + 6 > len(dump):
        return 0
    length = (dump[at + 1] % 16) * 256 + dump[at + 2] + 4
    fits = length >= 6 and at + length <= len(dump) and dump[at + length - 1] == 0x55
    return length if fits else 0


def ranges(dump):
    """Start, length, and whether the range is kept. A run starts nowhere but at AA."""
    found, past, at = [], 0, dump.find(b"\xaa")
    while at >= 0:
        length = kept_length(dump, at)
        if length:
            if past < at:
                found.append((past, at - past, False))
            found.append((at, length, True))
            past = at + length
        at = dump.find(b"\xaa", at + (length or 1))
    if past < len(dump):
        found.append((past, len(dump) - past, False))
    return found


def is_utf8(content):
    try:
        content.decode()
    except UnicodeDecodeError:
        return False
    return True


def data_meaning(payload):
    if not payload:
        return "refused PacketDecodeTargetMemorySizeInvalid"
    return f"DataEvent {payload[0]} {payload[1:].hex() or '-'}"


def connect_meaning(payload):
    """None for all but an IPv4 event of the right size."""
    if len(payload) != 15 or payload[1] != 2:
        return None
    channel, _, protocol, remote, remote_port, local, local_port = struct.unpack(">BBB4sH4sH", payload)
    return f"ConnectEvent {channel} ConnectEventIPv4 {protocol} {remote.hex()} {remote_port} {local.hex()} {local_port}"


def disconnect_meaning(payload):
    return f"DisconnectEvent {payload[0]}" if len(payload) == 1 else "refused DisconnectEventDecodeError"


def request_meaning(payload):
    return f"ATRequest {payload.hex() or '-'}" if is_utf8(payload) else "refused AtRequestEventDecodeError"


def at_meaning(payload):
    """That the text is UTF-8 is asked first, of an event and of a response. None where more is asked."""
    return None if is_utf8(payload) else "refused AtPacketError Utf8DecodeFailed"


MEANINGS = {
    0x0011: connect_meaning,
    0x0021: disconnect_meaning,
    0x0031: data_meaning,
    0x0036: data_meaning,
    0x0041: at_meaning,
    0x0044: request_meaning,
    0x0045: at_meaning,
    0x0056: lambda payload: "ResendConnectEvents",
    0x0071: lambda payload: "StartEvent",
}


def meaning(frame):
    """The line that judge prints for a kept frame: the one typed in judge.txt, where the top 4 bits of the length make no
    difference, or one that needs no reader of AT lines. Else None."""
    plain = frame[:1] + bytes([frame[1] % 16]) + frame[2:]
    if plain in TYPED:
        return TYPED[plain]
    said = MEANINGS.get(int.from_bytes(frame[3:5], "big"))
    return said(frame[5:-1]) if said else "refused PayloadTypeUnknown"


def total_line(dump, found, refused):
    kept = sum(is_kept for _, _, is_kept in found)
    skipped = sum(length for _, length, is_kept in found if not is_kept)
    hundredths = 10000 * skipped // len(dump) if dump else 0
    percent = f"{hundredths // 100}.{hundredths % 100:02d}%"
    return f"total: kept {kept}, {refused} of them refused; skipped {skipped} of {len(dump)} bytes ({percent})"


def records(dump, found):
    """Seconds, microseconds and frame: the time is the place, in microseconds."""
    return [(at // 1000000, at % 1000000, dump[at : at + length]) for at, length, is_kept in found if is_kept]
