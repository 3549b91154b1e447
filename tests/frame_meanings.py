"""frame_meanings.py: a second source for the line that `judge` prints for a frame, written from document 01. It has no
reader of AT lines."""
import struct


def is_utf8(content):
    try:
        content.decode()
    except UnicodeDecodeError:
        return False
    return True


def connect_meaning(payload):
    """Channel, type, protocol, remote address and port, local address and port."""
    if len(payload) < 2:
        return "refused PacketDecodeTargetMemorySizeInvalid"
    if payload[1] != 2:
        return "refused ConnectEventUnsupported"
    if len(payload) != 15:
        return "refused ConnectEventDecodeError"
    channel, _, protocol, remote, remote_port, local, local_port = struct.unpack(">BBB4sH4sH", payload)
    return f"ConnectEvent {channel} ConnectEventIPv4 {protocol} {remote.hex()} {remote_port} {local.hex()} {local_port}"


def disconnect_meaning(payload):
    return f"DisconnectEvent {payload[0]}" if len(payload) == 1 else "refused DisconnectEventDecodeError"


def data_meaning(payload):
    if not payload:
        return "refused PacketDecodeTargetMemorySizeInvalid"
    return f"DataEvent {payload[0]} {payload[1:].hex() or '-'}"


def request_meaning(payload):
    return f"ATRequest {payload.hex() or '-'}" if is_utf8(payload) else "refused AtRequestEventDecodeError"


def at_meaning(payload):
    """That the text is UTF-8 is asked first, of an event and of a response. None where more is asked."""
    return None if is_utf8(payload) else "refused AtPacketError Utf8DecodeFailed"


MEANINGS = {
    0x0011: connect_meaning,
    0x0021: disconnect_meaning,
    0x0031: data_meaning,
    0x0036: data_meaning,
    0x0041: at_meaning,
    0x0044: request_meaning,
    0x0045: at_meaning,
    0x0056: lambda payload: "ResendConnectEvents",
    0x0071: lambda payload: "StartEvent",
}


def frame_meaning(frame):
    """None for an AT event or a response that is UTF-8."""
    if len(frame) < 2 or frame[0] != 0xAA or frame[-1] != 0x55:
        return "refused PacketDecodeFramingInvalid"
    if len(frame) < 6:
        return "refused PacketDecodeTargetMemorySizeInvalid"
    if frame[1] % 16 * 256 + frame[2] != len(frame) - 4:
        return "refused PacketTypeDecodeLengthMismatch"
    said = MEANINGS.get(int.from_bytes(frame[3:5], "big"))
    return said(frame[5:-1]) if said else "refused PayloadTypeUnknown"
