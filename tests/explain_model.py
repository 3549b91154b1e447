"""A second source for `explain`: it decides from documents 01 and 02, and not from the code, which check refuses an input and at which byte, or
which bytes each field came from and what they say. explain_pages.py holds the program's pages to it."""
import re

NAMES = (
    "PacketDecodeFramingInvalid PacketDecodeTargetMemorySizeInvalid PacketTypeDecodeLengthMismatch PayloadTypeUnknown "
    "ConnectEventUnsupported ConnectEventDecodeError DisconnectEventDecodeError AtRequestEventDecodeError "
    "PacketEncodeTypeUnknown PacketEncodePayloadSizeInvalid Utf8DecodeFailed FramingDecodeFailed TypeDecodeUnsupported "
    "TypeDecodeParameterMissing TypeDecodeParameterDataTypeInvalid EventUnknown"
).split()

PACKETS = {
    0x11: "connect event",
    0x21: "disconnect event",
    0x31: "data event",
    0x36: "data command, read as a data event",
    0x41: "AT event of W26",
    0x44: "AT request",
    0x45: "AT response",
    0x56: "command to send the connect events again",
    0x71: "start event",
}

# Of each event what it is, then its fields: a name and a kind. A number is a width in bits, `s` a text.
PEER = [("peer handle", 16), ("type", "type")]
GATT = [("connection handle", 16), ("characteristic handle", 16)]
VALUE = [("connection handle", 16), ("value handle", 16), ("hex data", "s")]
ADDRESS = ("Bluetooth address", "s")
W26 = {
    "+UUDPC": (
        "peer connected over IP",
        PEER
        + [("protocol", "protocol"), ("local address", "s"), ("local port", 16), ("remote address", "s"), ("remote port", 16)],
    ),
    "+UUDPD": ("peer disconnected", [("peer handle", 16)]),
    "+UUWLE": ("Wi-Fi link connected", [("connection id", 16), ("BSSID", "s"), ("channel", 16)]),
    "+UUWLD": ("Wi-Fi link disconnected", [("connection id", 16), ("reason", "reason")]),
    "+UUWAPU": ("Wi-Fi access point up", [("id", 16)]),
    "+UUWAPD": ("Wi-Fi access point down", [("id", 16)]),
    "+UUWAPSTAC": ("Wi-Fi access point: station connected", [("id", 16), ("MAC address", "s")]),
    "+UUWAPSTAD": ("Wi-Fi access point: station disconnected", [("id", 16)]),
    "+UUETHLU": ("Ethernet link up", []),
    "+UUETHLD": ("Ethernet link down", []),
    "+UUNU": ("network up", [("interface id", 16)]),
    "+UUND": ("network down", [("interface id", 16)]),
    "+UUNERR": ("network error", [("interface id", 16), ("code", 16)]),
    "+UUDATA": ("data available", [("peer handle", 16), ("length", 16)]),
    "+UUBTB": ("Bluetooth bond", [ADDRESS, ("status", 8)]),
    "+UUBTUC": ("user confirmation", [ADDRESS, ("value", 32)]),
    "+UUBTUPD": ("user passkey display", [ADDRESS, ("passkey", 32)]),
    "+UUBTUPE": ("user passkey entry", [ADDRESS]),
    "+UUBTACLC": ("ACL connected", [("connection handle", 16), ("type", 8), ADDRESS]),
    "+UUBTACLD": ("ACL disconnected", [("connection handle", 16)]),
    "+UUBTGRR": ("GATT request to read", GATT),
    "+UUBTGRW": ("GATT request to write", GATT + [("value", "s"), ("options", 8)]),
    "+UUBTGIC": ("GATT indication confirmation", GATT),
    "+UUBTGN": ("GATT notification", VALUE),
    "+UUBTGI": ("GATT indication", VALUE),
}
BLUETOOTH_PEER = ("peer connected over Bluetooth", PEER + [("profile", 8), ("address", "s"), ("frame size", 16)])
W36 = {
    "+UESOC": ("socket connected", [("socket id", 8)]),
    "+UESOCL": ("socket closed", [("socket id", 8)]),
    "+UESODA": ("socket data available", [("socket id", 8), ("length", 16)]),
    "+UEWLU": ("Wi-Fi link up", [("WLAN handle", 16), ("BSSID", "s"), ("channel", 16)]),
    "+UEWLD": ("Wi-Fi link down", [("WLAN handle", 16), ("reason", 16)]),
    "+UEWAPSA": ("Wi-Fi access point: station associated", [("MAC address", "s")]),
    "+UEWAPSDA": ("Wi-Fi access point: station disassociated", [("MAC address", "s")]),
    "+UEWAPU": ("Wi-Fi access point up", []),
    "+UEWAPD": ("Wi-Fi access point down", []),
    "+UEWSNU": ("station network up", []),
    "+UEWSND": ("station network down", []),
    "+UEWAPNU": ("access point network up", []),
    "+UEWAPND": ("access point network down", []),
}
BINARY = {
    "+UESODB": ("socket data", [("socket id", 8)]),
    "+UESODBF": ("socket data with its sender", [("socket id", 8), ("remote IP", "s"), ("remote port", 16)]),
}
PROTOCOLS = {1: "TCP", 2: "UDP", 6: "MQTT"}
REASONS = ["unknown", "remote close", "out of range", "roaming", "security problems", "network disabled"]
TYPES = {b"1": "Bluetooth", b"2": "IPv4", b"3": "IPv6"}
LIMITS = {8: "255", 16: "65,535", 32: "4,294,967,295"}


def quoted(text, columns):
    """A text in quotes, as many bytes of it as fit into so many columns."""
    shown, used = "", 0
    for b in text:
        piece = chr(b) if 0x20 <= b <= 0x7E and b not in b'"\\' else "\\x%02X" % b
        if used + len(piece) > columns:
            return f'"{shown}"..'
        shown, used = shown + piece, used + len(piece)
    return f'"{shown}"'


def in_sentence(text):
    return quoted(text, 24)


def in_table(text):
    return quoted(text, 60)


def dashed(data):
    return data.hex().upper()


class Refused(Exception):
    pass


class Reading:
    """The checks of one input in order, the fields that they found, and what the input turned out to be."""

    def __init__(self, data):
        self.data, self.held, self.fields, self.what, self.past, self.note = data, [], [], "", len(data), ""
        self.last_field = None

    def check(self, name, requires, holds, number, byte, found, field=None):
        """`field` is the lead of a check about a field; the checks of one field share a line."""
        if not holds:
            self.broken = (name, number, byte, (field + requires if field else requires) + "; " + found)
            raise Refused
        if field and field == self.last_field:
            self.held[-1] += ", " + requires
        else:
            self.held.append(field + requires if field else requires)
        self.last_field = field

    def field(self, start, length, name, meaning):
        self.fields.append((start, length, name, meaning))


def utf8_place(text):
    try:
        text.decode("utf-8")
    except UnicodeDecodeError as e:
        return e.start
    return None


def check_utf8(r, name, requires, text, at, number):
    place = utf8_place(text)
    byte = None if place is None else at + place
    found = "" if byte is None else "byte %d (%02X) begins no whole character" % (byte, r.data[byte])
    r.check(name, requires, byte is None, number, byte, found)


def ending(rest):
    return "this ends in " + " ".join("%02X" % b for b in rest[-2:]) if rest else "nothing follows"


def read_fields(r, kinds, pieces, end):
    """Left to right, each first for being there, then for its form. `pieces` are the texts of the fields with their places."""
    for i, (name, kind) in enumerate(kinds):
        lead = f"field {i + 1} ({name}) is "
        there = f"this event has {i} field" + ("" if i == 1 else "s")
        r.check("FieldThere", "there", i < len(pieces), 14, end, there, lead)
        start, text = pieces[i]
        this = "this one is " + in_sentence(text)
        if kind == "s":
            meaning = in_table(text)
        elif kind == "type":
            r.check("FieldType", "exactly 1, 2 or 3", text in TYPES, 13, start, this, lead)
            meaning = TYPES[text]
        else:
            width = kind if isinstance(kind, int) else 8
            r.check("FieldEmpty", "not empty", text != b"", 15, start, this, lead)
            spelt = re.fullmatch(rb"\+?[0-9]+", text)
            r.check("FieldByte", "digits or + and digits", spelt is not None, 15, start, this, lead)
            value = int(text)
            r.check("FieldLarge", "at most " + LIMITS[width], value < 2**width, 15, start, this, lead)
            meaning = str(value)
            if kind == "protocol":
                r.check("FieldListed", "one of 1, 2 and 6", value in PROTOCOLS, 15, start, this, lead)
                meaning = PROTOCOLS[value]
            elif kind == "reason":
                r.check("FieldListed", "one of 0, 1, 2, 3, 4 and 5", value < len(REASONS), 15, start, this, lead)
                meaning = REASONS[value]
        r.field(start, len(text), name, meaning)


def pieces_of(text, at, cuts=-1):
    """The fields of a text that starts at a place, cut at each comma or at the first few only."""
    pieces = []
    for piece in text.split(b",", cuts) if cuts else [text]:
        pieces.append((at, piece))
        at += len(piece) + 1
    return pieces


def read_line(r, line, at, table, radio):
    """An event line at a place of the input; what is kept of it is cut by the caller's radio."""
    check_utf8(r, "Utf8", "an event line is UTF-8", line, at, 11)
    r.check("LineOfTwo", "an event line has at least 2 bytes", len(line) >= 2, 12, at + len(line), f"this one has {len(line)}")
    inside = len(line) > 2 and 0x80 <= line[2] <= 0xBF
    r.check(
        "PlaceTwo",
        "the first 2 bytes of an event line are whole characters",
        not inside,
        12,
        at + 2,
        "here a character goes on after them",
    )
    rest = line[2:]
    r.check(
        "LineEnd",
        "what follows the first 2 bytes of an event line ends in CR LF",
        rest.endswith(b"\r\n"),
        12,
        at + len(line),
        ending(rest),
    )
    text = rest[:-2]
    if radio == "W36":
        text = text.split(b"\r\n")[0]
        r.past = at + 2 + len(text) + 2
    read_event(r, text, at + 2, table, radio)


def read_event(r, text, at, table, radio):
    name, colon, after = text.partition(b":")
    spelt = name.decode("latin-1")
    r.check(
        "EventName", f"the name is in the list of {radio} events", spelt in table, 16, at, "this one is " + in_sentence(name)
    )
    r.what, kinds = table[spelt]
    pieces = pieces_of(after, at + len(name) + 1) if colon else []
    if spelt == "+UUDPC" and len(pieces) > 1 and pieces[1][1] == b"1":
        r.what, kinds = BLUETOOTH_PEER
    r.field(at, len(name), "name", r.what)
    read_fields(r, kinds, pieces, at + len(text))


def read_binary(r, data):
    for name, (what, kinds) in BINARY.items():
        if data.startswith(b"\r\n" + name.encode() + b":"):
            break
    else:
        return False
    start = len(name) + 3
    body = data[start:]
    marker = body.find(1)
    r.check("Marker", "a byte 01 follows the fields of a binary event", marker >= 0, 12, len(data), "this one has none")
    text, after = body[:marker], body[marker + 1 :]
    check_utf8(r, "Utf8", "the text before the first byte 01 is UTF-8", text, start, 11)
    r.what = what
    r.field(2, len(name), "name", what)
    read_fields(r, kinds, pieces_of(text, start, len(kinds) - 1), start + marker)
    r.check("LengthBytes", "2 length bytes follow the byte 01", len(after) >= 2, 12, len(data), f"this one has {len(after)}")
    size = int.from_bytes(after[:2], "big")
    r.check(
        "DataBytes",
        "as many data bytes follow the length as it says",
        len(after) - 2 >= size,
        12,
        len(data),
        f"it says {size}, there are {len(after) - 2}",
    )
    at = start + marker
    r.field(at, 1, "marker", "the data follows")
    r.field(at + 1, 2, "data length", f"{size} byte" + ("" if size == 1 else "s"))
    r.field(at + 3, size, "data", in_table(after[2 : 2 + size]))
    r.past = at + 3 + size
    return True


def read_response(r, text, at):
    check_utf8(r, "Utf8", "a response is UTF-8", text, at, 11)
    first = text.find(b"\r\n")
    r.check("FirstLineEnd", "a response has a CR LF", first >= 0, 12, at + len(text), "this one has none")
    rest = text[first + 2 :]
    r.check(
        "LastLineEnd",
        "what follows the first CR LF of a response ends in CR LF",
        rest.endswith(b"\r\n"),
        12,
        at + len(text),
        ending(rest),
    )
    rest, place = rest[:-2], at + first + 2
    before, split, status = rest.rpartition(b"\r\n")
    if rest == b"ERROR":
        r.what = "ERROR"
        return
    if rest == b"OK" or (split and status == b"OK"):
        r.what, rest = "OK", before
    else:
        r.what = "neither OK nor ERROR"
    r.field(place, len(rest), "text", in_table(rest))


def read_connect(r, payload, end):
    n = len(payload)
    r.check("ConnectOfTwo", "the payload of a connect event has at least 2 bytes", n >= 2, 2, end, f"this one has {n}")
    kind = dashed(payload[1:2])
    r.check("ConnectType", "the type of a connect event is 02 (IPv4)", payload[1] == 2, 5, 6, f"this one is {kind}")
    r.check(
        "ConnectSize", "an IPv4 connect event has exactly 13 bytes after its type", n == 15, 6, end, f"this one has {n - 2}"
    )
    address = lambda a: ".".join(str(b) for b in payload[a : a + 4])
    port = lambda a: str(int.from_bytes(payload[a : a + 2], "big"))
    r.field(5, 1, "channel", str(payload[0]))
    r.field(6, 1, "type", "IPv4")
    r.field(7, 1, "protocol", str(payload[2]))
    r.field(8, 4, "remote address", address(3))
    r.field(12, 2, "remote port", port(7))
    r.field(14, 4, "local address", address(9))
    r.field(18, 2, "local port", port(13))


def read_payload(r, identifier, payload):
    n = len(payload)
    end = 5 + n
    if identifier == 0x11:
        read_connect(r, payload, end)
    elif identifier == 0x21:
        requires = "the payload of a disconnect event is exactly 1 byte"
        r.check("DisconnectSize", requires, n == 1, 7, end, f"this one has {n}")
        r.field(5, 1, "channel", str(payload[0]))
    elif identifier in (0x31, 0x36):
        requires = "the payload of a data event or data command has at least 1 byte, the channel"
        r.check("DataChannel", requires, n >= 1, 2, end, f"this one has {n}")
        r.field(5, 1, "channel", str(payload[0]))
        r.field(6, n - 1, "data", in_table(payload[1:]))
    elif identifier == 0x44:
        check_utf8(r, "RequestUtf8", "the text of an AT request is UTF-8", payload, 5, 8)
        r.field(5, n, "text", in_table(payload))
    elif identifier == 0x45:
        read_response(r, payload, 5)
    elif identifier == 0x41:
        read_line(r, payload, 5, W26, "W26")
    elif n:
        r.note = "The payload of this packet is ignored."


def read_frame(r, s):
    n = len(s)
    r.check("FrameOfTwo", "a frame has at least 2 bytes", n >= 2, 1, n, f"this one has {n}")
    r.check("StartByte", "the first byte of a frame is AA", s[0] == 0xAA, 1, 0, f"this one is {dashed(s[:1])}")
    r.check("EndByte", "the last byte of a frame is 55", s[-1] == 0x55, 1, n - 1, f"this one is {dashed(s[-1:])}")
    r.check("FrameOfSix", "a frame has at least 6 bytes", n >= 6, 2, n, f"this one has {n}")
    said = int.from_bytes(s[1:3], "big") & 0x0FFF
    r.check(
        "FrameLength",
        "the length field says how many bytes identifier and payload have",
        said == n - 4,
        3,
        1,
        f"it says {said}, they have {n - 4}",
    )
    identifier = int.from_bytes(s[3:5], "big")
    r.check(
        "Identifier",
        "the identifier is 0011, 0021, 0031, 0036, 0041, 0044, 0045, 0056 or 0071",
        identifier in PACKETS,
        4,
        3,
        f"this one is {dashed(s[3:5])}",
    )
    r.field(0, 1, "start byte", "AA")
    r.field(1, 2, "length", f"{said} bytes, identifier and payload")
    r.field(3, 2, "identifier", PACKETS[identifier])
    read_payload(r, identifier, s[5:-1])
    r.field(n - 1, 1, "end byte", "55")
    r.what = PACKETS[identifier] + (": " + r.what if r.what else "")


KINDS = {
    "frame": "EDM frame",
    "w26": "W26 event line",
    "w36": "W36 event line",
    "binary": "W36 binary event",
    "response": "AT response",
}


def read(kind, data):
    """The reading of an input, and `accepted`, `refused` or `not binary`."""
    r = Reading(data)
    try:
        if kind == "frame":
            read_frame(r, data)
        elif kind == "w26":
            read_line(r, data, 0, W26, "W26")
        elif kind == "w36":
            read_line(r, data, 0, W36, "W36")
        elif kind == "response":
            read_response(r, data, 0)
        elif not read_binary(r, data):
            return r, "not binary"
    except Refused:
        return r, "refused"
    return r, "accepted"
