-- A Wireshark dissector for EDM frames of u-blox radios, in captures of link type 147 (USER0).
--
-- Copy this file to Wireshark's folder of personal Lua plugins, or name it to tshark:
--
--     tshark -r FILE -X lua_script:edm.lua
--
-- The Info column has the line that `judge` prints for the frame, up to the 4,095 bytes that Wireshark keeps of a
-- column. Only an AT response and an AT event differ: their text is shown in quotes and not read, so a refusal of the
-- AT layer is not seen here. A frame that fails a check before that shows `refused` and the refusal's name, and is
-- marked as malformed.

local PAYLOAD = 5 -- where the payload starts, counted from 0 as Wireshark counts
local SHORTEST = 6 -- a frame without payload
local IPV4 = 0x02
local CONNECT_TYPES = { [IPV4] = "ConnectEventIPv4" }

-- Words of the line, as `judge` prints them: numbers in decimal, bytes in hex, no bytes as `-`.

local function number_of(bytes)
    local number = 0
    for place = 1, #bytes do
        number = number * 256 + bytes:byte(place)
    end
    return number
end

local function decimal(bytes)
    return ("%d"):format(number_of(bytes))
end

local function hex_digits(byte)
    return ("%02x"):format(byte:byte())
end

local function hex(bytes)
    return bytes == "" and "-" or (bytes:gsub(".", hex_digits))
end

local function connect_type(bytes)
    return CONNECT_TYPES[number_of(bytes)]
end

local ESCAPES = { ["\r"] = "\\r", ["\n"] = "\\n", ["\t"] = "\\t", ['"'] = '\\"', ["\\"] = "\\\\" }

local function escaped(byte)
    return ESCAPES[byte] or "\\x" .. hex_digits(byte)
end

local function quoted(bytes)
    return '"' .. bytes:gsub('["\\%c\x7F-\xFF]', escaped) .. '"'
end

-- The Unicode Standard, Table 3-7. The first row takes a run of ASCII, not one byte, for speed.
local WELL_FORMED = {
    "^[\x00-\x7F]+",
    "^[\xC2-\xDF][\x80-\xBF]",
    "^\xE0[\xA0-\xBF][\x80-\xBF]",
    "^[\xE1-\xEC\xEE\xEF][\x80-\xBF][\x80-\xBF]",
    "^\xED[\x80-\x9F][\x80-\xBF]",
    "^\xF0[\x90-\xBF][\x80-\xBF][\x80-\xBF]",
    "^[\xF1-\xF3][\x80-\xBF][\x80-\xBF][\x80-\xBF]",
    "^\xF4[\x80-\x8F][\x80-\xBF][\x80-\xBF]",
}

local function end_of_well_formed(bytes, first)
    for _, row in ipairs(WELL_FORMED) do
        local _, last = bytes:find(row, first)
        if last then
            return last
        end
    end
end

local function is_utf8(bytes)
    local last = 0
    while last and last < #bytes do
        last = end_of_well_formed(bytes, last + 1)
    end
    return last ~= nil
end

local function at_least(count)
    return function(bytes) return #bytes >= count end
end

local function exactly(count)
    return function(bytes) return #bytes == count end
end

local function has_ipv4_type(payload)
    return payload:byte(2) == IPV4
end

-- The checks of each payload, in the order of the reader: each is asked only where those before it hold.

local CONNECT_CHECKS = {
    { holds = at_least(2), refusal = "PacketDecodeTargetMemorySizeInvalid", wrong = "the payload has no connect type" },
    { holds = has_ipv4_type, refusal = "ConnectEventUnsupported", wrong = "the connect type is not 02 (IPv4)" },
    { holds = exactly(2 + 13), refusal = "ConnectEventDecodeError", wrong = "not exactly 13 bytes follow the type" },
}
local DISCONNECT_CHECKS = {
    { holds = exactly(1), refusal = "DisconnectEventDecodeError", wrong = "the payload is not exactly 1 byte" },
}
local DATA_CHECKS = {
    { holds = at_least(1), refusal = "PacketDecodeTargetMemorySizeInvalid", wrong = "the payload has no channel" },
}
local REQUEST_CHECKS = {
    { holds = is_utf8, refusal = "AtRequestEventDecodeError", wrong = "the text is not UTF-8" },
}

local field = {
    start = ProtoField.uint8("edm.start", "Start byte", base.HEX),
    length = ProtoField.uint16("edm.length", "Length", base.DEC, nil, 0x0FFF),
    payload = ProtoField.bytes("edm.payload", "Payload"),
    stop = ProtoField.uint8("edm.stop", "Stop byte", base.HEX),
    channel = ProtoField.uint8("edm.channel", "Channel"),
    connect_type = ProtoField.uint8("edm.connect_type", "Connect type", base.HEX, CONNECT_TYPES),
    protocol = ProtoField.uint8("edm.protocol", "Protocol"),
    remote_address = ProtoField.ipv4("edm.remote_address", "Remote address"),
    remote_port = ProtoField.uint16("edm.remote_port", "Remote port"),
    local_address = ProtoField.ipv4("edm.local_address", "Local address"),
    local_port = ProtoField.uint16("edm.local_port", "Local port"),
    data = ProtoField.bytes("edm.data", "Data"),
    text = ProtoField.string("edm.text", "Text"),
}

-- The fields of each payload, in order, and the word that each gives the line. One without a size takes what is left.

local CONNECT = {
    { field = field.channel, size = 1, word = decimal },
    { field = field.connect_type, size = 1, word = connect_type },
    { field = field.protocol, size = 1, word = decimal },
    { field = field.remote_address, size = 4, word = hex },
    { field = field.remote_port, size = 2, word = decimal },
    { field = field.local_address, size = 4, word = hex },
    { field = field.local_port, size = 2, word = decimal },
}
local DISCONNECT = { { field = field.channel, size = 1, word = decimal } }
local DATA = { { field = field.channel, size = 1, word = decimal }, { field = field.data, word = hex } }
local REQUEST = { { field = field.text, word = hex, encoding = ENC_UTF_8 } }
local AT_LINE = { { field = field.text, word = quoted, encoding = ENC_UTF_8 } }

-- A data command is read as a data event, so that name starts its line.
local PACKETS = {
    [0x0011] = { name = "ConnectEvent", checks = CONNECT_CHECKS, fields = CONNECT },
    [0x0021] = { name = "DisconnectEvent", checks = DISCONNECT_CHECKS, fields = DISCONNECT },
    [0x0031] = { name = "DataEvent", checks = DATA_CHECKS, fields = DATA },
    [0x0036] = { name = "DataCommand", read_as = "DataEvent", checks = DATA_CHECKS, fields = DATA },
    [0x0041] = { name = "ATEvent", checks = {}, fields = AT_LINE },
    [0x0044] = { name = "ATRequest", checks = REQUEST_CHECKS, fields = REQUEST },
    [0x0045] = { name = "ATResponse", checks = {}, fields = AT_LINE },
    [0x0056] = { name = "ResendConnectEvents", checks = {}, fields = {} },
    [0x0071] = { name = "StartEvent", checks = {}, fields = {} },
}

local names = {}
for identifier, packet in pairs(PACKETS) do
    names[identifier] = packet.name
end
field.identifier = ProtoField.uint16("edm.identifier", "Identifier and type", base.HEX, names)

local function packet_of(frame)
    return PACKETS[number_of(frame:sub(4, 5))]
end

local function is_framed(frame)
    return frame:byte(1) == 0xAA and frame:byte(-1) == 0x55 -- one byte cannot be both
end

local function has_its_length(frame)
    return number_of(frame:sub(2, 3)) % 0x1000 == #frame - SHORTEST + 2
end

local FRAME_CHECKS = {
    { holds = is_framed, refusal = "PacketDecodeFramingInvalid", wrong = "AA is not first or 55 is not last" },
    { holds = at_least(SHORTEST), refusal = "PacketDecodeTargetMemorySizeInvalid", wrong = "fewer than 6 bytes" },
    { holds = has_its_length, refusal = "PacketTypeDecodeLengthMismatch", wrong = "the length is not payload plus 2" },
    { holds = packet_of, refusal = "PayloadTypeUnknown", wrong = "the identifier is none of those that are read" },
}

-- A capture with such a record is refused. What is left of the frame is not checked: it could pass for a whole one.
local CUT = { refusal = "CaptureRecordInvalid", wrong = "the capture has only the start of the frame" }

local function first_broken(checks, bytes)
    for _, check in ipairs(checks) do
        if not check.holds(bytes) then
            return check
        end
    end
end

local function broken_check(frame)
    return first_broken(FRAME_CHECKS, frame) or first_broken(packet_of(frame).checks, frame:sub(PAYLOAD + 1, -2))
end

local edm = Proto("edm", "u-blox EDM frame")
local refused = ProtoExpert.new("edm.refused", "Refused frame", expert.group.MALFORMED, expert.severity.ERROR)
edm.fields = field
edm.experts = { refused }

-- Adds the fields of any frame of at least 6 bytes, accepted or not, and returns the item of its payload. A field
-- without bytes is not added, since Wireshark would show it as missing.
local function add_frame(item, tvb)
    local stop = tvb:len() - 1
    item:add(field.start, tvb(0, 1))
    item:add(field.length, tvb(1, 2))
    item:add(field.identifier, tvb(3, 2))
    local payload = PAYLOAD < stop and item:add(field.payload, tvb(PAYLOAD, stop - PAYLOAD))
    item:add(field.stop, tvb(stop, 1))
    return payload
end

-- Adds the fields of an accepted frame to the item of its payload, and returns the frame's line.
local function add_fields(payload, tvb, frame)
    local packet, place = packet_of(frame), PAYLOAD
    local line = packet.read_as or packet.name
    for _, row in ipairs(packet.fields) do
        local size = row.size or #frame - 1 - place
        if size > 0 then
            payload:add_packet_field(row.field, tvb(place, size), row.encoding or ENC_BIG_ENDIAN)
        end
        line = line .. " " .. row.word(frame:sub(place + 1, place + size))
        place = place + size
    end
    return line
end

local function refuse(item, broken)
    item:add_proto_expert_info(refused, broken.refusal .. ": " .. broken.wrong)
    return "refused " .. broken.refusal
end

local function add_judged(item, tvb)
    local frame = tvb:raw()
    local payload = #frame >= SHORTEST and add_frame(item, tvb)
    local broken = broken_check(frame)
    return broken and refuse(item, broken) or add_fields(payload, tvb, frame)
end

function edm.dissector(tvb, pinfo, tree)
    local item = tree:add(edm, tvb())
    local is_cut = tvb:len() < tvb:reported_len()
    local line = is_cut and refuse(item, CUT) or add_judged(item, tvb)
    item:append_text(", " .. line)
    pinfo.cols.protocol = "EDM"
    pinfo.cols.info = line
end

DissectorTable.get("wtap_encap"):add(wtap_encaps.USER0, edm)
