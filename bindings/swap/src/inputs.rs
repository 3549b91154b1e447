//! The recorded inputs: each case of each enum that a reader of both returns, and each refusal. None
//! is among them at which the three files panic, and none that docs/DIFFERENCES.md lists.

pub enum Input {
    /// A frame from the W26 radio.
    Frame(Vec<u8>),
    /// A W26 line outside of a frame.
    Line(&'static [u8]),
    /// What one read of the W36 radio gives.
    Read(&'static [u8]),
    /// A response, of either radio.
    Response(&'static [u8]),
    /// Commands for the W26 radio, and the room that the UART has.
    Data {
        room: usize,
        channel: u8,
        data: &'static [u8],
    },
    Request {
        room: usize,
        text: &'static str,
    },
    Resend {
        room: usize,
    },
    /// A socket of the W36 radio.
    Open {
        udp: bool,
        address: &'static str,
    },
}

/// Every line stands in a frame too, and so does every response.
pub fn all() -> Vec<Input> {
    let mut inputs = Vec::new();
    inputs.extend(FRAMES.iter().map(|bytes| Input::Frame(bytes.to_vec())));
    inputs.extend(PACKETS.iter().map(|(id, payload)| Input::Frame(frame(*id, payload))));
    inputs.push(Input::Frame(frame(0x31, &[7; 4093])));
    for line in LINES {
        inputs.push(Input::Line(line));
        inputs.push(Input::Frame(frame(0x41, line)));
    }
    inputs.extend(READS.iter().map(|read| Input::Read(read)));
    for response in RESPONSES {
        inputs.push(Input::Response(response));
        inputs.push(Input::Frame(frame(0x45, response)));
    }
    sends(&mut inputs);
    inputs
}

fn frame(identifier: u16, payload: &[u8]) -> Vec<u8> {
    let length = payload.len() as u16 + 2;
    let mut frame = vec![0xAA];
    frame.extend(length.to_be_bytes());
    frame.extend(identifier.to_be_bytes());
    frame.extend(payload);
    frame.push(0x55);
    frame
}

fn sends(inputs: &mut Vec<Input>) {
    for room in [2, 5, 6, 7, 8, 9, 10, 4099, 4100] {
        inputs.push(Input::Resend { room });
        inputs.push(Input::Request { room, text: "" });
        inputs.push(Input::Request { room, text: "AT" });
        inputs.push(Input::Data { room, channel: 3, data: b"" });
        inputs.push(Input::Data { room, channel: 3, data: b"AB" });
        inputs.push(Input::Data { room, channel: 255, data: &[0x41; 4092] });
    }
    inputs.push(Input::Request { room: 64, text: "AT+UDCP=tcp://gr\u{fc}n:80" });
    inputs.push(Input::Open { udp: false, address: "10.0.0.1:80" });
    inputs.push(Input::Open { udp: true, address: "10.0.0.1:53" });
}

const FRAMES: &[&[u8]] = &[
    b"\xAA\x00\x02\x00\x71\x55",
    b"\xAA\xF0\x02\x00\x71\x55",
    b"\xAA\x00\x04\x00\x36\x03\x41\x55",
    b"",
    b"\xAA",
    b"\xAB\x00\x02\x00\x71\x55",
    b"\xAA\x00\x02\x00\x71\x54",
    b"\xAA\x55",
    b"\xAA\x55",
    b"\xAA\x00\x02\x00\x55",
    b"\xAA\x00\x05\x00\x31\x01\x07\x55",
    b"\xAA\x00\x03\x00\x31\x01\x07\x55",
];

const PACKETS: &[(u16, &[u8])] = &[
    (0x11, b"\x03\x02\x06\xC0\xA8\x00\x01\x1F\x90\x0A\x00\x00\x02\x04\xD2"),
    (0x11, b""),
    (0x11, b"\x03"),
    (0x11, b"\x03\x01\x00\x01\x02\x03\x04\x05\x06\x00\x17"),
    (0x11, b"\x03\x02"),
    (0x11, b"\x03\x02\x06\xC0\xA8\x00\x01\x1F\x90\x0A\x00\x00\x02\x04\xD2\x00"),
    (0x31, b"\x03hello\r\n"),
    (0x31, b"\x03"),
    (0x31, b""),
    (0x36, b"\x04\x00\x01\xFF"),
    (0x36, b""),
    (0x21, b"\x03"),
    (0x21, b""),
    (0x21, b"\x03\x04"),
    (0x44, b"AT\r"),
    (0x44, b""),
    (0x44, b"gr\xC3\xBCn\r"),
    (0x44, b"gr\xFCn\r"),
    (0x56, b""),
    (0x71, b"more"),
    (0x00, b""),
    (0x37, b"\x03"),
    (0x141, b"\r\n+UUNU:1\r\n"),
];

const LINES: &[&[u8]] = &[
    b"\r\n+UUDPC:1,2,1,192.168.0.2,4000,10.0.0.1,80\r\n",
    b"\r\n+UUDPC:2,2,2,192.168.0.2,4001,10.0.0.1,53\r\n",
    b"\r\n+UUDPC:65535,3,6,::1,0,::2,+01883,more\r\n",
    b"\r\n+UUDPC:4,2,1,,0,,0\r\n",
    b"\r\n+UUDPC:1,4,1,a,1,b,2\r\n",
    b"\r\n+UUDPC:1,02,1,a,1,b,2\r\n",
    b"\r\n+UUDPC:1,\r\n",
    b"\r\n+UUDPC:1\r\n",
    b"\r\n+UUDPC:x,4\r\n",
    b"\r\n+UUDPC:1,2,3,a,1,b,2\r\n",
    b"\r\n+UUDPC:1,2,256,a,1,b,2\r\n",
    b"\r\n+UUDPC:1,2\r\n",
    b"\r\n+UUDPC:1,2,1\r\n",
    b"\r\n+UUDPC:1,2,1,a\r\n",
    b"\r\n+UUDPC:1,2,1,a,65536,b,2\r\n",
    b"\r\n+UUDPC:1,2,1,a,1\r\n",
    b"\r\n+UUDPC:1,2,1,a,1,b\r\n",
    b"\r\n+UUDPC:1,2,1,a,1,b,\r\n",
    b"\r\n+UUDPD:+007\r\n",
    b"\r\n+UUDPD:65535\r\n",
    b"\r\n+UUDPD:65536\r\n",
    b"\r\n+UUDPD:-0\r\n",
    b"\r\n+UUDPD:\r\n",
    b"\r\n+UUWLE:0,A0B1C2D3E4F5,6\r\n",
    b"\r\n+UUWLE:0,gr\xC3\xBCn,165\r\n",
    b"\r\n+UUWLE:0\r\n",
    b"\r\n+UUWLE:0,a,b\r\n",
    b"\r\n+UUWLD:0,0\r\n",
    b"\r\n+UUWLD:0,1\r\n",
    b"\r\n+UUWLD:0,2\r\n",
    b"\r\n+UUWLD:0,3\r\n",
    b"\r\n+UUWLD:0,4\r\n",
    b"\r\n+UUWLD:0,5\r\n",
    b"\r\n+UUWLD:0,6\r\n",
    b"\r\n+UUWAPU:1\r\n",
    b"\r\n+UUWAPD:1\r\n",
    b"\r\n+UUWAPSTAC:0,AB\r\n\r\n+UUNU:1\r\n",
    b"\r\n+UUWAPSTAC:0,\r\n",
    b"\r\n+UUWAPSTAC:0\r\n",
    b"\r\n+UUWAPSTAD:2\r\n",
    b"\r\n+UUETHLU:\r\n",
    b"\r\n+UUETHLD:\r\n",
    b"\r\n+UUNU:1\r\n",
    b"\r\n+UUND:1\r\n",
    b"xy+UUNU:2\r\n",
    b"\r\n+UUFOO:1\r\n",
    b"\r\n+uunu:1\r\n",
    b"\r\n:\r\n",
    b"\r\n+UUNU:1",
    b"\r\n+UUNU:1\n",
    b"\r\n",
    b"\r\n+UUNU:\xFF\r\n",
];

const READS: &[&[u8]] = &[
    b"\r\n+UESOC:1\r\n",
    b"\r\n+UESOC:255\r\n",
    b"\r\n+UESOC:256\r\n",
    b"\r\n+UESOC:\r\n",
    b"\r\n+UESODA:1,1024\r\n",
    b"\r\n+UESODA:1\r\n",
    b"\r\n+UESODA:1,x\r\n",
    b"\r\n+UESODB:1\x01\x00\x03abc",
    b"\r\n+UESODB:1\x01\x00\x02\x01\xFF\r\n+UESOC:2\r\n",
    b"\r\n+UESODB:1\x01\x00\x00",
    b"\r\n+UESODB:1,2\x01\x00\x00",
    b"\r\n+UESODB:\xFF\x01\x00\x00",
    b"\r\n+UESODB:1",
    b"\r\n+UESODB:1\x01\x00",
    b"\r\n+UESODB:1\x01\x00\x02a",
    b"\r\n+UESODBF:2,192.168.0.9,5353\x01\x00\x02\x00\x01",
    b"\r\n+UESODBF:2,::1,5353,\x01\x00\x00",
    b"\r\n+UESODBF:2,::1\x01\x00\x00",
    b"\r\n+UESODBF:2\x01\x00\x00",
    b"\r\n+UESODBF:\x01\x00\x00",
    b"\r\n+UESOCL:1\r\n",
    b"\r\n+UEWLU:0,A0B1C2D3E4F5,36\r\n",
    b"\r\n+UEWLU:0\r\n",
    b"\r\n+UEWLD:0,3\r\n",
    b"\r\n+UEWLD:0,65535\r\n",
    b"\r\n+UEWAPU\r\n",
    b"\r\n+UEWAPD:\r\n",
    b"\r\n+UEWAPSA:A0B1\r\n",
    b"\r\n+UEWAPSA:\r\n",
    b"\r\n+UEWAPSDA:A0B1,more\r\n",
    b"\r\n+UEWSNU\r\n\r\n+UESOC:1\r\n",
    b"\r\n+UEWSND\r\n",
    b"\r\n+UEWAPNU\r\n",
    b"\r\n+UEWAPND\r\n",
    b"\r\n+UEFOO:1\r\n",
    b"\r\n\r\n",
    b"\r\n",
    b"\r\n+UEWSNU",
    b"\r\n+UEWSNU\r\n\xFF",
];

const RESPONSES: &[&[u8]] = &[
    b"\r\nOK\r\n",
    b"AT\r\r\nOK\r\n",
    b"\r\nERROR\r\n",
    b"\r\n+A\r\nOK\r\n",
    b"\r\n+A\r\n+B\r\nOK\r\n",
    b"\r\n+A\r\nERROR\r\n",
    b"\r\n\r\n",
    b"\r\ngr\xC3\xBCn\r\n",
    b"OK",
    b"\r\nOK",
    b"\r\n",
    b"",
    b"\r\n\xFF\r\nOK\r\n",
];

/// What the log must have in it: the cases that readers return, and the refusals.
pub const REACHED: &[&str] = &[
    "StartEvent:",
    "ConnectEvent 3:",
    "DisconnectEvent 3:",
    "DataEvent 3:",
    "ATRequest ",
    "ResendConnectEvents",
    "W26 Ok \"\"",
    "W26 Ok \"+A\"",
    "W26 Error",
    "W26 Other",
    "W36 Ok",
    "W36 Error",
    "W36 Other",
    "PeerConnectedIP 1: TCP, IPv6 false",
    "PeerConnectedIP 2: UDP",
    "PeerConnectedIP 65535: MQTT, IPv6 true",
    "PeerDisconnected",
    "WifiLinkConnected",
    "WifiLinkDisconnected 0: unknown",
    "WifiLinkDisconnected 0: closed",
    "WifiLinkDisconnected 0: out of range",
    "WifiLinkDisconnected 0: roaming",
    "WifiLinkDisconnected 0: security",
    "WifiLinkDisconnected 0: disabled",
    "WifiAccessPointUp 1",
    "WifiAccessPointDown 1",
    "WifiAccessPointStationConnected",
    "WifiAccessPointStationDisconnected",
    "EthernetLinkUp",
    "EthernetLinkDown",
    "NetworkUp 1",
    "NetworkDown 1",
    "SocketConnected",
    "SocketClosed",
    "SocketDataAvailable",
    "SocketDataBinary 1",
    "SocketDataBinaryFrom 2",
    "WifiLinkUp",
    "WifiLinkDown",
    "WifiAccessPointUp, W36",
    "WifiAccessPointDown, W36",
    "WifiAccessPointStationAssociated",
    "WifiAccessPointStationDisassociated",
    "StationNetworkUp",
    "StationNetworkDown",
    "AccessPointNetworkUp",
    "AccessPointNetworkDown",
    "refused PacketDecodeFramingInvalid",
    "refused PacketDecodeTargetMemorySizeInvalid",
    "refused PacketTypeDecodeLengthMismatch",
    "refused PayloadTypeUnknown",
    "refused ConnectEventUnsupported",
    "refused ConnectEventDecodeError",
    "refused DisconnectEventDecodeError",
    "refused AtRequestEventDecodeError",
    "refused AtPacketError(Utf8DecodeFailed)",
    "refused AtPacketError(FramingDecodeFailed)",
    "refused AtPacketError(TypeDecodeUnsupported)",
    "refused AtPacketError(TypeDecodeParameterMissing)",
    "refused AtPacketError(TypeDecodeParameterDataTypeInvalid)",
    "refused AtPacketError(EventUnknown)",
    "not sent, PacketDecodeTargetMemorySizeInvalid",
    "not sent, PacketEncodePayloadSizeInvalid",
    "sent back: Err(PacketEncodeTypeUnknown)",
    "W36 text refused Utf8DecodeFailed",
    "W36 text refused FramingDecodeFailed",
    "W36 text refused TypeDecodeParameterMissing",
    "W36 text refused TypeDecodeParameterDataTypeInvalid",
    "W36 text refused EventUnknown",
    "W36 binary refused Utf8DecodeFailed",
    "W36 binary refused FramingDecodeFailed",
    "W36 binary refused TypeDecodeParameterMissing",
    "W36 binary refused TypeDecodeParameterDataTypeInvalid",
    "W36 response refused Utf8DecodeFailed",
    "W36 response refused FramingDecodeFailed",
];
