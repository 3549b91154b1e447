// The driver of a gateway with a W26 and a W36 radio, made to use every public item of the three Rust
// files. src/main.rs includes it twice, once below `use` lines of those files and once below those of
// the crate, which name three modules: `edm` and `w26` for the frames and the events of W26, and `w36`.

use std::collections::BTreeMap;
use std::fmt::{self, Write};
use std::mem::{offset_of, size_of};

use crate::inputs::Input;

/// What fits into one frame with data.
const MOST_DATA: usize = 4092;

/// A buffer that the UART fills or empties. The frame begins at byte 1, so that the 16-bit numbers
/// after its first byte have even addresses, as the three files need it.
#[repr(align(2))]
struct Room([u8; 1 + MOST_DATA + edm::EDM_PACKET_WIRE_OVERHEAD]);

impl Room {
    fn new() -> Self {
        Room([0; 1 + MOST_DATA + edm::EDM_PACKET_WIRE_OVERHEAD])
    }

    /// What the UART has received.
    fn received(&mut self, bytes: &[u8]) -> &[u8] {
        let frame = &mut self.0[1..1 + bytes.len()];
        frame.copy_from_slice(bytes);
        frame
    }
}

/// A peer of the W26 radio.
struct Socket {
    remote: String,
    link: &'static str,
}

/// What the gateway knows of its radios, and what it has logged.
#[derive(Default)]
pub struct Driver {
    log: String,
    sockets: BTreeMap<u16, Socket>,
    received: BTreeMap<u8, usize>,
    last_refusal: Option<edm::EdmPacketError>,
    sockets36: BTreeMap<u8, usize>,
}

impl Driver {
    /// Takes what the radios send and what the gateway wants to send, and returns the log.
    pub fn run(mut self, inputs: &[Input]) -> String {
        self.about();
        self.rehearse();
        self.rehearse_bluetooth();
        for input in inputs {
            match input {
                Input::Frame(bytes) => self.frame(bytes),
                Input::Line(bytes) => self.line(bytes),
                Input::Read(bytes) => self.read36(bytes),
                Input::Response(bytes) => self.responses(bytes),
                Input::Data { room, channel, data } => {
                    self.send(*room, &edm::EdmPacket::DataCommand { channel: *channel, data })
                }
                Input::Request { room, text } => self.send(*room, &edm::EdmPacket::ATRequest(text)),
                Input::Resend { room } => self.send(*room, &edm::EdmPacket::ResendConnectEvents),
                Input::Open { udp, address } => self.open(*udp, address),
            }
        }
        for (peer, socket) in &self.sockets {
            let _ = writeln!(self.log, "still open: {peer} {} {}", socket.link, socket.remote);
        }
        let _ = writeln!(self.log, "bytes by channel: {:?}", self.received);
        let _ = writeln!(self.log, "bytes by socket: {:?}", self.sockets36);
        self.log
    }

    fn say(&mut self, line: fmt::Arguments<'_>) {
        let _ = writeln!(self.log, "{line}");
    }

    // Frames of W26

    fn frame(&mut self, bytes: &[u8]) {
        let mut room = Room::new();
        match edm::EdmPacket::new(room.received(bytes)) {
            Ok(packet) => {
                self.last_refusal = None;
                self.packet(packet);
            }
            Err(error) => self.refused(error),
        }
    }

    fn packet(&mut self, packet: edm::EdmPacket<'_>) {
        // No event is a command, so none of them can be sent back.
        let back = packet.write(&mut Room::new().0[1..]);
        match packet {
            edm::EdmPacket::StartEvent => {
                self.say(format_args!("StartEvent: ask for the connections"));
                self.send(MOST_DATA, &edm::EdmPacket::ResendConnectEvents);
            }
            edm::EdmPacket::ConnectEvent { channel, event_type } => {
                self.connected(channel, event_type)
            }
            edm::EdmPacket::DisconnectEvent { channel } => {
                let bytes = self.received.remove(&channel);
                self.say(format_args!("DisconnectEvent {channel}: {bytes:?} bytes received"));
            }
            edm::EdmPacket::DataEvent { channel, data } => {
                *self.received.entry(channel).or_default() += data.len();
                self.say(format_args!("DataEvent {channel}: {} bytes, {data:?}", data.len()));
            }
            edm::EdmPacket::DataCommand { channel, data } => {
                self.say(format_args!("DataCommand {channel}: {data:?}"))
            }
            edm::EdmPacket::ATRequest(text) => self.say(format_args!("ATRequest {text:?}")),
            edm::EdmPacket::ATResponse(response) => self.response26(response),
            edm::EdmPacket::ATEvent(event) => self.event26(event),
            edm::EdmPacket::ResendConnectEvents => self.say(format_args!("ResendConnectEvents")),
        }
        self.say(format_args!("  sent back: {back:?}"));
    }

    fn connected(&mut self, channel: u8, event_type: edm::ConnectEventType) {
        let edm::ConnectEventType::ConnectEventIPv4(edm::ConnectEventIPv4 {
            protocol,
            remote_addr,
            remote_port,
            local_addr,
            local_port,
        }) = event_type;
        self.received.insert(channel, 0);
        self.say(format_args!(
            "ConnectEvent {channel}: protocol {protocol}, {remote_addr:?} {remote_port} to {local_addr:?} {local_port}"
        ));
    }

    /// A refusal is logged once, and then counted as long as it stays the same.
    fn refused(&mut self, error: edm::EdmPacketError) {
        let again = self.last_refusal == Some(error);
        self.last_refusal = Some(error);
        let advice = frame_advice(error);
        self.say(format_args!("refused {error:?}: {advice}{}", if again { ", again" } else { "" }));
    }

    /// Writes a frame into as much room as the UART has.
    fn send(&mut self, room: usize, packet: &edm::EdmPacket<'_>) {
        let mut out = Room::new();
        let buf = &mut out.0[1..];
        let room = room.min(buf.len());
        match packet.write(&mut buf[..room]) {
            Ok(length) => {
                let (head, tail) = (&buf[..length.min(12)], buf[length - 1]);
                self.say(format_args!("sent {length} of {room}: {head:02X?} .. {tail:02X}"));
            }
            Err(error) => self.say(format_args!("not sent, {error:?}: {}", frame_advice(error))),
        }
        assert!(buf[room..].iter().all(|byte| *byte == 0), "the rest of the buffer stays");
    }

    // Events and responses of W26

    /// A line outside of a frame, before the radio has changed to EDM. Refusals are counted as those of
    /// frames are.
    fn line(&mut self, bytes: &[u8]) {
        match event_of(bytes) {
            Ok(event) => self.event26(event),
            Err(error) => self.refused(error),
        }
    }

    fn response26(&mut self, response: w26::ATResponse<'_>) {
        match response {
            w26::ATResponse::Ok(text) => self.say(format_args!("W26 Ok {text:?}")),
            w26::ATResponse::Error => self.say(format_args!("W26 Error")),
            w26::ATResponse::Other(text) => self.say(format_args!("W26 Other {text:?}")),
        }
    }

    fn event26(&mut self, event: w26::ATEvent<'_>) {
        match event {
            w26::ATEvent::PeerConnectedIP {
                peer_handle,
                is_ipv6,
                protocol,
                local_address,
                local_port,
                remote_address,
                remote_port,
            } => {
                let link = profile_name(&protocol);
                let remote = format!("{remote_address} {remote_port}");
                self.say(format_args!(
                    "PeerConnectedIP {peer_handle}: {link}, IPv6 {is_ipv6}, {local_address} {local_port} to {remote}"
                ));
                self.sockets.insert(peer_handle, Socket { remote, link });
            }
            w26::ATEvent::PeerConnectedBluetooth { peer_handle, profile, address, frame_size } => {
                let remote = format!("{address} profile {profile}, frames of {frame_size}");
                self.say(format_args!("PeerConnectedBluetooth {peer_handle}: {remote}"));
                self.sockets.insert(peer_handle, Socket { remote, link: "Bluetooth" });
            }
            w26::ATEvent::PeerDisconnected { peer_handle } => {
                let known = self.sockets.remove(&peer_handle).is_some();
                self.say(format_args!("PeerDisconnected {peer_handle}: known {known}"));
            }
            other => {
                let text = network_text(&other).unwrap_or_else(|| bluetooth_text(&other));
                self.say(format_args!("{}: {text}", subject(&other)));
            }
        }
    }

    // Reads and responses of W36

    /// Binary data come first, since text is looked for in all of the read.
    fn read36(&mut self, bytes: &[u8]) {
        match w36::ATEvent::try_parse_binary(bytes) {
            Ok(Some(event)) => self.event36(event),
            Ok(None) => match w36::ATEvent::new(bytes) {
                Ok(event) => self.event36(event),
                Err(error) => self.refused36("text", error),
            },
            Err(error) => self.refused36("binary", error),
        }
    }

    fn event36(&mut self, event: w36::ATEvent<'_>) {
        match event {
            w36::ATEvent::SocketConnected { socket_id } => {
                self.sockets36.insert(socket_id, 0);
                self.say(format_args!("SocketConnected {socket_id}"));
            }
            w36::ATEvent::SocketClosed { socket_id } => {
                let bytes = self.sockets36.remove(&socket_id);
                self.say(format_args!("SocketClosed {socket_id}: {bytes:?} bytes received"));
            }
            w36::ATEvent::SocketDataBinary { socket_id, data } => {
                *self.sockets36.entry(socket_id).or_default() += data.len();
                self.say(format_args!("SocketDataBinary {socket_id}: {data:?}"));
            }
            w36::ATEvent::SocketDataBinaryFrom { socket_id, remote_ip, remote_port, data } => {
                *self.sockets36.entry(socket_id).or_default() += data.len();
                self.say(format_args!(
                    "SocketDataBinaryFrom {socket_id}: {remote_ip:?} {remote_port} {data:?}"
                ));
            }
            other => {
                let text = event36_text(&other);
                self.say(format_args!("{text}"));
            }
        }
    }

    fn refused36(&mut self, what: &str, error: w36::AtPacketError) {
        let kept = error;
        let advice = match error {
            w36::AtPacketError::Utf8DecodeFailed => "look at the wire",
            w36::AtPacketError::FramingDecodeFailed => "wait for the rest",
            w36::AtPacketError::TypeDecodeUnsupported => "no such peer",
            w36::AtPacketError::TypeDecodeParameterMissing => "ask for the state again",
            w36::AtPacketError::TypeDecodeParameterDataTypeInvalid => "look at the firmware",
            w36::AtPacketError::EventUnknown => "pass on",
        };
        let wait = kept == w36::AtPacketError::FramingDecodeFailed;
        self.say(format_args!("W36 {what} refused {kept:?}: {advice}, wait {wait}"));
    }

    /// A response is read alike by both radios' modules.
    fn responses(&mut self, bytes: &[u8]) {
        match w26::ATResponse::new(bytes) {
            Ok(response) => self.response26(response),
            Err(error) => self.refused(error.into()),
        }
        match w36::ATResponse::new(bytes) {
            Ok(w36::ATResponse::Ok(text)) => self.say(format_args!("W36 Ok {text:?}")),
            Ok(w36::ATResponse::Error) => self.say(format_args!("W36 Error")),
            Ok(w36::ATResponse::Other(text)) => self.say(format_args!("W36 Other {text:?}")),
            Err(error) => self.refused36("response", error),
        }
    }

    /// Opens a socket of W36.
    fn open(&mut self, udp: bool, address: &str) {
        let protocol = if udp { w36::SocketProtocol::UDP } else { w36::SocketProtocol::TCP };
        let number = protocol as u8;
        let binary = protocol == w36::SocketProtocol::UDP;
        self.say(format_args!("AT+USOCR={number} for {protocol:?} {address}, binary {binary}"));
    }
}
