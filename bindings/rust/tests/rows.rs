//! Every case of both radios, from its line to the event and back: the rows are taken apart and put
//! together as the archive fills and reads them.

use mirvoncle::w26x::at_protocol as w26;
use mirvoncle::w26x::edm_protocol::{EdmPacket, EdmPacketError};
use mirvoncle::w36x::at_protocol as w36;
use mirvoncle::{EventWriteError, Placed, Reason, RefusedAt, Why};

fn w26_lines() -> Vec<(&'static str, w26::ATEvent<'static>)> {
    use w26::ATEvent::*;
    use w26::{PeerConnectedProfile, WifiLinkDisconnectedReason};
    let peer = |is_ipv6, protocol| PeerConnectedIP {
        peer_handle: 1,
        is_ipv6,
        protocol,
        local_address: "a",
        local_port: 2,
        remote_address: "bc",
        remote_port: 3,
    };
    let down = |reason| WifiLinkDisconnected { conn_id: 1, reason };
    vec![
        ("+UUDPC:1,2,1,a,2,bc,3", peer(false, PeerConnectedProfile::TCP)),
        ("+UUDPC:1,2,2,a,2,bc,3", peer(false, PeerConnectedProfile::UDP)),
        ("+UUDPC:1,3,6,a,2,bc,3", peer(true, PeerConnectedProfile::MQTT)),
        ("+UUDPD:65535", PeerDisconnected { peer_handle: 65535 }),
        ("+UUWLE:1,a,2", WifiLinkConnected { conn_id: 1, bssid: "a", channel: 2 }),
        ("+UUWLD:1,0", down(WifiLinkDisconnectedReason::Unknown)),
        ("+UUWLD:1,1", down(WifiLinkDisconnectedReason::RemoteClose)),
        ("+UUWLD:1,2", down(WifiLinkDisconnectedReason::OutOfRange)),
        ("+UUWLD:1,3", down(WifiLinkDisconnectedReason::Roaming)),
        ("+UUWLD:1,4", down(WifiLinkDisconnectedReason::SecurityProblems)),
        ("+UUWLD:1,5", down(WifiLinkDisconnectedReason::NetworkDisabled)),
        ("+UUWAPU:1", WifiAccessPointUp { id: 1 }),
        ("+UUWAPD:1", WifiAccessPointDown { id: 1 }),
        ("+UUWAPSTAC:1,ä", WifiAccessPointStationConnected { id: 1, mac_addr: "ä" }),
        ("+UUWAPSTAC:1,", WifiAccessPointStationConnected { id: 1, mac_addr: "" }),
        ("+UUWAPSTAD:1", WifiAccessPointStationDisconnected { id: 1 }),
        ("+UUETHLU", EthernetLinkUp),
        ("+UUETHLD", EthernetLinkDown),
        ("+UUNU:1", NetworkUp { interface_id: 1 }),
        ("+UUND:1", NetworkDown { interface_id: 1 }),
        ("+UUNERR:1,2", NetworkError { interface_id: 1, code: 2 }),
    ]
}

fn bluetooth_lines() -> Vec<(&'static str, w26::ATEvent<'static>)> {
    use w26::ATEvent::*;
    let (bd_addr, conn_handle, char_handle, value_handle) = ("A0B1", 1, 2, 3);
    let peer =
        PeerConnectedBluetooth { peer_handle: 1, profile: 2, address: bd_addr, frame_size: 3 };
    let write = GATTRequestToWrite { conn_handle, char_handle, value: "FF", options: 255 };
    vec![
        ("+UUDATA:1,2", DataAvailable { peer: 1, length: 2 }),
        ("+UUBTB:A0B1,255", BondEvent { bd_addr, status: 255 }),
        ("+UUBTUC:A0B1,4294967295", UserConfirmation { bd_addr, value: u32::MAX }),
        ("+UUBTUPD:A0B1,123456", UserPasskeyDisplay { bd_addr, passkey: 123_456 }),
        ("+UUBTUPE:A0B1", UserPasskeyEntry { bd_addr }),
        ("+UUBTACLC:1,2,A0B1", ACLConnected { conn_handle, type_: 2, bd_addr }),
        ("+UUBTACLD:1", ACLDisconnected { conn_handle }),
        ("+UUBTGRR:1,2", GATTRequestToRead { conn_handle, char_handle }),
        ("+UUBTGRW:1,2,FF,255", write),
        ("+UUBTGIC:1,2", GATTIndicationConfirmation { conn_handle, char_handle }),
        ("+UUBTGN:1,3,FE", GATTNotification { conn_handle, value_handle, hex_data: "FE" }),
        ("+UUBTGI:1,3,FD", GATTIndication { conn_handle, value_handle, hex_data: "FD" }),
        ("+UUDPC:1,1,2,A0B1,3", peer),
    ]
}

fn w36_lines() -> Vec<(&'static str, w36::ATEvent<'static>)> {
    use w36::ATEvent::*;
    vec![
        ("+UESOC:255", SocketConnected { socket_id: 255 }),
        ("+UESOCL:1", SocketClosed { socket_id: 1 }),
        ("+UESODA:1,65535", SocketDataAvailable { socket_id: 1, length: 65535 }),
        ("+UEWLU:1,a,2", WifiLinkUp { wlan_handle: 1, bssid: "a", channel: 2 }),
        ("+UEWLD:1,2", WifiLinkDown { wlan_handle: 1, reason: 2 }),
        ("+UEWAPSA:ab", WifiAccessPointStationAssociated { mac_addr: "ab" }),
        ("+UEWAPSDA:", WifiAccessPointStationDisassociated { mac_addr: "" }),
        ("+UEWAPU", WifiAccessPointUp),
        ("+UEWAPD", WifiAccessPointDown),
        ("+UEWSNU", StationNetworkUp),
        ("+UEWSND", StationNetworkDown),
        ("+UEWAPNU", AccessPointNetworkUp),
        ("+UEWAPND", AccessPointNetworkDown),
    ]
}

/// The frame of a payload under 254 bytes.
fn framed(identifier: u8, payload: &[u8]) -> Vec<u8> {
    let head = [0xAA, 0, payload.len() as u8 + 2, 0, identifier];
    [&head[..], payload, &[0x55]].concat()
}

#[test]
fn w26_events_and_back() {
    for (text, event) in w26_lines().into_iter().chain(bluetooth_lines()) {
        let line = format!("\r\n{text}\r\n");
        let mut buf = [0; 64];
        let read = w26::ATEvent::read(line.as_bytes()).expect(text);
        assert_eq!(read.event.write_line(line.as_bytes(), &mut buf), Ok(line.len()), "{text}");
        assert_eq!(buf[..line.len()], *line.as_bytes(), "{text}");
        assert_eq!(read, Placed { event, past: line.len() }, "{text}");
        let frame = framed(0x41, line.as_bytes());
        assert_eq!(EdmPacket::new(&frame), Ok(EdmPacket::ATEvent(read.event)), "{text}");
    }
}

#[test]
fn w36_events_and_back() {
    for (text, event) in w36_lines() {
        let line = format!("\r\n{text}\r\n");
        let two = line.repeat(2);
        let mut buf = [0; 64];
        let read = w36::ATEvent::read(two.as_bytes()).expect(text);
        assert_eq!(read.event.write_line(two.as_bytes(), &mut buf), Ok(line.len()), "{text}");
        assert_eq!(buf[..line.len()], *line.as_bytes(), "{text}");
        assert_eq!(read, Placed { event, past: line.len() }, "{text}");
        assert_eq!(w36::ATEvent::walk(two.as_bytes()).filter(Result::is_ok).count(), 2, "{text}");
    }
}

#[test]
fn binary_events_and_back() {
    let from = w36::ATEvent::SocketDataBinaryFrom {
        socket_id: 1,
        remote_ip: "::1",
        remote_port: 65535,
        data: b"\x01\xFF",
    };
    for (line, event) in [
        (
            &b"\r\n+UESODB:2\x01\x00\x01\xFF"[..],
            w36::ATEvent::SocketDataBinary { socket_id: 2, data: b"\xFF" },
        ),
        (b"\r\n+UESODBF:1,::1,65535\x01\x00\x02\x01\xFF", from),
    ] {
        let mut buf = [0; 64];
        let more = [line, b"\r\n"].concat();
        let read = w36::ATEvent::read_binary(&more).expect("accepted").expect("binary");
        assert_eq!(read.event.write_line(&more, &mut buf), Ok(line.len()));
        assert_eq!(buf[..line.len()], *line);
        assert_eq!(read, Placed { event, past: line.len() });
    }
    assert_eq!(w36::ATEvent::read_binary(b"\r\n+UESOC:1\r\n"), Ok(None));
    assert_eq!(w36::ATEvent::try_parse_binary(b""), Ok(None));
}

#[test]
fn a_refused_line_changes_no_byte() {
    let source = *b"ab,cd";
    let text = |part| std::str::from_utf8(part).expect("ASCII");
    let station = |part| w26::ATEvent::WifiAccessPointStationConnected { id: 1, mac_addr: part };
    let mut buf = [7; 32];
    for (event, from) in [
        (station(text(&source)), &source[..]),
        (station(text(&source[..2])), &source[1..]),
        (station(text(&source[3..])), &source[..4]),
        (station("elsewhere"), &source),
        (w26::ATEvent::NFCReadEvent, &source),
        (w26::ATEvent::RemoteServiceDisconnected { handle: 1 }, &source),
    ] {
        assert_eq!(event.write_line(from, &mut buf), Err(EventWriteError::FieldNotWritable));
    }
    let event = station(text(&source[3..]));
    let short = event.write_line(&source, &mut buf[..18]);
    assert_eq!(short, Err(EventWriteError::EventBufferTooSmall));
    assert_eq!(buf, [7; 32]);
    assert_eq!(event.write_line(&source, &mut buf), Ok(19));
    assert_eq!(buf[..19], *b"\r\n+UUWAPSTAC:1,cd\r\n");
    assert_eq!(station("").write_line(&source, &mut buf), Ok(17), "an empty text has no place");
}

#[test]
fn the_walk_ends_and_stays_there() {
    let mut walk = w36::ATEvent::walk(b"\r\n+UESOC:1\r\n\r\n+UESODA:1\r\n\r\n+UESOC:2\r\n");
    assert!(walk.next().is_some_and(|item| item.is_ok()));
    let refused = RefusedAt { why: Why::Missing { field: 2 }, at: 12 };
    assert_eq!(walk.next(), Some(Err(refused)));
    assert_eq!(walk.next(), None);
    assert_eq!(walk.next(), None);
    assert_eq!(w36::ATEvent::walk(b"").next(), None);
}

#[test]
fn a_refusal_says_which_field_and_why() {
    let large = Why::Invalid { field: 1, reason: Reason::Large };
    assert_eq!(w26::ATEvent::read(b"\r\n+UUNU:65536\r\n"), Err(large));
    assert_eq!(EdmPacket::read(&framed(0x41, b"\r\n+UUNU:65536\r\n")), Err(large));
    let list = Why::Invalid { field: 2, reason: Reason::List };
    assert_eq!(w26::ATEvent::read(b"\r\n+UUWLD:0,6\r\n"), Err(list));
    assert_eq!(w26::ATEvent::read(b"\r\n+UUNERR:0\r\n"), Err(Why::Missing { field: 2 }));
}

/// Where the Rust that was replaced panics.
#[test]
fn short_inputs_are_refused() {
    assert_eq!(w26::ATEvent::new(b""), Err(w26::AtPacketError::FramingDecodeFailed));
    assert_eq!(w36::ATEvent::new(b"\r"), Err(w36::AtPacketError::FramingDecodeFailed));
    assert_eq!(
        w26::ATEvent::new(b"\r\n+UUNU\r\n"),
        Err(w26::AtPacketError::TypeDecodeParameterMissing)
    );
    let short = EdmPacket::ResendConnectEvents.write(&mut []);
    assert_eq!(short, Err(EdmPacketError::PacketDecodeTargetMemorySizeInvalid));
}
