// The driver's second file: what it says of events and refusals, and a rehearsal of what no radio
// sends yet. It is included below the same `use` lines.

/// A W26 event, with the refusal that a frame would have.
fn event_of(line: &[u8]) -> Result<w26::ATEvent<'_>, edm::EdmPacketError> {
    Ok(w26::ATEvent::new(line)?)
}

fn frame_advice(error: edm::EdmPacketError) -> &'static str {
    match error {
        edm::EdmPacketError::PacketTypeDecodingFailed => "no radio does this",
        edm::EdmPacketError::PacketTypeDecodeLengthMismatch => "bytes were lost",
        edm::EdmPacketError::PacketDecodeFramingInvalid => "look for AA",
        edm::EdmPacketError::PacketDecodeTargetMemorySizeInvalid => "too short",
        edm::EdmPacketError::PacketEncodePayloadSizeInvalid => "send less",
        edm::EdmPacketError::PacketEncodeTypeUnknown => "not to be sent",
        edm::EdmPacketError::ConnectEventDecodeError => "look at the firmware",
        edm::EdmPacketError::ConnectEventUnsupported => "IPv4 only",
        edm::EdmPacketError::DisconnectEventDecodeError => "one channel only",
        edm::EdmPacketError::AtRequestEventDecodeError => "the request is no text",
        edm::EdmPacketError::AtPacketError(error) => line_advice(error),
        edm::EdmPacketError::PayloadTypeUnknown => "pass on",
    }
}

fn line_advice(error: w26::AtPacketError) -> &'static str {
    match error {
        w26::AtPacketError::Utf8DecodeFailed => "look at the wire",
        w26::AtPacketError::FramingDecodeFailed => "wait for the rest",
        w26::AtPacketError::TypeDecodeUnsupported => "no such peer",
        w26::AtPacketError::TypeDecodeParameterMissing => "ask for the state again",
        w26::AtPacketError::TypeDecodeParameterDataTypeInvalid => "look at the firmware",
        w26::AtPacketError::EventUnknown => "pass on",
    }
}

fn profile_name(profile: &w26::PeerConnectedProfile) -> &'static str {
    match profile {
        w26::PeerConnectedProfile::TCP => "TCP",
        w26::PeerConnectedProfile::UDP => "UDP",
        w26::PeerConnectedProfile::MQTT => "MQTT",
    }
}

fn reason_name(reason: &w26::WifiLinkDisconnectedReason) -> &'static str {
    match reason {
        w26::WifiLinkDisconnectedReason::Unknown => "unknown",
        w26::WifiLinkDisconnectedReason::RemoteClose => "closed by the access point",
        w26::WifiLinkDisconnectedReason::OutOfRange => "out of range",
        w26::WifiLinkDisconnectedReason::Roaming => "roaming",
        w26::WifiLinkDisconnectedReason::SecurityProblems => "security",
        w26::WifiLinkDisconnectedReason::NetworkDisabled => "disabled",
    }
}

/// What a W26 event is about. Every case is named, so that a further one does not compile.
fn subject(event: &w26::ATEvent<'_>) -> &'static str {
    match event {
        w26::ATEvent::DataAvailable { .. }
        | w26::ATEvent::PeerConnectedBluetooth { .. }
        | w26::ATEvent::PeerConnectedIP { .. }
        | w26::ATEvent::PeerDisconnected { .. } => "peer",
        w26::ATEvent::BondEvent { .. }
        | w26::ATEvent::UserConfirmation { .. }
        | w26::ATEvent::UserPasskeyDisplay { .. }
        | w26::ATEvent::UserPasskeyEntry { .. }
        | w26::ATEvent::ACLConnected { .. }
        | w26::ATEvent::ACLDisconnected { .. }
        | w26::ATEvent::GATTRequestToRead { .. }
        | w26::ATEvent::GATTRequestToWrite { .. }
        | w26::ATEvent::GATTIndicationConfirmation { .. }
        | w26::ATEvent::GATTNotification { .. }
        | w26::ATEvent::GATTIndication { .. } => "Bluetooth",
        w26::ATEvent::WifiLinkConnected { .. }
        | w26::ATEvent::WifiLinkDisconnected { .. }
        | w26::ATEvent::WifiAccessPointUp { .. }
        | w26::ATEvent::WifiAccessPointDown { .. }
        | w26::ATEvent::WifiAccessPointStationConnected { .. }
        | w26::ATEvent::WifiAccessPointStationDisconnected { .. } => "Wi-Fi",
        w26::ATEvent::EthernetLinkUp | w26::ATEvent::EthernetLinkDown => "Ethernet",
        w26::ATEvent::NetworkUp { .. }
        | w26::ATEvent::NetworkDown { .. }
        | w26::ATEvent::NetworkError { .. } => "network",
        w26::ATEvent::RemoteServiceConnected { .. }
        | w26::ATEvent::RemoteServiceDisconnected { .. }
        | w26::ATEvent::HTTPResponseEvent { .. }
        | w26::ATEvent::NFCReadEvent => "service",
    }
}

/// The W26 events of networks; the peers' events are the driver's own.
fn network_text(event: &w26::ATEvent<'_>) -> Option<String> {
    Some(match event {
        w26::ATEvent::WifiLinkConnected { conn_id, bssid, channel } => {
            format!("WifiLinkConnected {conn_id}: {bssid:?}, channel {channel}")
        }
        w26::ATEvent::WifiLinkDisconnected { conn_id, reason } => {
            format!("WifiLinkDisconnected {conn_id}: {}", reason_name(reason))
        }
        w26::ATEvent::WifiAccessPointUp { id } => format!("WifiAccessPointUp {id}"),
        w26::ATEvent::WifiAccessPointDown { id } => format!("WifiAccessPointDown {id}"),
        w26::ATEvent::WifiAccessPointStationConnected { id, mac_addr } => {
            format!("WifiAccessPointStationConnected {id}: {mac_addr:?}")
        }
        w26::ATEvent::WifiAccessPointStationDisconnected { id } => {
            format!("WifiAccessPointStationDisconnected {id}")
        }
        w26::ATEvent::EthernetLinkUp => "EthernetLinkUp".to_string(),
        w26::ATEvent::EthernetLinkDown => "EthernetLinkDown".to_string(),
        w26::ATEvent::RemoteServiceConnected { handle, local_url, remote_url } => {
            format!("RemoteServiceConnected {handle}: {local_url} to {remote_url}")
        }
        w26::ATEvent::RemoteServiceDisconnected { handle } => {
            format!("RemoteServiceDisconnected {handle}")
        }
        w26::ATEvent::NetworkUp { interface_id } => format!("NetworkUp {interface_id}"),
        w26::ATEvent::NetworkDown { interface_id } => format!("NetworkDown {interface_id}"),
        w26::ATEvent::NetworkError { interface_id, code } => {
            format!("NetworkError {interface_id}: {code}")
        }
        _ => return None,
    })
}

/// The rest of the W26 events, most of them of Bluetooth.
fn bluetooth_text(event: &w26::ATEvent<'_>) -> String {
    match event {
        w26::ATEvent::DataAvailable { peer, length } => format!("DataAvailable {peer}: {length}"),
        w26::ATEvent::BondEvent { bd_addr, status } => format!("BondEvent {bd_addr}: {status}"),
        w26::ATEvent::UserConfirmation { bd_addr, value } => {
            format!("UserConfirmation {bd_addr}: {value}")
        }
        w26::ATEvent::UserPasskeyDisplay { bd_addr, passkey } => {
            format!("UserPasskeyDisplay {bd_addr}: {passkey}")
        }
        w26::ATEvent::UserPasskeyEntry { bd_addr } => format!("UserPasskeyEntry {bd_addr}"),
        // The crate's case has one field more.
        w26::ATEvent::ACLConnected { conn_handle, type_, .. } => {
            format!("ACLConnected {conn_handle}: {type_}")
        }
        w26::ATEvent::ACLDisconnected { conn_handle } => format!("ACLDisconnected {conn_handle}"),
        other => gatt_text(other),
    }
}

fn gatt_text(event: &w26::ATEvent<'_>) -> String {
    match event {
        w26::ATEvent::GATTRequestToRead { conn_handle, char_handle } => {
            format!("GATTRequestToRead {conn_handle}: {char_handle}")
        }
        w26::ATEvent::GATTRequestToWrite { conn_handle, char_handle, value, options } => {
            format!("GATTRequestToWrite {conn_handle}: {char_handle} {value} {options}")
        }
        w26::ATEvent::GATTIndicationConfirmation { conn_handle, char_handle } => {
            format!("GATTIndicationConfirmation {conn_handle}: {char_handle}")
        }
        w26::ATEvent::GATTNotification { conn_handle, value_handle, hex_data } => {
            format!("GATTNotification {conn_handle}: {value_handle} {hex_data}")
        }
        w26::ATEvent::GATTIndication { conn_handle, value_handle, hex_data } => {
            format!("GATTIndication {conn_handle}: {value_handle} {hex_data}")
        }
        w26::ATEvent::HTTPResponseEvent {
            peer_handle,
            status_code,
            length,
            content_type,
            content,
        } => format!(
            "HTTPResponseEvent {peer_handle}: {status_code} {length} {content_type} {content:?}"
        ),
        w26::ATEvent::NFCReadEvent => "NFCReadEvent".to_string(),
        _ => "told elsewhere".to_string(),
    }
}

/// The W36 events without data.
fn event36_text(event: &w36::ATEvent<'_>) -> String {
    match event {
        w36::ATEvent::SocketDataAvailable { socket_id, length } => {
            format!("SocketDataAvailable {socket_id}: {length}")
        }
        w36::ATEvent::WifiLinkUp { wlan_handle, bssid, channel } => {
            format!("WifiLinkUp {wlan_handle}: {bssid:?}, channel {channel}")
        }
        w36::ATEvent::WifiLinkDown { wlan_handle, reason } => {
            format!("WifiLinkDown {wlan_handle}: {reason}")
        }
        w36::ATEvent::WifiAccessPointUp => "WifiAccessPointUp, W36".to_string(),
        w36::ATEvent::WifiAccessPointDown => "WifiAccessPointDown, W36".to_string(),
        w36::ATEvent::WifiAccessPointStationAssociated { mac_addr } => {
            format!("WifiAccessPointStationAssociated {mac_addr:?}")
        }
        w36::ATEvent::WifiAccessPointStationDisassociated { mac_addr } => {
            format!("WifiAccessPointStationDisassociated {mac_addr:?}")
        }
        w36::ATEvent::StationNetworkUp => "StationNetworkUp".to_string(),
        w36::ATEvent::StationNetworkDown => "StationNetworkDown".to_string(),
        w36::ATEvent::AccessPointNetworkUp => "AccessPointNetworkUp".to_string(),
        w36::ATEvent::AccessPointNetworkDown => "AccessPointNetworkDown".to_string(),
        w36::ATEvent::SocketConnected { .. }
        | w36::ATEvent::SocketClosed { .. }
        | w36::ATEvent::SocketDataBinary { .. }
        | w36::ATEvent::SocketDataBinaryFrom { .. } => "told elsewhere".to_string(),
    }
}

impl Driver {
    /// What the driver is built with: numbers of the enums, layouts of the structs.
    fn about(&mut self) {
        for number in 0..=7 {
            let profile = w26::PeerConnectedProfile::try_from(number);
            let profile = profile.as_ref().map(profile_name);
            let reason = w26::WifiLinkDisconnectedReason::try_from(number);
            let reason = reason.as_ref().map(reason_name);
            self.say(format_args!("{number} is protocol {profile:?}, reason {reason:?}"));
        }
        let mqtt = w26::PeerConnectedProfile::MQTT as u8;
        let disabled = w26::WifiLinkDisconnectedReason::NetworkDisabled as u8;
        self.say(format_args!("MQTT is case {mqtt}, NetworkDisabled case {disabled}"));
        self.say(format_args!("a frame needs up to {} bytes more", edm::EDM_PACKET_WIRE_OVERHEAD));
        let port = offset_of!(edm::ConnectEventIPv4, local_port);
        let size = size_of::<edm::ConnectEventIPv4>();
        self.say(format_args!("IPv4 port at {port} of {size}"));
        let edm::ConnectEventBluetooth { profile, bd_address, frame_size } =
            edm::ConnectEventBluetooth { profile: 0, bd_address: [1; 6], frame_size: 23 };
        let size = size_of::<edm::ConnectEventBluetooth>();
        self.say(format_args!("probe {profile} {bd_address:?} {frame_size}, {size}"));
        let end = edm::ConnectEventIPv6 {
            protocol: 1,
            remote_addr: [0xFE; 16],
            remote_port: 80,
            local_addr: [0xFD; 16],
            local_port: 4000,
        };
        let size = size_of::<edm::ConnectEventIPv6>();
        let edm::ConnectEventIPv6 { protocol, remote_port, local_port, .. } = end;
        self.say(format_args!("IPv6 {protocol} {remote_port} {local_port}, {size}"));
        self.say(format_args!("{:?} {:?}", end.remote_addr, end.local_addr));
    }

    /// Cases that no line gives from both: the log must be able to tell them all the same.
    fn rehearse(&mut self) {
        let events = [
            w26::ATEvent::RemoteServiceConnected { handle: 1, local_url: "a", remote_url: "b" },
            w26::ATEvent::RemoteServiceDisconnected { handle: 1 },
            w26::ATEvent::NetworkError { interface_id: 0, code: 1 },
            w26::ATEvent::HTTPResponseEvent {
                peer_handle: 2,
                status_code: 404,
                length: 1,
                content_type: "text/plain",
                content: b"-",
            },
            w26::ATEvent::NFCReadEvent,
        ];
        for event in events {
            self.event26(event);
        }
        self.refused(edm::EdmPacketError::PacketTypeDecodingFailed);
        self.refused36("text", w36::AtPacketError::TypeDecodeUnsupported);
        self.packet(edm::EdmPacket::DataCommand { channel: 1, data: b"A" });
    }

    fn rehearse_bluetooth(&mut self) {
        let (bd_addr, conn_handle, char_handle, value_handle) = ("A0B1", 1, 2, 3);
        let events = [
            w26::ATEvent::DataAvailable { peer: 1, length: 2 },
            w26::ATEvent::PeerConnectedBluetooth {
                peer_handle: 9,
                profile: 0,
                address: bd_addr,
                frame_size: 64,
            },
            w26::ATEvent::BondEvent { bd_addr, status: 0 },
            w26::ATEvent::UserConfirmation { bd_addr, value: 123_456 },
            w26::ATEvent::UserPasskeyDisplay { bd_addr, passkey: 654_321 },
            w26::ATEvent::UserPasskeyEntry { bd_addr },
            w26::ATEvent::ACLDisconnected { conn_handle },
            w26::ATEvent::GATTRequestToRead { conn_handle, char_handle },
            w26::ATEvent::GATTRequestToWrite { conn_handle, char_handle, value: "01", options: 0 },
            w26::ATEvent::GATTIndicationConfirmation { conn_handle, char_handle },
            w26::ATEvent::GATTNotification { conn_handle, value_handle, hex_data: "02" },
            w26::ATEvent::GATTIndication { conn_handle, value_handle, hex_data: "03" },
        ];
        for event in events {
            self.event26(event);
        }
    }
}
