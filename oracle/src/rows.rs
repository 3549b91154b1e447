//! An event as a row: the Rust's name for it, its name in a line, and its values in order. Printing,
//! the event writer and the question whether two events are the same all go by the row. `archive`
//! compiles this file a second time, for the types of the crate.

use super::judged::w26x::at_protocol as w26;
use super::judged::w36x::at_protocol as w36;
use Value::{Case, Data, IsIpv6, Text};

#[derive(PartialEq)]
pub enum Value<'a> {
    /// Of 8, 16 or 32 bits.
    Number(u32),
    /// The type field of +UUDPC: `2` or `3` in a line.
    IsIpv6(bool),
    /// The type field of +UUDPC: `1` in a line. The Rust's enum has no field for it, so it is not printed.
    TypeBluetooth,
    /// An enum case: its name, and its number in a line.
    Case(&'static str, u32),
    Text(&'a str),
    Data(&'a [u8]),
}

/// Two events are the same when case, numbers and the bytes of each text and data agree (01, "Event
/// writer"), which is equality of rows.
#[derive(PartialEq)]
pub struct Row<'a> {
    pub case: &'static str,
    pub name: &'static str,
    pub values: Vec<Value<'a>>,
}

fn row<'a>(case: &'static str, name: &'static str, values: Vec<Value<'a>>) -> Option<Row<'a>> {
    Some(Row { case, name, values })
}

/// None for a case that no reader returns.
pub fn of26<'a>(event: &w26::ATEvent<'a>) -> Option<Row<'a>> {
    use w26::ATEvent::*;
    match *event {
        PeerConnectedIP { .. } => peer_connected(event),
        PeerDisconnected { peer_handle: h } => row("PeerDisconnected", "+UUDPD", vec![number(h)]),
        WifiLinkConnected { conn_id, bssid, channel } => {
            row("WifiLinkConnected", "+UUWLE", vec![number(conn_id), Text(bssid), number(channel)])
        }
        WifiLinkDisconnected { conn_id, ref reason } => {
            row("WifiLinkDisconnected", "+UUWLD", vec![number(conn_id), reason_value(reason)])
        }
        WifiAccessPointUp { id } => row("WifiAccessPointUp", "+UUWAPU", vec![number(id)]),
        WifiAccessPointDown { id } => row("WifiAccessPointDown", "+UUWAPD", vec![number(id)]),
        WifiAccessPointStationConnected { id, mac_addr } => {
            row("WifiAccessPointStationConnected", "+UUWAPSTAC", vec![number(id), Text(mac_addr)])
        }
        WifiAccessPointStationDisconnected { id } => {
            row("WifiAccessPointStationDisconnected", "+UUWAPSTAD", vec![number(id)])
        }
        EthernetLinkUp => row("EthernetLinkUp", "+UUETHLU", vec![]),
        EthernetLinkDown => row("EthernetLinkDown", "+UUETHLD", vec![]),
        NetworkUp { interface_id: id } => row("NetworkUp", "+UUNU", vec![number(id)]),
        NetworkDown { interface_id: id } => row("NetworkDown", "+UUND", vec![number(id)]),
        NetworkError { interface_id: id, code } => {
            row("NetworkError", "+UUNERR", vec![number(id), number(code)])
        }
        _ => None,
    }
}

/// Apart from the others, since it has seven values.
fn peer_connected<'a>(event: &w26::ATEvent<'a>) -> Option<Row<'a>> {
    let w26::ATEvent::PeerConnectedIP {
        peer_handle,
        is_ipv6,
        ref protocol,
        local_address,
        local_port,
        remote_address,
        remote_port,
    } = *event
    else {
        return None;
    };
    let mut values = vec![number(peer_handle), IsIpv6(is_ipv6), protocol_value(protocol)];
    values.extend([Text(local_address), number(local_port)]);
    values.extend([Text(remote_address), number(remote_port)]);
    row("PeerConnectedIP", "+UUDPC", values)
}

fn protocol_value(protocol: &w26::PeerConnectedProfile) -> Value<'static> {
    use w26::PeerConnectedProfile::*;
    match protocol {
        TCP => Case("TCP", 1),
        UDP => Case("UDP", 2),
        MQTT => Case("MQTT", 6),
    }
}

fn reason_value(reason: &w26::WifiLinkDisconnectedReason) -> Value<'static> {
    use w26::WifiLinkDisconnectedReason::*;
    match reason {
        Unknown => Case("Unknown", 0),
        RemoteClose => Case("RemoteClose", 1),
        OutOfRange => Case("OutOfRange", 2),
        Roaming => Case("Roaming", 3),
        SecurityProblems => Case("SecurityProblems", 4),
        NetworkDisabled => Case("NetworkDisabled", 5),
    }
}

pub fn of36<'a>(event: &w36::ATEvent<'a>) -> Row<'a> {
    use w36::ATEvent::*;
    let (case, name, values) = match *event {
        SocketConnected { socket_id: id } => ("SocketConnected", "+UESOC", vec![number(id)]),
        SocketClosed { socket_id: id } => ("SocketClosed", "+UESOCL", vec![number(id)]),
        SocketDataAvailable { socket_id: id, length } => {
            ("SocketDataAvailable", "+UESODA", vec![number(id), number(length)])
        }
        SocketDataBinary { socket_id: id, data } => {
            ("SocketDataBinary", "+UESODB", vec![number(id), Data(data)])
        }
        SocketDataBinaryFrom { socket_id, remote_ip, remote_port, data } => (
            "SocketDataBinaryFrom",
            "+UESODBF",
            vec![number(socket_id), Text(remote_ip), number(remote_port), Data(data)],
        ),
        WifiLinkUp { wlan_handle, bssid, channel } => {
            ("WifiLinkUp", "+UEWLU", vec![number(wlan_handle), Text(bssid), number(channel)])
        }
        WifiLinkDown { wlan_handle, reason } => {
            ("WifiLinkDown", "+UEWLD", vec![number(wlan_handle), number(reason)])
        }
        WifiAccessPointStationAssociated { mac_addr } => {
            ("WifiAccessPointStationAssociated", "+UEWAPSA", vec![Text(mac_addr)])
        }
        WifiAccessPointStationDisassociated { mac_addr } => {
            ("WifiAccessPointStationDisassociated", "+UEWAPSDA", vec![Text(mac_addr)])
        }
        WifiAccessPointUp => ("WifiAccessPointUp", "+UEWAPU", vec![]),
        WifiAccessPointDown => ("WifiAccessPointDown", "+UEWAPD", vec![]),
        StationNetworkUp => ("StationNetworkUp", "+UEWSNU", vec![]),
        StationNetworkDown => ("StationNetworkDown", "+UEWSND", vec![]),
        AccessPointNetworkUp => ("AccessPointNetworkUp", "+UEWAPNU", vec![]),
        AccessPointNetworkDown => ("AccessPointNetworkDown", "+UEWAPND", vec![]),
    };
    Row { case, name, values }
}

pub fn number(n: impl Into<u32>) -> Value<'static> {
    Value::Number(n.into())
}
