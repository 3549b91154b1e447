//! All sides must give one answer before their cost is compared. The crate is asked for the fields: it
//! takes them from the row of the very call that is measured.

use std::fmt::Debug;

use mirvoncle::w26x::{at_protocol as our26, edm_protocol as our_edm};
use mirvoncle::w36x::at_protocol as our36;

use crate::calls::{Kind, ROOM};
use crate::inputs::Place;
use crate::judged::w26x::{at_protocol as w26, edm_protocol as edm};
use crate::judged::w36x::at_protocol as w36;
use crate::{gateway, ours, rust};

/// What a buffer holds beforehand, so that a byte that is written where none may be shows.
const BEFORE: u8 = 0xE7;

pub fn agree(kind: Kind, rust_input: &[u8], our_input: &[u8]) -> Result<(), String> {
    match kind {
        Kind::Frame => {
            same(edm::EdmPacket::new(rust_input).map(packet), our_edm::EdmPacket::new(our_input))
        }
        Kind::W26 => {
            same(w26::ATEvent::new(rust_input).map(event26), our26::ATEvent::new(our_input))
        }
        Kind::W36 => {
            same(w36::ATEvent::new(rust_input).map(event36), our36::ATEvent::new(our_input))
        }
        Kind::Binary => same(
            w36::ATEvent::try_parse_binary(rust_input).map(binary),
            our36::ATEvent::try_parse_binary(our_input),
        ),
        Kind::Response => {
            same(w26::ATResponse::new(rust_input).map(response), our26::ATResponse::new(our_input))
        }
        Kind::Utf8 | Kind::WriteData | Kind::WriteRequest => {
            let rust = written(|to| rust::number(kind, rust_input, to));
            let ours = written(|to| ours::number(kind, our_input, to));
            let through = written(|to| gateway::number(kind, our_input, to));
            match rust == ours && rust == through {
                true => Ok(()),
                false => Err("the numbers or the written bytes differ".to_string()),
            }
        }
    }
}

/// The Rust's answer in the types of the crate, and the crate's. Refusals have the same names in both.
fn same<T: PartialEq + Debug>(
    rust: Result<Option<T>, impl Debug>,
    ours: Result<T, impl Debug>,
) -> Result<(), String> {
    match (rust, ours) {
        (Ok(None), _) => Err("agree.rs lacks the case that the Rust answers".to_string()),
        (Ok(Some(rust)), Ok(ours)) if rust == ours => Ok(()),
        (Err(rust), Err(ours)) if format!("{rust:?}") == format!("{ours:?}") => Ok(()),
        (rust, ours) => Err(format!("the Rust answers {rust:?}, the crate {ours:?}")),
    }
}

/// What a call answers, and the buffer afterwards.
fn written(call: impl FnOnce(&mut [u8]) -> Option<usize>) -> (Option<usize>, Vec<u8>) {
    let mut buffer = Place::of_frame(&[BEFORE; ROOM]);
    let number = call(buffer.bytes_mut());
    (number, buffer.bytes().to_vec())
}

/// An event of the Rust as the crate has it, for the cases that the bench's inputs give.
macro_rules! moved {
    ($event:expr, $from:ident, $to:ident, $($case:ident { $($field:ident),* })*) => {
        match $event {
            $($from::ATEvent::$case { $($field),* } => Some($to::ATEvent::$case { $($field),* }),)*
            _ => None,
        }
    };
}

fn packet(packet: edm::EdmPacket<'_>) -> Option<our_edm::EdmPacket<'_>> {
    use our_edm::EdmPacket;
    match packet {
        edm::EdmPacket::DataEvent { channel, data } => Some(EdmPacket::DataEvent { channel, data }),
        edm::EdmPacket::ATRequest(text) => Some(EdmPacket::ATRequest(text)),
        edm::EdmPacket::ATResponse(said) => response(said).map(EdmPacket::ATResponse),
        edm::EdmPacket::ATEvent(event) => event26(event).map(EdmPacket::ATEvent),
        _ => None,
    }
}

fn event26(event: w26::ATEvent<'_>) -> Option<our26::ATEvent<'_>> {
    if let w26::ATEvent::PeerConnectedIP {
        peer_handle,
        is_ipv6,
        protocol,
        local_address,
        local_port,
        remote_address,
        remote_port,
    } = event
    {
        return Some(our26::ATEvent::PeerConnectedIP {
            peer_handle,
            is_ipv6,
            protocol: match protocol {
                w26::PeerConnectedProfile::TCP => our26::PeerConnectedProfile::TCP,
                w26::PeerConnectedProfile::UDP => our26::PeerConnectedProfile::UDP,
                w26::PeerConnectedProfile::MQTT => our26::PeerConnectedProfile::MQTT,
            },
            local_address,
            local_port,
            remote_address,
            remote_port,
        });
    }
    moved!(event, w26, our26,
        WifiAccessPointStationConnected { id, mac_addr }
        NetworkUp { interface_id }
        NetworkError { interface_id, code }
    )
}

fn event36(event: w36::ATEvent<'_>) -> Option<our36::ATEvent<'_>> {
    moved!(event, w36, our36,
        SocketConnected { socket_id }
        WifiLinkUp { wlan_handle, bssid, channel }
        WifiAccessPointStationAssociated { mac_addr }
        AccessPointNetworkDown {}
        SocketDataBinary { socket_id, data }
        SocketDataBinaryFrom { socket_id, remote_ip, remote_port, data }
    )
}

/// `Some(None)` is what no binary event begins.
fn binary(event: Option<w36::ATEvent<'_>>) -> Option<Option<our36::ATEvent<'_>>> {
    match event {
        Some(event) => event36(event).map(Some),
        None => Some(None),
    }
}

fn response(response: w26::ATResponse<'_>) -> Option<our26::ATResponse<'_>> {
    Some(match response {
        w26::ATResponse::Ok(text) => our26::ATResponse::Ok(text),
        w26::ATResponse::Error => our26::ATResponse::Error,
        w26::ATResponse::Other(text) => our26::ATResponse::Other(text),
    })
}
