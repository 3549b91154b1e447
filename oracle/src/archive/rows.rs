//! Events of the crate as rows. The Rust never returns an event of Bluetooth, so those stand here.

use mirvoncle as judged;
use mirvoncle::w26x::at_protocol::ATEvent;

/// `name` is for the model of the event writer alone.
#[allow(dead_code, clippy::duplicate_mod)]
#[path = "../rows.rs"]
mod of_both;

pub use of_both::{of36, Row, Value};

use of_both::number;
use Value::Text;

/// None for a case that no reader returns.
pub fn of26<'a>(event: &ATEvent<'a>) -> Option<Row<'a>> {
    let of_bluetooth = || bluetooth(event).or_else(|| gatt(event));
    of_both::of26(event)
        .or_else(|| of_bluetooth().map(|(case, values)| Row { case, name: "", values }))
}

type Fields<'a> = Option<(&'static str, Vec<Value<'a>>)>;

fn bluetooth<'a>(event: &ATEvent<'a>) -> Fields<'a> {
    use ATEvent::*;
    Some(match *event {
        DataAvailable { peer, length } => ("DataAvailable", vec![number(peer), number(length)]),
        PeerConnectedBluetooth { peer_handle, profile, address, frame_size } => (
            "PeerConnectedBluetooth",
            vec![number(peer_handle), number(profile), Text(address), number(frame_size)],
        ),
        BondEvent { bd_addr, status } => ("BondEvent", vec![Text(bd_addr), number(status)]),
        UserConfirmation { bd_addr, value } => {
            ("UserConfirmation", vec![Text(bd_addr), number(value)])
        }
        UserPasskeyDisplay { bd_addr, passkey } => {
            ("UserPasskeyDisplay", vec![Text(bd_addr), number(passkey)])
        }
        UserPasskeyEntry { bd_addr } => ("UserPasskeyEntry", vec![Text(bd_addr)]),
        ACLConnected { conn_handle, type_, bd_addr } => {
            ("ACLConnected", vec![number(conn_handle), number(type_), Text(bd_addr)])
        }
        ACLDisconnected { conn_handle } => ("ACLDisconnected", vec![number(conn_handle)]),
        _ => return None,
    })
}

fn gatt<'a>(event: &ATEvent<'a>) -> Fields<'a> {
    use ATEvent::*;
    Some(match *event {
        GATTRequestToRead { conn_handle, char_handle } => {
            ("GATTRequestToRead", vec![number(conn_handle), number(char_handle)])
        }
        GATTRequestToWrite { conn_handle, char_handle, value, options } => (
            "GATTRequestToWrite",
            vec![number(conn_handle), number(char_handle), Text(value), number(options)],
        ),
        GATTIndicationConfirmation { conn_handle, char_handle } => {
            ("GATTIndicationConfirmation", vec![number(conn_handle), number(char_handle)])
        }
        GATTNotification { conn_handle, value_handle, hex_data } => {
            ("GATTNotification", vec![number(conn_handle), number(value_handle), Text(hex_data)])
        }
        GATTIndication { conn_handle, value_handle, hex_data } => {
            ("GATTIndication", vec![number(conn_handle), number(value_handle), Text(hex_data)])
        }
        _ => return None,
    })
}
