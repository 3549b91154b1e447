//! The Bluetooth lines of W26, from 02's request 3 and 01's rules for lines. The Rust's enum lists
//! their cases and its reader never returns them, so there is no Rust to ask: this is the definition
//! that takes its place, and `differences.rs` says where.

use crate::judged::w26x::at_protocol::AtPacketError;
use crate::rows::{Row, Value};
use crate::table::{self, Field};

/// The names, each with its case in the Rust's enum.
const CASES: [(&str, &str); 13] = [
    ("+UUDATA", "DataAvailable"),
    ("+UUDPC", "PeerConnectedBluetooth"),
    ("+UUBTB", "BondEvent"),
    ("+UUBTUC", "UserConfirmation"),
    ("+UUBTUPD", "UserPasskeyDisplay"),
    ("+UUBTUPE", "UserPasskeyEntry"),
    ("+UUBTACLC", "ACLConnected"),
    ("+UUBTACLD", "ACLDisconnected"),
    ("+UUBTGRR", "GATTRequestToRead"),
    ("+UUBTGRW", "GATTRequestToWrite"),
    ("+UUBTGIC", "GATTIndicationConfirmation"),
    ("+UUBTGN", "GATTNotification"),
    ("+UUBTGI", "GATTIndication"),
];

/// The fields of a name. `+UUDPC` has a row for the types of IP as well.
fn definition(name: &str) -> Option<&'static [Field]> {
    let mut rows = table::W26.iter().filter(|row| !row.1.contains(&Field::TypeIp));
    rows.find(|row| row.0 == name).map(|row| row.1)
}

/// 01, "Event lines": "Fields are taken left to right, each first for being there (14), then for its
/// form (15); further fields are ignored". None for a name that is not of Bluetooth.
pub fn read<'a>(name: &str, fields: &[&'a str]) -> Option<Result<Row<'a>, AtPacketError>> {
    let &(name, case) = CASES.iter().find(|row| row.0 == name)?;
    let mut given = fields.iter();
    let values = definition(name)?.iter().map(|&field| {
        let text = given.next().ok_or(AtPacketError::TypeDecodeParameterMissing)?;
        value(field, text)
    });
    let values = values.collect::<Result<_, _>>();
    Some(values.map(|values| Row { case, name, values }))
}

fn value(field: Field, text: &str) -> Result<Value<'_>, AtPacketError> {
    match field {
        Field::Number(bits) => number(text, bits)
            .map(Value::Number)
            .ok_or(AtPacketError::TypeDecodeParameterDataTypeInvalid),
        Field::Text => Ok(Value::Text(text)),
        Field::TypeBluetooth if text == "1" => Ok(Value::TypeBluetooth),
        // Another type. No row of Bluetooth has a field of any other kind.
        _ => Err(AtPacketError::TypeDecodeUnsupported),
    }
}

/// 01, "Text rules": "an optional single `+`, then one or more digits, leading zeros to any length",
/// and a value that the bits can hold.
fn number(text: &str, bits: u32) -> Option<u32> {
    let digits = text.strip_prefix('+').unwrap_or(text);
    if digits.is_empty() || !digits.bytes().all(|b| b.is_ascii_digit()) {
        return None;
    }
    // A digit never makes a number smaller, so one that is too large stays so.
    let value = digits.bytes().try_fold(0u64, |value, b| {
        let value = value * 10 + u64::from(b - b'0');
        (value < 1 << bits).then_some(value)
    })?;
    u32::try_from(value).ok()
}
