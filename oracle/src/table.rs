//! The lines of both radios: every name with its fields, and how a line is cut into them. Each row
//! stands here once, for the reader of the Bluetooth lines, the model of `why.rs` and the generator.

use Field::{DisconnectReason, Number, Protocol, Text, TypeBluetooth, TypeIp};

/// What a field must hold.
#[derive(Clone, Copy, PartialEq)]
pub enum Field {
    /// A number of so many bits.
    Number(u32),
    Text,
    /// The exact text `2` or `3`.
    TypeIp,
    /// The exact text `1`, which is no field of the Rust's enum.
    TypeBluetooth,
    /// A number of 8 bits that is in the list of protocols.
    Protocol,
    /// A number of 8 bits that is in the list of W26 reasons.
    DisconnectReason,
}

/// A name and its fields.
pub type Row = (&'static str, &'static [Field]);

/// 01, "Event lines", with the plus that 02's request 2 gives `+UUNERR`; after them the lines of 02's
/// request 3, "in the enum's order and widths".
pub const W26: [Row; 26] = [
    ("+UUDPC", &[Number(16), TypeIp, Protocol, Text, Number(16), Text, Number(16)]),
    ("+UUDPD", &[Number(16)]),
    ("+UUWLE", &[Number(16), Text, Number(16)]),
    ("+UUWLD", &[Number(16), DisconnectReason]),
    ("+UUWAPU", &[Number(16)]),
    ("+UUWAPD", &[Number(16)]),
    ("+UUWAPSTAC", &[Number(16), Text]),
    ("+UUWAPSTAD", &[Number(16)]),
    ("+UUETHLU", &[]),
    ("+UUETHLD", &[]),
    ("+UUNU", &[Number(16)]),
    ("+UUND", &[Number(16)]),
    ("+UUNERR", &[Number(16), Number(16)]),
    ("+UUDATA", &[Number(16), Number(16)]),
    ("+UUDPC", &[Number(16), TypeBluetooth, Number(8), Text, Number(16)]),
    ("+UUBTB", &[Text, Number(8)]),
    ("+UUBTUC", &[Text, Number(32)]),
    ("+UUBTUPD", &[Text, Number(32)]),
    ("+UUBTUPE", &[Text]),
    // The enum ends with the type; "u-blox's AT manual decides where it differs", and has the address.
    ("+UUBTACLC", &[Number(16), Number(8), Text]),
    ("+UUBTACLD", &[Number(16)]),
    ("+UUBTGRR", &[Number(16), Number(16)]),
    ("+UUBTGRW", &[Number(16), Number(16), Text, Number(8)]),
    ("+UUBTGIC", &[Number(16), Number(16)]),
    ("+UUBTGN", &[Number(16), Number(16), Text]),
    ("+UUBTGI", &[Number(16), Number(16), Text]),
];

/// 01, "Event lines".
pub const W36: [Row; 13] = [
    ("+UESOC", &[Number(8)]),
    ("+UESOCL", &[Number(8)]),
    ("+UESODA", &[Number(8), Number(16)]),
    ("+UEWLU", &[Number(16), Text, Number(16)]),
    ("+UEWLD", &[Number(16), Number(16)]),
    ("+UEWAPSA", &[Text]),
    ("+UEWAPSDA", &[Text]),
    ("+UEWAPU", &[]),
    ("+UEWAPD", &[]),
    ("+UEWSNU", &[]),
    ("+UEWSND", &[]),
    ("+UEWAPNU", &[]),
    ("+UEWAPND", &[]),
];

/// 01, "W36 binary": the fields before the byte 01.
pub const BINARY: [Row; 2] =
    [("+UESODB", &[Number(8)]), ("+UESODBF", &[Number(8), Text, Number(16)])];

/// What stands between place 2 and the CR LF at the end. None if the line is not text or not framed.
pub fn text(line: &[u8]) -> Option<&str> {
    std::str::from_utf8(line).ok()?.get(2..)?.strip_suffix("\r\n")
}

/// The name and the fields. 01, "Text rules": "the text after the first colon, cut at every comma",
/// and "no colon means no fields at all".
pub fn cut(text: &str) -> (&str, Vec<&str>) {
    match text.split_once(':') {
        Some((name, fields)) => (name, fields.split(',').collect()),
        None => (text, Vec::new()),
    }
}
