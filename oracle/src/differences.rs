//! Every place where the answer that is asked for is not the Rust's own, panics aside (panics.rs).

use std::borrow::Cow;

use crate::judged::w26x::at_protocol::AtPacketError;
use crate::judged::w26x::edm_protocol::EdmPacketError;
use crate::rows::Row;
use crate::{bluetooth, table};

/// 02, request 2: "`+UUNERR` is the event, the bare name becomes 16". In the Rust it is the other way
/// round, so the two names change places before the Rust is asked: a line with the plus is owed what
/// the Rust answers to the same line with the bare name, and a line with the bare name what the Rust
/// answers to a name that it does not have. None for a line with any other name.
pub fn exchanged26(line: &[u8]) -> Option<Vec<u8>> {
    renamed(line, b"+UUNERR", b"UUNERR").or_else(|| renamed(line, b"UUNERR", b"+UUNERR"))
}

/// The line that the Rust is asked about.
pub fn asked26(line: &[u8]) -> Cow<'_, [u8]> {
    exchanged26(line).map_or(Cow::Borrowed(line), Cow::Owned)
}

/// The line with the name `to`, if its name is `from`. A name stands from place 2 to the first colon, or,
/// where there is no colon, to the CR LF at the line's end.
fn renamed(line: &[u8], from: &[u8], to: &[u8]) -> Option<Vec<u8>> {
    let rest = line.get(2..)?.strip_prefix(from)?;
    (rest.starts_with(b":") || rest == b"\r\n").then(|| [&line[..2], to, rest].concat())
}

/// 02, request 3: "Read and write the lines that the Rust's enum lists and never returns", "each with a
/// plus".
pub const BLUETOOTH_NAMES: [&str; 12] = [
    "+UUDATA",
    "+UUBTB",
    "+UUBTUC",
    "+UUBTUPD",
    "+UUBTUPE",
    "+UUBTACLC",
    "+UUBTACLD",
    "+UUBTGRR",
    "+UUBTGRW",
    "+UUBTGIC",
    "+UUBTGN",
    "+UUBTGI",
];

/// 02, request 3: "and `+UUDPC` with type `1`", its second field.
const BLUETOOTH_PEER: (&str, &str) = ("+UUDPC", "1");

/// 02, request 3: "Type `1` no longer gives 13, these names no longer give 16; for them demand 2 reads
/// against the definition alone". So the definition answers where the Rust refuses such a line with
/// just that number. None wherever the Rust's own answer stands: for every other line, and for these
/// lines where the Rust refuses them for anything else, such as their UTF-8, their end or the handle
/// before the type.
pub fn defined26(line: &[u8], refusal: AtPacketError) -> Option<Result<Row<'_>, AtPacketError>> {
    let (name, fields) = table::cut(table::text(line)?);
    let is_defined = match refusal {
        AtPacketError::EventUnknown => BLUETOOTH_NAMES.contains(&name),
        AtPacketError::TypeDecodeUnsupported => {
            fields.get(1).is_some_and(|&field| (name, field) == BLUETOOTH_PEER)
        }
        _ => false,
    };
    if is_defined {
        bluetooth::read(name, &fields)
    } else {
        None
    }
}

/// 01, "Write order": "payload over 4,093", of which "the first half of that last test is ours: the
/// Rust writes such a frame and cannot read it".
const LARGEST_PAYLOAD: usize = 4_093;

/// The smallest buffer that any frame fits into: the frame without a payload.
const SMALLEST_BUFFER: usize = 6;

/// A write that the Rust did, but whose frame no reader takes, is refused with 10.
pub fn written(
    answer: Result<usize, EdmPacketError>,
    payload: usize,
) -> Result<usize, EdmPacketError> {
    match answer {
        Ok(_) if payload > LARGEST_PAYLOAD => Err(EdmPacketError::PacketEncodePayloadSizeInvalid),
        answer => answer,
    }
}

/// 01, "Write order": "request not UTF-8 (8, ours, as the Rust takes text)". A buffer under 6 bytes
/// comes before it (2), the payload's length after it (10).
pub fn request_not_text(size: usize) -> EdmPacketError {
    if size < SMALLEST_BUFFER {
        EdmPacketError::PacketDecodeTargetMemorySizeInvalid
    } else {
        EdmPacketError::AtRequestEventDecodeError
    }
}
