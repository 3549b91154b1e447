//! Where the Rust panics, document 01 fixes one answer. Each function here gives that answer for the
//! inputs of OPEN-POINTS, "Where the Rust panics", and None for any other: a panic there is a fault.

use crate::judged::w26x::at_protocol as w26;
use crate::judged::w26x::edm_protocol as edm;
use crate::judged::w36x::at_protocol as w36;
use crate::rust;

/// 01, "Event lines", the W26 list: the names that have fields, as the Rust spells them.
const W26_WITH_FIELDS: [&str; 11] = [
    "+UUDPC",
    "+UUDPD",
    "+UUWLE",
    "+UUWLD",
    "+UUWAPU",
    "+UUWAPD",
    "+UUWAPSTAC",
    "+UUWAPSTAD",
    "+UUNU",
    "+UUND",
    "UUNERR",
];

/// 01, "Event lines", the W36 list: the names that have fields.
const W36_WITH_FIELDS: [&str; 7] =
    ["+UESOC", "+UESOCL", "+UESODA", "+UEWLU", "+UEWLD", "+UEWAPSA", "+UEWAPSDA"];

/// What both readers meet first.
enum Line<'a> {
    /// 01, "Event lines": "fewer than 2 bytes, or place 2 inside a character (12, the Rust panics)".
    TooShortOrCut,
    /// What stands between place 2 and the last CR LF, for a line that has both.
    Text(&'a str),
}

/// None where the Rust must answer by itself: 11 for the UTF-8, 12 for a missing CR LF at the end.
fn line(bytes: &[u8]) -> Option<Line<'_>> {
    let text = std::str::from_utf8(bytes).ok()?;
    match text.get(2..) {
        None => Some(Line::TooShortOrCut),
        Some(rest) => rest.strip_suffix("\r\n").map(Line::Text),
    }
}

/// 01, "Text rules", Fields: "No colon means no fields at all (there the W26 Rust panics for each
/// name, the W36 Rust for names with fields)".
pub fn event26(bytes: &[u8]) -> Option<Result<w26::ATEvent<'static>, w26::AtPacketError>> {
    let name = match line(bytes)? {
        Line::TooShortOrCut => return Some(Err(w26::AtPacketError::FramingDecodeFailed)),
        Line::Text(text) => text,
    };
    if name.contains(':') {
        return None;
    }
    match name {
        "+UUETHLU" => Some(Ok(w26::ATEvent::EthernetLinkUp)),
        "+UUETHLD" => Some(Ok(w26::ATEvent::EthernetLinkDown)),
        _ if W26_WITH_FIELDS.contains(&name) => {
            Some(Err(w26::AtPacketError::TypeDecodeParameterMissing))
        }
        _ => Some(Err(w26::AtPacketError::EventUnknown)),
    }
}

/// As above, and 01, "Event lines": "W36 then keeps only what stands before the next CR LF".
pub fn event36(bytes: &[u8]) -> Option<Result<w36::ATEvent<'static>, w36::AtPacketError>> {
    let text = match line(bytes)? {
        Line::TooShortOrCut => return Some(Err(w36::AtPacketError::FramingDecodeFailed)),
        Line::Text(text) => text,
    };
    let name = text.split("\r\n").next()?;
    W36_WITH_FIELDS.contains(&name).then_some(Err(w36::AtPacketError::TypeDecodeParameterMissing))
}

/// OPEN-POINTS: a frame panics "only through 0041", and 01 has the frame reader wrap the refusal.
pub fn frame(bytes: &[u8]) -> Option<Result<edm::EdmPacket<'static>, edm::EdmPacketError>> {
    event26(rust::event_line(bytes)?).map(rust::wrapped)
}

/// 01, "Write order": "buffer under 6 bytes (2; under 2 the Rust panics)".
pub fn write(size: usize) -> Option<Result<usize, edm::EdmPacketError>> {
    (size < 2).then_some(Err(edm::EdmPacketError::PacketDecodeTargetMemorySizeInvalid))
}
