//! Which check refused and at which byte, or the bytes of each field (02, request 6). The Rust says
//! neither, so this is a model from the documents: the checks of each kind in 01's order, each with
//! its number and the byte of 02. What the Rust answers, or is owed, must be what the model comes to.

use std::fmt::{self, Display, Formatter};
use std::io::Write;

use crate::answer::Answered;
use crate::record::{Explained, Reader};
use crate::table::{self, Row};
use crate::why::{self, Amiss, Found, Line};

/// The model and the plain answer do not come to the same refusal, or only one of them refuses.
const EXPLAINED_OTHERWISE: &str = "EXPLAINED OTHERWISE";

/// 01, "Numbered refusals", from 1 on. Those of a write are 9 and 10.
const REFUSALS: [&str; 16] = [
    "PacketDecodeFramingInvalid",
    "PacketDecodeTargetMemorySizeInvalid",
    "PacketTypeDecodeLengthMismatch",
    "PayloadTypeUnknown",
    "ConnectEventUnsupported",
    "ConnectEventDecodeError",
    "DisconnectEventDecodeError",
    "AtRequestEventDecodeError",
    "PacketEncodeTypeUnknown",
    "PacketEncodePayloadSizeInvalid",
    "Utf8DecodeFailed",
    "FramingDecodeFailed",
    "TypeDecodeUnsupported",
    "TypeDecodeParameterMissing",
    "TypeDecodeParameterDataTypeInvalid",
    "EventUnknown",
];

/// A name, and the number of the field that it is about, which is 0 where there is none.
#[derive(Clone, Copy, PartialEq)]
struct Label(&'static str, usize);

impl Display for Label {
    fn fmt(&self, out: &mut Formatter) -> fmt::Result {
        out.write_str(self.0)?;
        if self.1 > 0 {
            write!(out, "{}", self.1)?;
        }
        Ok(())
    }
}

/// The first check that does not hold.
struct Broken {
    number: usize,
    check: Label,
    byte: usize,
}

/// The bytes of a field.
struct Part {
    name: Label,
    start: usize,
    len: usize,
}

type Explanation = Result<Vec<Part>, Broken>;

/// Puts the explanation in the place of the plain answer, which begins at `start`.
pub fn answer(kind: Explained, bytes: &[u8], start: usize, out: &mut Vec<u8>) -> Answered {
    let Some(explanation) = explain(kind, bytes) else {
        return (&out[start..] == b"notbinary").then_some(()).ok_or(EXPLAINED_OTHERWISE);
    };
    let name = explanation.as_ref().err().map(|broken| REFUSALS[broken.number - 1].as_bytes());
    if &out[start..] == b"notbinary" || refusal(&out[start..]) != name {
        return Err(EXPLAINED_OTHERWISE);
    }
    out.truncate(start);
    show(&explanation, out);
    Ok(())
}

/// The name of a plain answer's refusal.
fn refusal(answer: &[u8]) -> Option<&[u8]> {
    let name = answer.strip_prefix(b"refused ")?;
    Some(name.strip_prefix(b"AtPacketError ").unwrap_or(name))
}

fn show(explanation: &Explanation, out: &mut Vec<u8>) {
    let written = match explanation {
        Ok(parts) => write!(out, "accepted").and_then(|_| {
            parts
                .iter()
                .try_for_each(|part| write!(out, " {}@{}+{}", part.name, part.start, part.len))
        }),
        Err(Broken { number, check, byte }) => {
            write!(out, "refused {number} {} @{byte} {check}", REFUSALS[number - 1])
        }
    };
    written.expect("a Vec takes every byte");
}

/// None for bytes that are no binary event.
fn explain(kind: Explained, bytes: &[u8]) -> Option<Explanation> {
    Some(match kind {
        Explained::Read(Reader::Frame) => frame(bytes),
        Explained::Read(Reader::W26) => line26(bytes, 0, bytes.len()),
        Explained::Read(Reader::W36) => line36(bytes),
        Explained::Read(Reader::Binary) => {
            return table::BINARY.iter().find_map(|row| binary(row, bytes))
        }
        Explained::Response => response(bytes, 0, bytes.len()),
    })
}

fn needs(holds: bool, number: usize, check: &'static str, byte: usize) -> Result<(), Broken> {
    if holds {
        Ok(())
    } else {
        Err(Broken { number, check: Label(check, 0), byte })
    }
}

fn part(name: &'static str, start: usize, len: usize) -> Part {
    Part { name: Label(name, 0), start, len }
}

/// 02: "bad UTF-8, the first byte of the first ill-formed sequence". `from` is the place of the text.
fn utf8<'a>(
    bytes: &'a [u8],
    from: usize,
    number: usize,
    check: &'static str,
) -> Result<&'a str, Broken> {
    std::str::from_utf8(bytes).map_err(|error| {
        let byte = from + error.valid_up_to();
        Broken { number, check: Label(check, 0), byte }
    })
}

/// Where a part of the bytes begins.
fn place(bytes: &[u8], part: &str) -> usize {
    part.as_ptr() as usize - bytes.as_ptr() as usize
}

/// 01, "EDM frame": "Read order: 1, 2, 3, identifier (4), then for connect 2, 5, 6; disconnect 7; data
/// 2; request 8; AT as above", and 1 is "under 2 bytes, no AA first or 55 last".
fn frame(bytes: &[u8]) -> Explanation {
    let count = bytes.len();
    needs(count >= 2, 1, "FrameOfTwo", count)?;
    needs(bytes[0] == 0xAA, 1, "StartByte", 0)?;
    let end = count - 1;
    needs(bytes[end] == 0x55, 1, "EndByte", end)?;
    needs(count >= 6, 2, "FrameOfSix", count)?;
    let length = usize::from(bytes[1] & 0x0F) << 8 | usize::from(bytes[2]);
    needs(length == end - 5 + 2, 3, "FrameLength", 1)?;
    let mut parts = vec![part("StartByte", 0, 1), part("Length", 1, 2), part("Identifier", 3, 2)];
    parts.extend(match u16::from_be_bytes([bytes[3], bytes[4]]) {
        0x0011 => connect(bytes, end)?,
        0x0021 => {
            needs(end - 5 == 1, 7, "DisconnectSize", end)?;
            vec![part("Channel", 5, 1)]
        }
        0x0031 | 0x0036 => {
            needs(end > 5, 2, "DataChannel", end)?;
            vec![part("Channel", 5, 1), part("Data", 6, end - 6)]
        }
        0x0044 => {
            utf8(&bytes[5..end], 5, 8, "RequestUtf8")?;
            vec![part("Text", 5, end - 5)]
        }
        0x0045 => response(bytes, 5, end)?,
        0x0041 => line26(bytes, 5, end)?,
        0x0056 | 0x0071 => Vec::new(),
        _ => return Err(Broken { number: 4, check: Label("Identifier", 0), byte: 3 }),
    });
    parts.push(part("EndByte", end, 1));
    Ok(parts)
}

/// 01: "Connect: channel, type 02, then exactly 13 bytes: protocol, 4 address, 2 port, 4 address, 2
/// port". The remote end is the first.
fn connect(bytes: &[u8], end: usize) -> Explanation {
    needs(end - 5 >= 2, 2, "ConnectOfTwo", end)?;
    needs(bytes[6] == 0x02, 5, "ConnectType", 6)?;
    needs(end - 5 == 2 + 13, 6, "ConnectSize", end)?;
    Ok(vec![
        part("Channel", 5, 1),
        part("ConnectType", 6, 1),
        part("Protocol", 7, 1),
        part("RemoteAddress", 8, 4),
        part("RemotePort", 12, 2),
        part("LocalAddress", 14, 4),
        part("LocalPort", 18, 2),
    ])
}

/// 01, "AT response", of the bytes from `from` to `end`. An `OK` alone has an empty text, which stands
/// before it.
fn response(bytes: &[u8], from: usize, end: usize) -> Explanation {
    let text = utf8(&bytes[from..end], from, 11, "Utf8")?;
    let Some((_, rest)) = text.split_once("\r\n") else {
        return Err(Broken { number: 12, check: Label("FirstLineEnd", 0), byte: end });
    };
    let Some(rest) = rest.strip_suffix("\r\n") else {
        return Err(Broken { number: 12, check: Label("LastLineEnd", 0), byte: end });
    };
    let text = match rest.rsplit_once("\r\n") {
        _ if rest == "OK" => &rest[..0],
        _ if rest == "ERROR" => return Ok(Vec::new()),
        Some((before, "OK")) => before,
        _ => rest,
    };
    Ok(vec![part("Text", place(bytes, text), text.len())])
}

/// 01, "Event lines": "UTF-8 (11); fewer than 2 bytes, or place 2 inside a character (12, the Rust
/// panics); what follows place 2 doesn't end in CR LF (12)". The text between these.
fn framed(bytes: &[u8], from: usize, end: usize) -> Result<&str, Broken> {
    let text = utf8(&bytes[from..end], from, 11, "Utf8")?;
    needs(text.len() >= 2, 12, "LineOfTwo", end)?;
    needs(text.is_char_boundary(2), 12, "PlaceTwo", from + 2)?;
    needs(text[2..].ends_with("\r\n"), 12, "LineEnd", end)?;
    Ok(&text[2..text.len() - 2])
}

fn line26(bytes: &[u8], from: usize, end: usize) -> Explanation {
    event(bytes, &table::W26, framed(bytes, from, end)?)
}

/// 01: "W36 then keeps only what stands before the next CR LF".
fn line36(bytes: &[u8]) -> Explanation {
    let text = framed(bytes, 0, bytes.len())?;
    event(bytes, &table::W36, text.split("\r\n").next().unwrap_or(text))
}

/// 01: "The name stands before the first colon. A name not in that radio's list below gives 16".
fn event(bytes: &[u8], rows: &'static [Row], text: &str) -> Explanation {
    let start = place(bytes, text);
    let Some(line) = why::text_line(rows, text) else {
        return Err(Broken { number: 16, check: Label("EventName", 0), byte: start });
    };
    fields(bytes, &line, start, start + text.len())
}

/// The name, which begins at `start`, and the fields of a line, whose text ends at `end`.
fn fields(bytes: &[u8], line: &Line, start: usize, end: usize) -> Explanation {
    if let Some(found) = line.found().next() {
        return Err(wrong(bytes, line, found, end));
    }
    let mut parts = vec![part("Name", start, line.name.len())];
    let fields = line.fields.iter().take(line.row.len()).enumerate();
    parts.extend(fields.map(|(at, field)| Part {
        name: Label("Field", at + 1),
        start: place(bytes, field),
        len: field.len(),
    }));
    Ok(parts)
}

/// 02: "a missing .. field .., the place where that .. text .. ends", and "a field of wrong form or
/// type, where it starts".
fn wrong(bytes: &[u8], line: &Line, found: Found, end: usize) -> Broken {
    let (number, check) = match found.amiss {
        Amiss::Missing => (14, "FieldThere"),
        Amiss::Type => (13, "FieldType"),
        Amiss::Empty => (15, "FieldEmpty"),
        Amiss::Byte => (15, "FieldByte"),
        Amiss::Large => (15, "FieldLarge"),
        Amiss::List => (15, "FieldListed"),
    };
    let byte = line.fields.get(found.field - 1).map_or(end, |field| place(bytes, field));
    Broken { number, check: Label(check, found.field), byte }
}

/// 01, "W36 binary": "the first byte 01 (12 if none); the bytes before it UTF-8 (11)", the fields, "two
/// length bytes, high first (12); that many data bytes (12)". None if the event is not the row's.
fn binary(row: &Row, bytes: &[u8]) -> Option<Explanation> {
    let rest = bytes.strip_prefix(b"\r\n")?.strip_prefix(row.0.as_bytes())?.strip_prefix(b":")?;
    Some(binary_event(row, bytes, bytes.len() - rest.len()))
}

/// What follows the colon stands at `from`.
fn binary_event(row: &Row, bytes: &[u8], from: usize) -> Explanation {
    let count = bytes.len();
    let Some(marker) = bytes[from..].iter().position(|&b| b == 1).map(|at| from + at) else {
        return Err(Broken { number: 12, check: Label("Marker", 0), byte: count });
    };
    let text = utf8(&bytes[from..marker], from, 11, "Utf8")?;
    let mut parts = fields(bytes, &why::marked_line(row, text), 2, marker)?;
    let after = &bytes[marker + 1..];
    needs(after.len() >= 2, 12, "LengthBytes", count)?;
    let length = usize::from(u16::from_be_bytes([after[0], after[1]]));
    needs(after.len() - 2 >= length, 12, "DataBytes", count)?;
    parts.push(part("Marker", marker, 1));
    parts.push(part("DataLength", marker + 1, 2));
    parts.push(part("Data", marker + 3, length));
    Ok(parts)
}

/// The class of an explanation: a refusal without its byte, or the names of the fields.
pub fn class(answer: &str) -> String {
    let words = answer.split(' ').filter(|word| !word.starts_with('@'));
    let names = words.map(|word| word.split('@').next().unwrap_or(word));
    names.collect::<Vec<_>>().join(" ")
}
