//! Which field, and why (02, request 5). The Rust says neither, so this is a model from the documents:
//! the table gives the fields of a line, and the first that is missing or of wrong form is named. The
//! answer itself stays the plain one, and the model must come to the same refusal.

use std::fmt::{self, Display, Formatter};
use std::io::Write;
use std::num::IntErrorKind;

use crate::answer::Answered;
use crate::record::Reader;
use crate::rust;
use crate::table::{self, Field, Row};

/// The model and the plain answer do not come to the same refusal of 13, 14 and 15.
const FIELDS_DISAGREE: &str = "FIELDS DISAGREE";

/// 01, "Event lines": "Protocol: 1 TCP, 2 UDP, 6 MQTT, else 15. Reason: 0..5, else 15."
const PROTOCOLS: [u32; 3] = [1, 2, 6];
const DISCONNECT_REASONS: [u32; 6] = [0, 1, 2, 3, 4, 5];

/// What is amiss with a field.
#[derive(Clone, Copy, PartialEq)]
pub enum Amiss {
    Missing,
    /// A type of `+UUDPC` that no row has. Its refusal carries nothing.
    Type,
    Empty,
    Byte,
    Large,
    List,
}

impl Amiss {
    pub fn refusal(self) -> &'static str {
        match self {
            Amiss::Missing => "TypeDecodeParameterMissing",
            Amiss::Type => "TypeDecodeUnsupported",
            _ => "TypeDecodeParameterDataTypeInvalid",
        }
    }
}

/// A field, counted from 1, and what is amiss with it.
#[derive(Clone, Copy, PartialEq)]
pub struct Found {
    pub field: usize,
    pub amiss: Amiss,
}

impl Display for Found {
    fn fmt(&self, out: &mut Formatter) -> fmt::Result {
        write!(out, "field {}", self.field)?;
        out.write_str(match self.amiss {
            Amiss::Missing | Amiss::Type => "",
            Amiss::Empty => " empty",
            Amiss::Byte => " byte",
            Amiss::Large => " large",
            Amiss::List => " list",
        })
    }
}

/// A line with a listed name: its row, and its fields as the line has them.
pub struct Line<'a> {
    pub name: &'static str,
    pub row: &'static [Field],
    pub fields: Vec<&'a str>,
}

impl Line<'_> {
    /// 01, "Event lines": "Fields are taken left to right, each first for being there (14), then for
    /// its form (15); further fields are ignored".
    pub fn found(&self) -> impl Iterator<Item = Found> + '_ {
        self.row.iter().enumerate().filter_map(|(at, &field)| {
            let amiss = match self.fields.get(at) {
                None => Some(Amiss::Missing),
                Some(text) => wrong_form(field, text),
            };
            amiss.map(|amiss| Found { field: at + 1, amiss })
        })
    }
}

/// Appends what the refusal carries to the plain answer, which begins at `start`.
pub fn carry(reader: Reader, bytes: &[u8], start: usize, out: &mut Vec<u8>) -> Answered {
    let found = line(reader, bytes).and_then(|line| line.found().next());
    if refusal(&out[start..]) != found.map(|found| found.amiss.refusal()) {
        return Err(FIELDS_DISAGREE);
    }
    if let Some(found) = found.filter(|found| found.amiss != Amiss::Type) {
        write!(out, " {found}").expect("a Vec takes every byte");
    }
    Ok(())
}

/// The refusal of a plain answer, if it is one that a field decides.
fn refusal(answer: &[u8]) -> Option<&'static str> {
    let name = answer.strip_prefix(b"refused ")?;
    let name = name.strip_prefix(b"AtPacketError ").unwrap_or(name);
    let of_fields = [Amiss::Missing, Amiss::Type, Amiss::Byte].map(Amiss::refusal);
    of_fields.into_iter().find(|refusal| refusal.as_bytes() == name)
}

/// None if the input is refused before any field is looked at, or is no binary event.
pub fn line(reader: Reader, bytes: &[u8]) -> Option<Line<'_>> {
    match reader {
        Reader::Frame => line(Reader::W26, line_of_frame(bytes)?),
        Reader::W26 => text_line(&table::W26, table::text(bytes)?),
        // 01, "Event lines": "W36 then keeps only what stands before the next CR LF".
        Reader::W36 => text_line(&table::W36, table::text(bytes)?.split("\r\n").next()?),
        Reader::Binary => table::BINARY.iter().find_map(|row| binary_line(row, bytes)),
    }
}

/// 01, "EDM frame", checks 1 to 3, and the identifier of a W26 event.
fn line_of_frame(frame: &[u8]) -> Option<&[u8]> {
    let payload = frame.len().checked_sub(6)?;
    let length = usize::from(frame[1] & 0x0F) << 8 | usize::from(frame[2]);
    let whole = frame[0] == 0xAA && frame.ends_with(&[0x55]) && length == payload + 2;
    rust::event_line(frame).filter(|_| whole)
}

/// None for a name that is not in the list.
pub fn text_line<'a>(rows: &'static [Row], text: &'a str) -> Option<Line<'a>> {
    let (name, fields) = table::cut(text);
    let mut of_name = rows.iter().filter(|row| row.0 == name);
    let &(name, row) = of_name.next()?;
    let mut line = Line { name, row, fields };
    // The type decides between the two rows of `+UUDPC`, once the fields before it are good.
    let is_other_type = line.found().next().is_some_and(|found| found.amiss == Amiss::Type);
    if let Some(&(_, other)) = of_name.next().filter(|_| is_other_type) {
        line.row = other;
    }
    Some(line)
}

/// 01, "W36 binary": "the first byte 01", and "the bytes before it UTF-8".
fn binary_line<'a>(&(name, row): &Row, bytes: &'a [u8]) -> Option<Line<'a>> {
    let rest = bytes.strip_prefix(b"\r\n")?.strip_prefix(name.as_bytes())?.strip_prefix(b":")?;
    let marker = rest.iter().position(|&b| b == 1)?;
    Some(marked_line(&(name, row), std::str::from_utf8(&rest[..marker]).ok()?))
}

/// The text before the marker of a row's event. There are at most as many fields as the row has: "not cut
/// at any comma" for one, "cut at the first two commas only" for three.
pub fn marked_line<'a>(&(name, row): &Row, text: &'a str) -> Line<'a> {
    Line { name, row, fields: text.splitn(row.len(), ',').collect() }
}

fn wrong_form(field: Field, text: &str) -> Option<Amiss> {
    match field {
        Field::Text => None,
        Field::TypeIp => (text != "2" && text != "3").then_some(Amiss::Type),
        Field::TypeBluetooth => (text != "1").then_some(Amiss::Type),
        Field::Number(bits) => number(text, bits).err(),
        Field::Protocol => not_listed(text, &PROTOCOLS),
        Field::DisconnectReason => not_listed(text, &DISCONNECT_REASONS),
    }
}

fn not_listed(text: &str, list: &[u32]) -> Option<Amiss> {
    match number(text, 8) {
        Ok(number) => (!list.contains(&number)).then_some(Amiss::List),
        Err(amiss) => Some(amiss),
    }
}

/// Rust's library says why a text is no number. It says "too large" of `256x` as well, as it stops
/// there, where 02 has "too large is given only when every byte is allowed".
fn number(text: &str, bits: u32) -> Result<u32, Amiss> {
    parsed(text, bits).map_err(|kind| match kind {
        IntErrorKind::Empty => Amiss::Empty,
        IntErrorKind::PosOverflow if is_allowed(text) => Amiss::Large,
        _ => Amiss::Byte,
    })
}

/// What Rust's library makes of a number.
pub fn parsed(text: &str, bits: u32) -> Result<u32, IntErrorKind> {
    let parsed = match bits {
        8 => text.parse::<u8>().map(u32::from),
        16 => text.parse::<u16>().map(u32::from),
        _ => text.parse::<u32>(),
    };
    parsed.map_err(|error| *error.kind())
}

/// Every byte is allowed: digits, and one plus before a digit.
fn is_allowed(text: &str) -> bool {
    let digits = text.strip_prefix('+').unwrap_or(text);
    !digits.is_empty() && digits.bytes().all(|b| b.is_ascii_digit())
}
