//! Everything that can be amiss with a field, row by row, and a line for each.

use crate::record::{push_decimal, Reader};
use crate::table::{self, Field, Row};
use crate::why::{Amiss, Found};

/// One thing amiss with one field of one row.
pub struct Flaw {
    pub name: &'static str,
    pub found: Found,
    row: &'static [Field],
}

/// The flaws of every row, in the table's order.
pub fn flaws(reader: Reader) -> Vec<Flaw> {
    let rows: &[Row] = match reader {
        Reader::Frame | Reader::W26 => &table::W26,
        Reader::W36 => &table::W36,
        Reader::Binary => &table::BINARY,
    };
    let mut flaws = Vec::new();
    for &(name, row) in rows {
        for (at, &field) in row.iter().enumerate() {
            // A binary event has its colon, and so its first field.
            let may_miss = at > 0 || reader != Reader::Binary;
            let missing = may_miss.then_some(Amiss::Missing);
            let kinds = missing.iter().chain(wrong_forms(field));
            let found = kinds.map(|&amiss| Found { field: at + 1, amiss });
            flaws.extend(found.map(|found| Flaw { name, found, row }));
        }
    }
    flaws
}

/// The ways in which refusal 15 can be met by a field.
fn wrong_forms(field: Field) -> &'static [Amiss] {
    match field {
        Field::Text | Field::TypeIp | Field::TypeBluetooth => &[],
        Field::Number(_) => &[Amiss::Empty, Amiss::Byte, Amiss::Large],
        Field::Protocol | Field::DisconnectReason => {
            &[Amiss::Empty, Amiss::Byte, Amiss::Large, Amiss::List]
        }
    }
}

impl Flaw {
    /// A line in which nothing else is amiss.
    pub fn line(&self, reader: Reader) -> Vec<u8> {
        let mut line = [b"\r\n", self.name.as_bytes()].concat();
        for (at, &field) in self.row.iter().enumerate() {
            let amiss = (at + 1 == self.found.field).then_some(self.found.amiss);
            if amiss == Some(Amiss::Missing) {
                break;
            }
            line.push(if at == 0 { b':' } else { b',' });
            push_field(field, amiss, &mut line);
        }
        let end: &[u8] = if reader == Reader::Binary { b"\x01\x00\x00" } else { b"\r\n" };
        line.extend_from_slice(end);
        line
    }
}

fn push_field(field: Field, amiss: Option<Amiss>, line: &mut Vec<u8>) {
    let bits = if let Field::Number(bits) = field { bits } else { 8 };
    match amiss {
        None | Some(Amiss::Missing | Amiss::Type) => line.push(good(field)),
        Some(Amiss::Empty) => {}
        Some(Amiss::Byte) => line.extend_from_slice(b"1x"),
        Some(Amiss::Large) => push_decimal(line, 1 << bits),
        Some(Amiss::List) => line.push(b'9'),
    }
}

/// One character that the field may hold.
fn good(field: Field) -> u8 {
    match field {
        Field::TypeIp => b'2',
        Field::Text => b'a',
        _ => b'1',
    }
}
