//! Event lines of both radios.

use super::{pieces, Flaws};
use crate::rng::Rng;
use crate::table::{Field, Row, W26, W36};

const LEAD: u32 = 0;
const NAME: u32 = 1;
const COLON: u32 = 2;
const NUMBER: u32 = 3;
const TEXT: u32 = 4;
const FEWER: u32 = 5;
const MORE: u32 = 6;
const END: u32 = 7;

pub fn line(rng: &mut Rng, rows: &[Row], out: &mut Vec<u8>) {
    let flaws = Flaws::new(rng);
    line_with(rng, rows, flaws, out);
}

pub fn line_with(rng: &mut Rng, rows: &[Row], flaws: Flaws, out: &mut Vec<u8>) {
    let (name, fields) = pick_row(rng, rows);
    pieces::lead(rng, flaws.has(LEAD), out);
    push_name(rng, name, flaws.has(NAME), out);
    push_fields(rng, fields, flaws, out);
    push_end(rng, flaws.has(END), out);
}

/// Of two rows the one with more fields, since it has more to check.
fn pick_row(rng: &mut Rng, rows: &[Row]) -> Row {
    let (one, other) = (rows[rng.below(rows.len())], rows[rng.below(rows.len())]);
    if one.1.len() > other.1.len() {
        one
    } else {
        other
    }
}

fn push_name(rng: &mut Rng, name: &str, flawed: bool, out: &mut Vec<u8>) {
    let other = ["", "+", "+UESODB", "+UESODBF", "+UESO", "+UU", "AT", "\n+UUNU", "\u{e9}"];
    let bare = name.trim_start_matches('+');
    // Half of these lines have the Rust's name of the event in place of u-blox's.
    if name == "+UUNERR" && rng.one_in(2) {
        return out.extend_from_slice(bare.as_bytes());
    }
    if !flawed {
        return out.extend_from_slice(name.as_bytes());
    }
    match rng.below(7) {
        0 => out.extend_from_slice(bare.as_bytes()),
        1 => out.extend_from_slice(name.to_lowercase().as_bytes()),
        2 => out.extend_from_slice(&name.as_bytes()[..name.len() - 1]),
        3 => out.extend_from_slice(W26[rng.below(W26.len())].0.as_bytes()),
        4 => out.extend_from_slice(W36[rng.below(W36.len())].0.as_bytes()),
        5 => out.extend_from_slice(rng.pick(&other).as_bytes()),
        _ => {
            out.extend_from_slice(name.as_bytes());
            out.extend_from_slice(rng.pick(&[" ", "A", "F", "\r", "\0", "\u{e9}"]).as_bytes());
        }
    }
}

fn push_fields(rng: &mut Rng, fields: &[Field], flaws: Flaws, out: &mut Vec<u8>) {
    // A name without fields is good with any; a name with fields is not good without a colon.
    let colon = if fields.is_empty() { rng.one_in(4) } else { !flaws.has(COLON) };
    if !colon {
        return;
    }
    out.push(b':');
    let kept = if flaws.has(FEWER) { rng.below(fields.len() + 1) } else { fields.len() };
    // One field carries the flaw, so that the fields before it are looked at as well.
    let flawed = rng.below(fields.len().max(1));
    for (at, &field) in fields[..kept].iter().enumerate() {
        if at > 0 {
            out.push(b',');
        }
        push_field(rng, field, at == flawed && flaws.has(NUMBER), flaws.has(TEXT), out);
    }
    if flaws.has(MORE) || rng.one_in(10) {
        push_more(rng, out);
    }
}

pub fn push_field(
    rng: &mut Rng,
    field: Field,
    bad_number: bool,
    bad_text: bool,
    out: &mut Vec<u8>,
) {
    let (odd, good): (&[&str], &[&str]) = match field {
        Field::Number(bits) => return pieces::number(rng, (1 << bits) - 1, bad_number, out),
        Field::Text => return pieces::text(rng, bad_text, out),
        Field::TypeIp => (&["", "1", "02", "+2", "4", "2 ", "33", "0"], &["2", "3"]),
        Field::TypeBluetooth => (&["", "01", "+1", "1 ", "11", "10", "2", "3"], &["1"]),
        Field::Protocol => (&["0", "3", "4", "5", "7", "", "256", "x"], &["1", "2", "6", "+06"]),
        Field::DisconnectReason => {
            (&["6", "7", "255", "256", "", "-0", "05x"], &["0", "1", "2", "3", "4", "5"])
        }
    };
    // Codes are few among the fields, so they go wrong a little more often.
    let words = if bad_number || rng.one_in(20) { odd } else { good };
    let word = rng.pick(words);
    out.extend_from_slice(word.as_bytes());
}

/// Fields that no row has: they are ignored, whatever they hold.
pub fn push_more(rng: &mut Rng, out: &mut Vec<u8>) {
    for _ in 0..1 + rng.below(3) {
        out.push(b',');
        let odd = rng.one_in(3);
        pieces::text(rng, odd, out);
    }
}

pub fn push_end(rng: &mut Rng, flawed: bool, out: &mut Vec<u8>) {
    let good = ["\r\n\r\n", "\r\n\r\n+UESOC:1\r\n", "\r\n\r\n+UUNU:1\r\n", "\r\n:\r\n", "\n\r\n"];
    let bad: [&[u8]; 8] =
        [b"", b"\r", b"\n", b"\n\r", b"\r\n ", b"\r\n\xFF", b"\r\r\n", b"\r\n\xC3"];
    if flawed {
        out.extend_from_slice(rng.pick(&bad));
    } else if rng.one_in(10) {
        out.extend_from_slice(rng.pick(&good).as_bytes());
    } else {
        out.extend_from_slice(b"\r\n");
    }
}
