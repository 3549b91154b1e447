//! Lines aimed at one field of one row (02, request 5): missing, empty, with a byte that is not
//! allowed, too large or not in its list, alone or with another such field.

use super::{binary, events, frames, pieces, Flaws};
use crate::record::{push_decimal, Call, Reader};
use crate::rng::Rng;
use crate::table::{self, Field, Row};

/// What no number has. A plus is allowed before the first digit alone; `/` and `:` stand beside the
/// digits, and the last three are digits elsewhere.
const NOT_ALLOWED: [&str; 15] = [
    " ", "-", "+", "+", "x", "/", ":", ".", "\0", "\n", "\r", "\u{e9}", "\u{b2}", "\u{667}",
    "\u{ff17}",
];

const PLUS_SIGNS: [&str; 10] = ["+", "++", "+7", "++7", "+-7", "+ 7", "7+", "0+7", "+0", "-+7"];

/// So many digits that no width of any machine holds them.
const FAR_TOO_MANY: usize = 40;

/// Mostly the question that asks for the field; the plain answer to such a line is asked for as well.
pub fn make(rng: &mut Rng, out: &mut Vec<u8>) -> Call {
    let reader = match rng.below(8) {
        0..=2 => Reader::W26,
        3 => Reader::W36,
        4 => Reader::Binary,
        _ => Reader::Frame,
    };
    match reader {
        Reader::W26 => text_line(rng, &table::W26, out),
        Reader::W36 => text_line(rng, &table::W36, out),
        Reader::Binary => binary_line(rng, out),
        Reader::Frame => {
            let start = frames::open(frames::EVENT, out);
            text_line(rng, &table::W26, out);
            let payload = out.len() - start;
            frames::close(rng, payload, out);
        }
    }
    if rng.one_in(5) {
        Call::Read(reader)
    } else {
        Call::Why(reader)
    }
}

fn text_line(rng: &mut Rng, rows: &[Row], out: &mut Vec<u8>) {
    let ((name, fields), aim) = pick_field(rng, rows);
    pieces::lead(rng, false, out);
    out.extend_from_slice(name.as_bytes());
    let kept = push_fields(rng, fields, aim, out);
    if kept == fields.len() && rng.one_in(4) {
        events::push_more(rng, out);
    }
    events::push_end(rng, false, out);
}

/// The colon is there with or without fields, else it is no binary event.
fn binary_line(rng: &mut Rng, out: &mut Vec<u8>) {
    let ((name, fields), aim) = pick_field(rng, &table::BINARY);
    out.extend_from_slice(b"\r\n");
    out.extend_from_slice(name.as_bytes());
    let kept = push_fields(rng, fields, aim, out);
    if kept == 0 {
        out.push(b':');
    } else if rng.one_in(6) {
        out.extend_from_slice(rng.pick(&[",", ",7", ",a,", ":"]).as_bytes());
    }
    let flaws = Flaws::new(rng);
    binary::push_marker(rng, false, out);
    binary::push_data(rng, flaws, out);
}

/// Any field of any row, each as often as the others: the row, and the field's place in it.
fn pick_field(rng: &mut Rng, rows: &[Row]) -> (Row, usize) {
    let fields = rows.iter().flat_map(|&row| (0..row.1.len()).map(move |at| (row, at)));
    let fields: Vec<_> = fields.collect();
    fields[rng.below(fields.len())]
}

/// The colon and the fields, up to the one that is missing. Returns how many there are.
fn push_fields(rng: &mut Rng, fields: &[Field], aim: usize, out: &mut Vec<u8>) -> usize {
    let second = if rng.one_in(3) { rng.below(fields.len()) } else { aim };
    let kept = match rng.below(6) {
        0 => aim,
        1 => aim.max(second) + 1,
        _ => fields.len(),
    };
    for (at, &field) in fields[..kept].iter().enumerate() {
        out.push(if at == 0 { b':' } else { b',' });
        if at == aim || at == second {
            push_spoilt(rng, field, out);
        } else {
            events::push_field(rng, field, false, false, out);
        }
    }
    kept
}

fn push_spoilt(rng: &mut Rng, field: Field, out: &mut Vec<u8>) {
    let bits = match field {
        Field::Number(bits) => bits,
        // Mostly in no list.
        Field::Protocol | Field::DisconnectReason if rng.one_in(2) => {
            return push_decimal(out, rng.below(256))
        }
        Field::Protocol | Field::DisconnectReason => 8,
        Field::Text => return events::push_field(rng, field, false, false, out),
        Field::TypeIp | Field::TypeBluetooth => {
            return events::push_field(rng, field, true, false, out)
        }
    };
    let max = (1 << bits) - 1;
    match rng.below(8) {
        0 => {}
        1..=3 => push_not_allowed(rng, max, out),
        4 => push_too_large(rng, max, out),
        5 => push_digits(rng, out),
        6 => out.extend_from_slice(rng.pick(&PLUS_SIGNS).as_bytes()),
        _ => pieces::number(rng, max, true, out),
    }
}

/// A number of any size with one character somewhere in it that no number has.
fn push_not_allowed(rng: &mut Rng, max: usize, out: &mut Vec<u8>) {
    let start = out.len();
    match rng.below(4) {
        0 => push_too_large(rng, max, out),
        1 => push_digits(rng, out),
        _ => pieces::number(rng, max, false, out),
    }
    let at = start + rng.below(out.len() - start + 1);
    let rest = out.split_off(at);
    out.extend_from_slice(rng.pick(&NOT_ALLOWED).as_bytes());
    out.extend_from_slice(&rest);
}

/// Mostly one above the largest.
fn push_too_large(rng: &mut Rng, max: usize, out: &mut Vec<u8>) {
    out.extend_from_slice(rng.pick(&["", "", "+", "0", "+000"]).as_bytes());
    let more = if rng.one_in(3) { rng.below(12) } else { 0 };
    push_decimal(out, max + 1 + more);
}

/// Nines, or digits that are a number of few digits after many zeros as often as not.
fn push_digits(rng: &mut Rng, out: &mut Vec<u8>) {
    out.extend_from_slice(rng.pick(&["", "", "+"]).as_bytes());
    let zeros = if rng.one_in(2) { FAR_TOO_MANY - 1 - rng.below(6) } else { 0 };
    out.resize(out.len() + zeros, b'0');
    let nines = rng.one_in(2);
    for _ in zeros..FAR_TOO_MANY {
        out.push(if nines { b'9' } else { b'0' + rng.below(10) as u8 });
    }
}
