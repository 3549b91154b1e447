//! W36 lines with inline data.

use super::{pieces, Flaws};
use crate::rng::Rng;

const PREFIX: u32 = 0;
const NUMBER: u32 = 1;
const TEXT: u32 = 2;
const COMMAS: u32 = 3;
const MARKER: u32 = 4;
const EARLY: u32 = 5;
const LENGTH: u32 = 6;
const CUT: u32 = 7;

/// An event, and now and then something after it.
pub fn line(rng: &mut Rng, out: &mut Vec<u8>) {
    let flaws = Flaws::new(rng);
    event(rng, flaws, out);
    if !flaws.has(CUT) && rng.one_in(4) {
        pieces::rubbish(rng, out);
    }
}

pub fn event(rng: &mut Rng, flaws: Flaws, out: &mut Vec<u8>) {
    let with_address = rng.one_in(2);
    push_prefix(rng, with_address, flaws.has(PREFIX), out);
    let start = out.len();
    push_fields(rng, with_address, flaws, out);
    if flaws.has(EARLY) {
        let at = start + rng.below(out.len() - start + 1);
        out.insert(at, 1);
    }
    push_marker(rng, flaws.has(MARKER), out);
    push_data(rng, flaws, out);
}

fn push_prefix(rng: &mut Rng, with_address: bool, flawed: bool, out: &mut Vec<u8>) {
    let odd = [
        "\r\n+UESODB",
        "\r\n+UESODBF",
        "\r\n+UESODBG:",
        "\n+UESODB:",
        "\r\n+UESODA:",
        "ab+UESODB:",
        "+UESODB:",
        "\r\n+uesodb:",
        "\r\n\r\n+UESODB:",
        "\r\n+UESODB :",
        "\r\nUESODBF:",
        "\r\n",
    ];
    let prefix = match (flawed, with_address) {
        (true, _) => rng.pick(&odd),
        (_, true) => "\r\n+UESODBF:",
        (_, false) => "\r\n+UESODB:",
    };
    out.extend_from_slice(prefix.as_bytes());
}

fn push_fields(rng: &mut Rng, with_address: bool, flaws: Flaws, out: &mut Vec<u8>) {
    let start = out.len();
    let flawed = rng.below(2);
    pieces::number(rng, 255, flaws.has(NUMBER) && flawed == 0, out);
    if with_address {
        out.push(b',');
        pieces::text(rng, flaws.has(TEXT), out);
        out.push(b',');
        pieces::number(rng, 65_535, flaws.has(NUMBER) && flawed == 1, out);
    } else if flaws.has(TEXT) {
        pieces::text(rng, true, out);
    }
    if flaws.has(COMMAS) {
        match rng.below(3) {
            0 => out.extend_from_slice(b",1"),
            1 => out.push(b','),
            _ => drop_last_comma(out, start),
        }
    }
}

/// The last comma among the fields, which begin at `start`, and what stands after it.
fn drop_last_comma(out: &mut Vec<u8>, start: usize) {
    if let Some(at) = out[start..].iter().rposition(|&b| b == b',') {
        out.truncate(start + at);
    }
}

pub fn push_marker(rng: &mut Rng, flawed: bool, out: &mut Vec<u8>) {
    let odd: [&[u8]; 4] = [b"", b"\x02", b"\xC3\x01", b"\x01\x01"];
    out.extend_from_slice(if flawed { rng.pick(&odd) } else { b"\x01" });
}

/// The two length bytes and the data.
pub fn push_data(rng: &mut Rng, flaws: Flaws, out: &mut Vec<u8>) {
    let start = out.len();
    let count = if rng.one_in(60) { 250 + rng.below(12) } else { rng.below(8) };
    let mut length = count as u16;
    if flaws.has(LENGTH) {
        let odd =
            [length + 1, length + 2, length.wrapping_sub(1), length + 256, length << 8, 65_535];
        length = odd[rng.below(odd.len())];
    }
    out.extend_from_slice(&length.to_be_bytes());
    for _ in 0..count {
        let b = if rng.one_in(3) { pieces::mark(rng) } else { rng.byte() };
        out.push(b);
    }
    if flaws.has(CUT) {
        let kept = rng.below(out.len() - start + 1).min(rng.below(6));
        out.truncate(start + kept);
    }
}
