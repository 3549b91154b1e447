//! Dumps of a bad cable: good frames between damaged ones and rubbish (02, request 8).

use super::{damage, frames};
use crate::rng::Rng;

/// One dump in this many has a size at the limit, or that of a line as long as `replay` takes: 262,143
/// bytes with `scan` before the digits.
const FULL: usize = 1_000;
const SIZES: [usize; 6] = [65_535, 65_536, 65_536, 65_537, 65_537, 131_069];

/// One dump in this many has many parts, and one has none; the others have up to `PARTS`.
const MANY: usize = 60;
const PARTS: usize = 6;

/// One frame in this many is large. The payloads are at the ends of one byte of length, of eleven bits and
/// of twelve.
const LARGE: usize = 60;
const LARGE_PAYLOADS: [usize; 8] = [252, 253, 254, 255, 2_045, 2_046, 4_092, 4_093];

/// What a search turns on: the ends of a frame, bytes of small lengths, and top bits of a length.
const MARKS: [u8; 10] = [0xAA, 0xAA, 0x55, 0x55, 0x00, 0x00, 0x01, 0x02, 0x03, 0xF0];

pub fn dump(rng: &mut Rng, out: &mut Vec<u8>) {
    if rng.one_in(FULL) {
        return full(rng, out);
    }
    let count = match rng.below(MANY) {
        0 => 0,
        1 => 20 + rng.below(80),
        _ => 1 + rng.below(PARTS),
    };
    (0..count).for_each(|_| push_part(rng, out));
    // A frame at the end then ends too late for the dump.
    if rng.one_in(5) {
        out.pop();
    }
}

fn push_part(rng: &mut Rng, out: &mut Vec<u8>) {
    let mut part = Vec::new();
    match rng.below(16) {
        0..=2 => frames::frame(rng, &mut part),
        3..=6 => whole(rng, &mut part),
        7 | 8 => {
            whole(rng, &mut part);
            damage_byte(rng, &mut part);
        }
        9 => {
            whole(rng, &mut part);
            damage::damage(rng, &mut part);
        }
        10 => {
            whole(rng, &mut part);
            part.truncate(rng.below(part.len()));
        }
        11 => small_length(rng, &mut part),
        12 => part.resize(1 + rng.below(9), 0xAA),
        13 => push_marks(rng, 9, &mut part),
        14 => push_marks(rng, 2, &mut part),
        _ => {
            let count = rng.below(20);
            frames::push_bytes(rng, count, &mut part);
        }
    }
    out.extend_from_slice(&part);
}

/// Fewer marks than `most`.
fn push_marks(rng: &mut Rng, most: usize, out: &mut Vec<u8>) {
    let count = rng.below(most);
    out.extend((0..count).map(|_| MARKS[rng.below(MARKS.len())]));
}

/// A frame that passes the first three checks, whatever its payload is. Only two large ones inside each
/// other have more bytes than a length can count.
fn whole(rng: &mut Rng, out: &mut Vec<u8>) {
    let identifier = frames::IDENTIFIERS[rng.below(frames::IDENTIFIERS.len())];
    let start = frames::open(identifier, out);
    match rng.below(6) {
        _ if rng.one_in(LARGE) => {
            let count = LARGE_PAYLOADS[rng.below(LARGE_PAYLOADS.len())];
            frames::push_bytes(rng, count, out);
        }
        0 => {}
        1 | 2 => push_marks(rng, 9, out),
        3 => {
            let mut inside = Vec::new();
            whole(rng, &mut inside);
            out.extend_from_slice(&inside);
        }
        _ => {
            let count = rng.below(9);
            frames::push_bytes(rng, count, out);
        }
    }
    let payload = out.len() - start;
    frames::close(rng, payload, out);
}

/// Another byte, as often among the first three or the last as anywhere.
fn damage_byte(rng: &mut Rng, frame: &mut [u8]) {
    let at = match rng.below(4) {
        0 => rng.below(3),
        1 => frame.len() - 1,
        _ => rng.below(frame.len()),
    };
    frame[at] = match rng.below(3) {
        0 => frame[at] ^ 1 << rng.below(8),
        1 => MARKS[rng.below(MARKS.len())],
        _ => rng.byte(),
    };
}

/// A length of 0 to 3, and about as many bytes.
fn small_length(rng: &mut Rng, out: &mut Vec<u8>) {
    let top = if rng.one_in(4) { rng.byte() & 0xF0 } else { 0 };
    out.extend_from_slice(&[0xAA, top, rng.below(4) as u8]);
    push_marks(rng, 4, out);
    out.push(0x55);
}

/// No ranges have a longer answer for their bytes than the smallest frames with one byte between them.
fn full(rng: &mut Rng, out: &mut Vec<u8>) {
    let size = SIZES[rng.below(SIZES.len())];
    let alternating = rng.one_in(2);
    while out.len() < size {
        match alternating {
            true => out.extend_from_slice(b"\0\xAA\0\x02\0\x71\x55"),
            false => push_part(rng, out),
        }
    }
    out.truncate(size);
}
