//! Capture files of both byte orders (02, request 7).

use super::{binary, damage, events, frames, pieces, responses, Flaws};
use crate::pcap::{Order, HEADER_BYTES, HEAD_BYTES};
use crate::rng::Rng;
use crate::table;

const HEADER: u32 = 0;
const TIME: u32 = 1;
const DIFFER: u32 = 2;
const LENGTH: u32 = 3;
const MIXED: u32 = 4;
const CUT: u32 = 5;
const TRAILING: u32 = 6;
const FLIPPED: u32 = 7;

/// Those that a record is needed for.
const OF_RECORD: u32 = 1 << TIME | 1 << DIFFER | 1 << LENGTH | 1 << MIXED;

/// Of nanoseconds, of other kinds of captures, and close to ours.
const OTHER_MAGICS: [u32; 9] = [
    0xA1B2_3C4D,
    0xA1B2_3C4D,
    0xA1B2_CD34,
    0x0A0D_0D0A,
    0xC3D4_A1B2,
    0xB2A1_D4C3,
    0xA1B2_C3D5,
    0x21B2_C3D4,
    0,
];

/// The last ones are 2.4 with the bytes of a part exchanged.
const OTHER_VERSIONS: [(u32, u32); 12] = [
    (2, 3),
    (2, 5),
    (3, 4),
    (4, 2),
    (1, 4),
    (0, 4),
    (2, 0),
    (0x0102, 4),
    (2, 0x0104),
    (0x0200, 4),
    (2, 0x0400),
    (0x0200, 0x0400),
];

const OTHER_LINK_TYPES: [u32; 12] = [
    146,
    148,
    0,
    1,
    162,
    147 | 1 << 8,
    147 | 1 << 16,
    147 | 1 << 26,
    147 | 1 << 28,
    147 | 1 << 31,
    147 << 8,
    147 << 24,
];

/// For the zone and the accuracy, which may be any, as the snap length may.
const ZONES: [u32; 6] = [0, 1, 3_600, 0x8000_0000, 0xFFFF_F1F0, 0xFFFF_FFFF];
const SNAP_LENGTHS: [u32; 7] = [0, 1, 4_098, 4_100, 65_535, 262_144, 0xFFFF_FFFF];

const SECONDS: [u32; 8] = [0, 1, 9, 10, 999_999_999, 0x7FFF_FFFF, 0x8000_0000, 0xFFFF_FFFF];
const MICROSECONDS: [u32; 12] =
    [0, 1, 9, 10, 99, 100, 999, 1_000, 99_999, 100_000, 999_998, 999_999];
const TOO_MANY: [u32; 8] =
    [1_000_000, 1_000_000, 1_000_001, 1_048_575, 1_065_535, 999_999_999, 0x8000_0000, 0xFFFF_FFFF];

const LARGEST_FRAME: usize = 4_099;

/// One file in this many has a frame of that size, or of one byte less or more.
const LARGE: usize = 150;

/// One file in this many is as long as a line can be that `replay` takes.
const MANY: usize = 4_000;

/// The bytes of a line of 262,143 bytes with `pcap` before its digits.
const LARGEST_FILE: usize = 131_069;

/// Other files have at most so many records.
const MOST: usize = 6;

pub fn file(rng: &mut Rng, out: &mut Vec<u8>) {
    let order = Order::ALL[rng.below(2)];
    if rng.one_in(MANY) {
        return many(rng, order, out);
    }
    if rng.one_in(60) {
        return pieces::rubbish(rng, out);
    }
    let flaws = Flaws::new(rng);
    push_header(rng, order, flaws, out);
    let heads = push_records(rng, order, flaws, out);
    if flaws.has(FLIPPED) {
        flip(rng, &heads, out);
    }
    if flaws.has(CUT) {
        cut(rng, &heads, out);
    }
    if flaws.has(TRAILING) {
        push_trailing(rng, out);
    }
    if rng.one_in(40) {
        damage::damage(rng, out);
    }
}

fn other(order: Order) -> Order {
    match order {
        Order::Little => Order::Big,
        Order::Big => Order::Little,
    }
}

/// The low bytes of a number, as many as `size`.
fn push_number(order: Order, size: usize, number: u32, out: &mut Vec<u8>) {
    let mut bytes = number.to_be_bytes();
    let bytes = &mut bytes[4 - size..];
    if order == Order::Little {
        bytes.reverse();
    }
    out.extend_from_slice(bytes);
}

fn pick(rng: &mut Rng, from: &[u32]) -> u32 {
    from[rng.below(from.len())]
}

/// A number of a list as often as any.
fn pick_or_any(rng: &mut Rng, from: &[u32]) -> u32 {
    if rng.one_in(2) {
        pick(rng, from)
    } else {
        rng.next() as u32
    }
}

/// Every second header has our values where any would do.
fn push_header(rng: &mut Rng, order: Order, flaws: Flaws, out: &mut Vec<u8>) {
    let (mut magic, mut version, mut link_type) = (0xA1B2_C3D4, (2, 4), 147);
    match rng.below(3) {
        _ if !flaws.has(HEADER) => {}
        0 => magic = pick(rng, &OTHER_MAGICS),
        1 => version = OTHER_VERSIONS[rng.below(OTHER_VERSIONS.len())],
        _ => link_type = pick(rng, &OTHER_LINK_TYPES),
    }
    let (mut zone, mut accuracy, mut snap_length) = (0, 0, LARGEST_FRAME as u32);
    if rng.one_in(2) {
        zone = pick_or_any(rng, &ZONES);
        accuracy = pick_or_any(rng, &ZONES);
        snap_length = pick_or_any(rng, &SNAP_LENGTHS);
    }
    push_number(order, 4, magic, out);
    // The others are mixed from the first record on.
    let order = if flaws.has(MIXED) && rng.one_in(4) { other(order) } else { order };
    push_number(order, 2, version.0, out);
    push_number(order, 2, version.1, out);
    for number in [zone, accuracy, snap_length, link_type] {
        push_number(order, 4, number, out);
    }
}

/// Returns the place of each record.
fn push_records(rng: &mut Rng, order: Order, flaws: Flaws, out: &mut Vec<u8>) -> Vec<usize> {
    let large = rng.one_in(LARGE);
    let least = usize::from(large || flaws.0 & OF_RECORD != 0);
    let count = rng.below(MOST + 1).min(rng.below(MOST + 1)).max(least);
    // One record carries the flaw, so that those before it are read.
    let flawed = rng.below(count.max(1));
    let mut heads = Vec::new();
    for at in 0..count {
        let frame = frame(rng, large && at == flawed);
        heads.push(out.len());
        push_head(rng, order, if at == flawed { flaws } else { Flaws::NONE }, frame.len(), out);
        out.extend_from_slice(&frame);
    }
    heads
}

/// What stands before a frame.
fn push_head(rng: &mut Rng, order: Order, flaws: Flaws, length: usize, out: &mut Vec<u8>) {
    let seconds = pick_or_any(rng, &SECONDS);
    let microseconds = match rng.below(2) {
        _ if flaws.has(TIME) => pick(rng, &TOO_MANY),
        0 => pick(rng, &MICROSECONDS),
        _ => rng.below(1_000_000) as u32,
    };
    let [kept, original] = lengths(rng, length as u32, flaws);
    let (mut of_time, mut of_lengths) = (order, order);
    if flaws.has(MIXED) {
        of_lengths = other(order);
        of_time = if rng.one_in(3) { order } else { of_lengths };
    }
    push_number(of_time, 4, seconds, out);
    push_number(of_time, 4, microseconds, out);
    push_number(of_lengths, 4, kept, out);
    push_number(of_lengths, 4, original, out);
}

fn lengths(rng: &mut Rng, length: u32, flaws: Flaws) -> [u32; 2] {
    let others = [
        length + 1,
        length.wrapping_sub(1),
        0,
        length.swap_bytes(),
        length | 1 << 8,
        length | 1 << 16,
        length | 1 << 31,
        LARGEST_FRAME as u32,
        LARGEST_FRAME as u32 + 1,
        0xFFFF_FFFF,
    ];
    let mut lengths = [length; 2];
    if flaws.has(LENGTH) {
        lengths = [pick(rng, &others); 2];
    }
    if flaws.has(DIFFER) {
        lengths[rng.below(2)] = pick(rng, &others);
    }
    lengths
}

/// What the other readers read, other bytes, or none: a capture keeps them all.
fn frame(rng: &mut Rng, large: bool) -> Vec<u8> {
    let mut frame = Vec::new();
    match rng.below(10) {
        _ if large => {
            let size = LARGEST_FRAME - 1 + rng.below(3);
            frames::push_bytes(rng, size, &mut frame);
        }
        0 | 1 => {}
        2..=4 => frames::frame(rng, &mut frame),
        5 => events::line(rng, &table::W26, &mut frame),
        6 => binary::line(rng, &mut frame),
        7 => responses::text(rng, &mut frame),
        _ => {
            let size = rng.below(20);
            frames::push_bytes(rng, size, &mut frame);
        }
    }
    frame
}

/// Another byte in the header or before a frame.
fn flip(rng: &mut Rng, heads: &[usize], out: &mut [u8]) {
    let at = match heads {
        [_, ..] if !rng.one_in(3) => heads[rng.below(heads.len())] + rng.below(HEAD_BYTES),
        _ => rng.below(HEADER_BYTES),
    };
    out[at] ^= if rng.one_in(2) { 1 << rng.below(8) } else { rng.byte() };
}

/// Cut anywhere, but mostly where a part begins or ends, or one byte beside that.
fn cut(rng: &mut Rng, heads: &[usize], out: &mut Vec<u8>) {
    let part = match heads {
        [] => HEADER_BYTES,
        _ => heads[rng.below(heads.len())],
    };
    let size = match rng.below(8) {
        0 => rng.below(out.len()),
        1 => rng.below(HEADER_BYTES),
        2 => HEADER_BYTES - rng.below(2),
        3 => out.len() - 1,
        4 => part + 1 - rng.below(3),
        5 => part + rng.below(HEAD_BYTES),
        _ => part + HEAD_BYTES + 1 - rng.below(3),
    };
    out.truncate(size);
}

/// Bytes after the last record: any, or zeros, of which sixteen are a record.
fn push_trailing(rng: &mut Rng, out: &mut Vec<u8>) {
    let count = 1 + rng.below(20);
    if rng.one_in(2) {
        frames::push_bytes(rng, count, out);
    } else {
        out.resize(out.len() + count, 0);
    }
}

/// No record has a longer answer for its bytes than these. The last one is cut in every second file.
fn many(rng: &mut Rng, order: Order, out: &mut Vec<u8>) {
    push_header(rng, order, Flaws::NONE, out);
    let mut head = Vec::new();
    for number in [0xFFFF_FFFF, 999_999, 0, 0] {
        push_number(order, 4, number, &mut head);
    }
    while out.len() + HEAD_BYTES <= LARGEST_FILE {
        out.extend_from_slice(&head);
    }
    if rng.one_in(2) {
        out.resize(LARGEST_FILE, 0);
    }
}
