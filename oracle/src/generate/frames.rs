//! EDM frames of every kind.

use super::{events, pieces, responses, Flaws};
use crate::rng::Rng;
use crate::table;

const CONNECT: u16 = 0x0011;
const DISCONNECT: u16 = 0x0021;
const DATA_EVENT: u16 = 0x0031;
const DATA_COMMAND: u16 = 0x0036;
pub const EVENT: u16 = 0x0041;
const REQUEST: u16 = 0x0044;
const RESPONSE: u16 = 0x0045;
const RESEND: u16 = 0x0056;
const START: u16 = 0x0071;

/// The event is listed often, since its payload has the most kinds.
pub const IDENTIFIERS: [u16; 13] = [
    CONNECT,
    DISCONNECT,
    DATA_EVENT,
    DATA_COMMAND,
    EVENT,
    REQUEST,
    RESPONSE,
    RESEND,
    START,
    EVENT,
    EVENT,
    CONNECT,
    RESPONSE,
];

const IDENTIFIER: u32 = 0;
const LENGTH: u32 = 1;
const FIRST: u32 = 2;
const LAST: u32 = 3;
const SHORT: u32 = 4;
// The flaws left over are the payload's own, which are the most varied.

pub fn frame(rng: &mut Rng, out: &mut Vec<u8>) {
    let flaws = Flaws::new(rng);
    let mut identifier = IDENTIFIERS[rng.below(IDENTIFIERS.len())];
    let start = open(identifier, out);
    push_payload(rng, identifier, flaws.0 >> (SHORT + 1) != 0, out);
    if flaws.has(IDENTIFIER) {
        identifier = odd_identifier(rng, identifier);
        out[start - 2..start].copy_from_slice(&identifier.to_be_bytes());
    }
    let payload = out.len() - start;
    close(rng, payload, out);
    if flaws.has(LENGTH) {
        let odd = [payload, payload + 1, payload + 3, payload + 6, 0, 4_095, rng.below(65_536)];
        let length = odd[rng.below(odd.len())] as u16;
        out[1..3].copy_from_slice(&length.to_be_bytes());
    }
    damage_ends(rng, flaws, out);
}

/// Everything before the payload, with a length still to come; returns the payload's place.
pub fn open(identifier: u16, out: &mut Vec<u8>) -> usize {
    out.extend_from_slice(&[0xAA, 0, 0]);
    out.extend_from_slice(&identifier.to_be_bytes());
    out.len()
}

/// The end byte and the length, whose top 4 bits are to be ignored and so may be any.
pub fn close(rng: &mut Rng, payload: usize, out: &mut Vec<u8>) {
    let top = if rng.one_in(4) { (rng.next() as u16) & 0xF000 } else { 0 };
    let length = (payload as u16 + 2) ^ top;
    out[1..3].copy_from_slice(&length.to_be_bytes());
    out.push(0x55);
}

fn damage_ends(rng: &mut Rng, flaws: Flaws, out: &mut Vec<u8>) {
    if flaws.has(FIRST) {
        out[0] = [0x55, 0xAB, 0x00, 0x2A][rng.below(4)];
    }
    if flaws.has(LAST) {
        let last = out.len() - 1;
        out[last] = [0xAA, 0x54, 0x00, 0xD5][rng.below(4)];
    }
    if flaws.has(SHORT) {
        out.truncate(rng.below(8));
        if rng.one_in(2) {
            out.push(0x55);
        }
    }
}

fn odd_identifier(rng: &mut Rng, identifier: u16) -> u16 {
    match rng.below(4) {
        0 => identifier ^ 1 << rng.below(16),
        1 => identifier.swap_bytes(),
        2 => [0x0000, 0x0001, 0x0012, 0x0061, 0x0072, 0x0100][rng.below(6)],
        _ => rng.next() as u16,
    }
}

fn push_payload(rng: &mut Rng, identifier: u16, flawed: bool, out: &mut Vec<u8>) {
    match identifier {
        CONNECT => push_connect(rng, flawed, out),
        DISCONNECT => {
            let count = if flawed { [0, 2, 3][rng.below(3)] } else { 1 };
            push_bytes(rng, count, out);
        }
        DATA_EVENT | DATA_COMMAND => {
            let count = if flawed { 0 } else { 1 + rng.below(10) };
            push_bytes(rng, count, out);
        }
        // Under two bytes, which no whole line has.
        EVENT if flawed && rng.one_in(8) => {
            let count = rng.below(2);
            push_bytes(rng, count, out);
        }
        EVENT => events::line(rng, &table::W26, out),
        RESPONSE => responses::text(rng, out),
        REQUEST if flawed => pieces::not_utf8(rng, out),
        REQUEST => {
            pieces::text(rng, false, out);
            out.extend_from_slice(rng.pick(&["\r", "\r", ""]).as_bytes());
        }
        _ => {
            let count = if rng.one_in(2) { 0 } else { rng.below(5) };
            push_bytes(rng, count, out);
        }
    }
}

/// Channel, type and 13 bytes; with a flaw another type, another size, or both.
fn push_connect(rng: &mut Rng, flawed: bool, out: &mut Vec<u8>) {
    let start = out.len();
    push_bytes(rng, 15, out);
    out[start + 1] = 2;
    if flawed {
        if rng.one_in(2) {
            out[start + 1] = [0, 1, 3, 0x82][rng.below(4)];
        }
        if rng.one_in(2) {
            let size = [0, 1, 2, 3, 14, 14, 16, 16, 17, 39][rng.below(10)];
            out.resize(start + size, 7);
        }
    }
}

pub fn push_bytes(rng: &mut Rng, count: usize, out: &mut Vec<u8>) {
    for _ in 0..count {
        out.push(rng.byte());
    }
}
