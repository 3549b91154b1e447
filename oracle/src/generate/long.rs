//! Inputs around the largest frame: a payload of 4,093 bytes is the last that a length can hold. And
//! walks over many events, and numbers of as many digits.

use super::{frames, walks, writes};
use crate::record::{Call, Reader};
use crate::rng::Rng;

const LARGEST_PAYLOAD: usize = 4_093;

/// The beginnings of W26 lines with a text at their end, one that the Rust reads and one of Bluetooth.
const W26: [&[u8]; 2] = [b"\r\n+UUWAPSTAC:0,", b"\r\n+UUBTGN:0,1,"];

/// The bytes of a line with as many digits as `replay` takes, 262,144 bytes with `walk36` before them.
const LARGEST_WALK: usize = 131_068;

pub fn make(rng: &mut Rng, out: &mut Vec<u8>) -> Call {
    let payload = LARGEST_PAYLOAD - 2 + rng.below(10);
    match rng.below(8) {
        0 | 1 => {
            frame(rng, payload, out);
            Call::Read(Reader::Frame)
        }
        2 => {
            frames::push_bytes(rng, payload - 1, out);
            Call::Data { size: size(rng, payload + 6), channel: rng.byte() }
        }
        3 => {
            push_text(rng, payload - 1, out);
            Call::Request { size: size(rng, payload + 6) }
        }
        4 => {
            push_event(rng, payload, out);
            Call::Again26 { size: size(rng, payload) }
        }
        5 => {
            let size = if rng.one_in(20) { LARGEST_WALK } else { payload };
            walks::repeated(rng, size, out);
            Call::Walk36
        }
        6 => number(rng, payload, out),
        _ => {
            out.extend_from_slice(b"\r\n+UESODB:2\x01");
            out.extend_from_slice(&(payload as u16).to_be_bytes());
            frames::push_bytes(rng, payload, out);
            if rng.one_in(3) {
                return Call::Read(Reader::Binary);
            }
            Call::Again36 { size: size(rng, out.len()) }
        }
    }
}

/// A frame whose length is right, if 12 bits can hold it.
fn frame(rng: &mut Rng, payload: usize, out: &mut Vec<u8>) {
    let identifier = frames::IDENTIFIERS[rng.below(frames::IDENTIFIERS.len())];
    frames::open(identifier, out);
    match identifier {
        0x0041 => push_event(rng, payload, out),
        0x0044 => push_text(rng, payload, out),
        0x0045 => push_line(rng, b"AT\r\n", payload, b"\r\nOK\r\n", out),
        _ => frames::push_bytes(rng, payload, out),
    }
    frames::close(rng, payload, out);
}

/// A line with a number of many digits, in a frame for the frame reader.
fn number(rng: &mut Rng, count: usize, out: &mut Vec<u8>) -> Call {
    let reader = Reader::ALL[rng.below(Reader::ALL.len())];
    match reader {
        Reader::W26 => push_number(rng, b"\r\n+UUDPD:", count, b"\r\n", out),
        Reader::W36 => push_number(rng, b"\r\n+UESODA:1,", count, b"\r\n", out),
        Reader::Binary => push_number(rng, b"\r\n+UESODB:", count, b"\x01\x00\x00", out),
        Reader::Frame => {
            frames::open(frames::EVENT, out);
            push_number(rng, b"\r\n+UUBTUC:a,", count, b"\r\n", out);
            frames::close(rng, count, out);
        }
    }
    Call::Why(reader)
}

/// Zeros or nines up to the last digit, and in every second number a byte that is not allowed: the
/// first, the last or any.
fn push_number(rng: &mut Rng, before: &[u8], count: usize, after: &[u8], out: &mut Vec<u8>) {
    out.extend_from_slice(before);
    let (start, digits) = (out.len(), count - before.len() - after.len());
    let digit = if rng.one_in(2) { b'0' } else { b'9' };
    out.resize(start + digits - 1, digit);
    out.push(b'7');
    if rng.one_in(2) {
        let at = [0, digits - 1, rng.below(digits)][rng.below(3)];
        out[start + at] = [b'x', b' ', b'-', b'+'][rng.below(4)];
    }
    out.extend_from_slice(after);
}

fn size(rng: &mut Rng, need: usize) -> usize {
    match rng.below(4) {
        0 => LARGEST_PAYLOAD + 6 + rng.below(12),
        _ => writes::size(rng, need),
    }
}

fn push_event(rng: &mut Rng, count: usize, out: &mut Vec<u8>) {
    let before = rng.pick(&W26);
    push_line(rng, before, count, b"\r\n", out);
}

/// `count` bytes of text in all, between a beginning and an end.
fn push_line(rng: &mut Rng, before: &[u8], count: usize, after: &[u8], out: &mut Vec<u8>) {
    out.extend_from_slice(before);
    push_text(rng, count - before.len() - after.len(), out);
    out.extend_from_slice(after);
}

/// Letters and two-byte characters; one text in eight has a byte at its end that is not UTF-8.
fn push_text(rng: &mut Rng, count: usize, out: &mut Vec<u8>) {
    let end = out.len() + count;
    while out.len() + 1 < end {
        match rng.below(8) {
            0 => out.extend_from_slice("\u{e9}".as_bytes()),
            n => out.push(b'a' + n as u8),
        }
    }
    if out.len() < end {
        out.push(if rng.one_in(8) { 0xC3 } else { b'z' });
    }
}
