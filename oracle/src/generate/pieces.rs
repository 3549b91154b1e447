//! What lines are made of: numbers, texts and odd bytes.

use crate::record::push_decimal;
use crate::rng::Rng;

/// Spellings that are no number, or one past the edge of 8, 16 or 32 bits, or just a strange one.
const ODD_NUMBERS: [&str; 46] = [
    "",
    "+",
    "++7",
    "+-7",
    "-0",
    "-1",
    "-",
    " 7",
    "7 ",
    "+ 7",
    "7+",
    "7x",
    "x",
    "256x",
    "0x7",
    "7.0",
    "1e1",
    "7\n",
    "\n7",
    "7:",
    "7\u{1}",
    "/",
    "\u{667}",
    "\u{ff17}",
    "\u{b2}",
    "7\u{0}",
    "255",
    "256",
    "257",
    "260",
    "65535",
    "65536",
    "65537",
    "65540",
    "99999",
    "4294967295",
    "4294967296",
    "4294967300",
    "4294967303",
    "42949672950",
    "18446744073709551616",
    "18446744073709551623",
    "+00000000000000000000065536",
    "+0000000000004294967295",
    "0000000000004294967296",
    "000000000000000000000000000000429496729",
];

/// Both ends of every row of Table 3-7.
const UTF8: [&[u8]; 18] = [
    b"\x00",
    b"\x7F",
    b"\xC2\x80",
    b"\xDF\xBF",
    b"\xE0\xA0\x80",
    b"\xE0\xBF\xBF",
    b"\xE1\x80\x80",
    b"\xEC\xBF\xBF",
    b"\xED\x80\x80",
    b"\xED\x9F\xBF",
    b"\xEE\x80\x80",
    b"\xEF\xBF\xBF",
    b"\xF0\x90\x80\x80",
    b"\xF0\xBF\xBF\xBF",
    b"\xF1\x80\x80\x80",
    b"\xF3\xBF\xBF\xBF",
    b"\xF4\x80\x80\x80",
    b"\xF4\x8F\xBF\xBF",
];

/// Just outside a row, cut short, or with a byte of another row.
const NOT_UTF8: [&[u8]; 30] = [
    b"\x80",
    b"\xBF",
    b"\xC0\x80",
    b"\xC1\xBF",
    b"\xC2",
    b"\xC2\x7F",
    b"\xC2\xC0",
    b"\xDF\xC0",
    b"\xE0\x9F\xBF",
    b"\xE0\xC0\x80",
    b"\xE0\xA0",
    b"\xE0\xA0\x7F",
    b"\xE0\xA0\xC0",
    b"\xE1\x80",
    b"\xE1\x7F\x80",
    b"\xEC\xC0\x80",
    b"\xED\xA0\x80",
    b"\xED\xBF\xBF",
    b"\xEF\xBF\xC0",
    b"\xEF",
    b"\xF0\x8F\xBF\xBF",
    b"\xF0\x90\x80",
    b"\xF0\x90\x80\xC0",
    b"\xF1\x80\x7F\x80",
    b"\xF3\xBF\xBF\x7F",
    b"\xF4\x90\x80\x80",
    b"\xF4\x8F\xBF",
    b"\xF5\x80\x80\x80",
    b"\xFE",
    b"\xFF",
];

/// Text that may stand in a field and be written again.
const TEXTS: [&str; 12] = [
    "",
    "",
    "a",
    "AB",
    "001122334455",
    "00:1A:2b:3C:4d:5E",
    "192.168.0.1",
    "10.0.0.255",
    "fe80::1:2",
    "::",
    " x ",
    "a:b\nc",
];

/// Text that ends a field, or a line, or cannot be written again.
const ODD_TEXTS: [&str; 12] = [
    ",",
    "a,b",
    ",,",
    "\r",
    "a\rb",
    "\r\n",
    "AB\r\n\r\n+UUNU:1",
    "\r\n+UESOC:2",
    "\u{1}",
    "a\u{1}b",
    "\n\r",
    "0,1,2,3,4,5,6,7",
];

/// The bytes that mean something to some reader.
const MARKS: [u8; 24] = [
    b'\r', b'\n', b':', b',', b'+', b'-', b' ', b'0', b'1', b'2', b'9', b'U', b'O', b'K', 0x00,
    0x01, 0x55, 0x7F, 0x80, 0xA9, 0xAA, 0xC3, 0xE2, 0xFF,
];

pub fn mark(rng: &mut Rng) -> u8 {
    MARKS[rng.below(MARKS.len())]
}

/// A number up to `max` in one of its spellings; with a flaw, mostly none.
pub fn number(rng: &mut Rng, max: usize, flawed: bool, out: &mut Vec<u8>) {
    if flawed && !rng.one_in(4) {
        out.extend_from_slice(rng.pick(&ODD_NUMBERS).as_bytes());
        return;
    }
    if rng.one_in(8) {
        out.push(b'+');
    }
    if rng.one_in(8) {
        let zeros = if rng.one_in(16) { 40 } else { 1 + rng.below(4) };
        out.resize(out.len() + zeros, b'0');
    }
    let value = match rng.below(6) {
        _ if flawed => max + 1 + rng.below(4),
        0 => [0, 1, max - 1, max][rng.below(4)],
        1 | 2 => rng.below(max + 1),
        _ => rng.below(20),
    };
    push_decimal(out, value);
}

pub fn text(rng: &mut Rng, flawed: bool, out: &mut Vec<u8>) {
    if !flawed {
        match rng.below(4) {
            0 => out.extend_from_slice(rng.pick(&UTF8)),
            _ => out.extend_from_slice(rng.pick(&TEXTS).as_bytes()),
        }
        return;
    }
    match rng.below(3) {
        0 => not_utf8(rng, out),
        1 => out.extend_from_slice(rng.pick(&ODD_TEXTS).as_bytes()),
        _ => {
            out.extend_from_slice(rng.pick(&TEXTS).as_bytes());
            out.extend_from_slice(rng.pick(&ODD_TEXTS).as_bytes());
        }
    }
}

pub fn not_utf8(rng: &mut Rng, out: &mut Vec<u8>) {
    if rng.one_in(2) {
        out.extend_from_slice(rng.pick(&TEXTS).as_bytes());
    }
    out.extend_from_slice(rng.pick(&NOT_UTF8));
    if rng.one_in(2) {
        out.extend_from_slice(rng.pick(&UTF8));
    }
}

/// The two bytes before an event's name. They may be any; with a flaw there may be fewer or more, or
/// a character may lie across place 2.
pub fn lead(rng: &mut Rng, flawed: bool, out: &mut Vec<u8>) {
    let odd: [&[u8]; 6] = [b"", b"\n", b"\r", b"\r\n\r\n", b"\r\n:", b"A\xC3\xA9"];
    let good: [&[u8]; 5] = [b"::", b"\n\r", b"\xC3\xA9", b"ab", b"\r\r"];
    if flawed && rng.one_in(2) {
        out.resize(out.len() + rng.below(3), b'A');
        out.extend_from_slice(if rng.one_in(4) { rng.pick(&NOT_UTF8) } else { rng.pick(&UTF8) });
    } else if flawed {
        out.extend_from_slice(rng.pick(&odd));
    } else if rng.one_in(12) {
        out.extend_from_slice(rng.pick(&good));
    } else {
        out.extend_from_slice(b"\r\n");
    }
}

/// Up to eight bytes without any plan, for the shortest inputs.
pub fn rubbish(rng: &mut Rng, out: &mut Vec<u8>) {
    for _ in 0..rng.below(9) {
        let b = if rng.one_in(5) { rng.byte() } else { mark(rng) };
        out.push(b);
    }
}
