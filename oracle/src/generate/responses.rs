//! AT responses.

use super::pieces;
use crate::rng::Rng;

const PARTS: [&str; 16] = [
    "\r\n", "\r\n", "\r\n", "\r\n", "OK", "OK", "ERROR", "+A", "AT", "\r", "\n", "O", "OKK", " OK",
    "ok", "\u{e9}",
];

/// A body as radios send it, between the echo and the last line end.
const BODIES: [&str; 12] = [
    "OK",
    "ERROR",
    "",
    "+A\r\nOK",
    "+UMSTAT:1,2\r\nOK",
    "+A\r\nERROR",
    "OK\r\nOK",
    "OK\r\n",
    "\r\nOK",
    "a\r\n\r\nOK",
    "+A",
    "ERROR\r\nOK",
];

pub fn text(rng: &mut Rng, out: &mut Vec<u8>) {
    if rng.one_in(2) {
        out.extend_from_slice(rng.pick(&["", "", "AT", "AT+A=1\r", "\u{e9}"]).as_bytes());
        out.extend_from_slice(b"\r\n");
        out.extend_from_slice(rng.pick(&BODIES).as_bytes());
        out.extend_from_slice(b"\r\n");
    } else {
        for _ in 0..rng.below(8) {
            out.extend_from_slice(rng.pick(&PARTS).as_bytes());
        }
    }
    if rng.one_in(15) {
        let at = rng.below(out.len() + 1);
        let rest = out.split_off(at);
        pieces::not_utf8(rng, out);
        out.extend_from_slice(&rest);
    }
}
