//! Writes: commands, and events that are read and written again.

use super::{binary, events, frames, pieces};
use crate::record::Call;
use crate::rng::Rng;
use crate::table;

pub fn make(rng: &mut Rng, out: &mut Vec<u8>) -> Call {
    match rng.below(22) {
        0..=4 => {
            let count = rng.below(20);
            frames::push_bytes(rng, count, out);
            Call::Data { size: size(rng, count + 7), channel: rng.byte() }
        }
        5..=9 => {
            request_text(rng, out);
            Call::Request { size: size(rng, out.len() + 7) }
        }
        10 => Call::Resend { size: size(rng, 6) },
        11..=15 => {
            events::line(rng, &table::W26, out);
            insert_cr(rng, out);
            Call::Again26 { size: size(rng, out.len()) }
        }
        n => {
            if n < 19 {
                events::line(rng, &table::W36, out);
            } else {
                binary::line(rng, out);
            }
            insert_cr(rng, out);
            Call::Again36 { size: size(rng, out.len()) }
        }
    }
}

/// Now and then a CR somewhere in the later half, where texts stand: it is read and never written.
fn insert_cr(rng: &mut Rng, out: &mut Vec<u8>) {
    if rng.one_in(10) {
        let at = out.len() - rng.below(out.len() / 2 + 1);
        out.insert(at, b'\r');
    }
}

fn request_text(rng: &mut Rng, out: &mut Vec<u8>) {
    if rng.one_in(5) {
        return pieces::not_utf8(rng, out);
    }
    out.extend_from_slice(rng.pick(&["AT", "AT+UMRS=1,2", "", "ATO2\r"]).as_bytes());
    if rng.one_in(3) {
        let odd = rng.one_in(3);
        pieces::text(rng, odd, out);
    }
}

/// Mostly around the size that is needed; now and then far too small or with much room.
pub fn size(rng: &mut Rng, need: usize) -> usize {
    match rng.below(10) {
        0 => rng.below(9),
        1 => need + rng.below(60),
        2..=4 => need,
        _ => (need + rng.below(7)).saturating_sub(3),
    }
}
