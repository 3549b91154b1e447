//! Damaged copies of what was made: bytes changed, added, lost, moved or repeated.

use super::pieces;
use crate::rng::Rng;

pub fn damage(rng: &mut Rng, bytes: &mut Vec<u8>) {
    for _ in 0..1 + rng.below(2) {
        once(rng, bytes);
    }
}

fn once(rng: &mut Rng, bytes: &mut Vec<u8>) {
    if bytes.is_empty() {
        return bytes.push(pieces::mark(rng));
    }
    let (at, other) = (rng.below(bytes.len()), rng.below(bytes.len()));
    match rng.below(9) {
        0 => bytes[at] ^= 1 << rng.below(8),
        1 => bytes[at] = pieces::mark(rng),
        2 => bytes.insert(at, pieces::mark(rng)),
        3 => bytes.insert(at, rng.byte()),
        4 => drop(bytes.remove(at)),
        5 => bytes.truncate(at),
        6 => drop(bytes.drain(..at)),
        7 => repeat(rng, at, bytes),
        _ => bytes.swap(at, other),
    }
}

/// Up to eight bytes from `at` on stand there twice.
fn repeat(rng: &mut Rng, at: usize, bytes: &mut Vec<u8>) {
    let end = bytes.len().min(at + 1 + rng.below(8));
    let part = bytes[at..end].to_vec();
    bytes.splice(at..at, part);
}
