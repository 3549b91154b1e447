//! W36 reads of several events.

use super::{binary, events, pieces, Flaws};
use crate::rng::Rng;
use crate::table;

/// At most so many events of each kind.
const MOST: usize = 3;

/// Binary events stand first, as a text event is read only where all after it is text and ends in
/// CR LF. One read in eight has them in any order.
pub fn buffer(rng: &mut Rng, out: &mut Vec<u8>) {
    let (binaries, texts) = (rng.below(MOST + 1), rng.below(MOST + 1));
    let count = binaries + texts;
    let flawed = if rng.one_in(2) { rng.below(count + 1) } else { count };
    let mixed = rng.one_in(8);
    for at in 0..count {
        let flaws = if at == flawed { Flaws::new(rng) } else { Flaws::NONE };
        let is_binary = if mixed { rng.one_in(2) } else { at < binaries };
        if is_binary {
            binary::event(rng, flaws, out);
        } else {
            events::line_with(rng, &table::W36, flaws, out);
        }
    }
    if rng.one_in(10) {
        push_behind(rng, out);
    }
}

/// One of these lines again and again, as often as it fits into `size` bytes, and at times a line end
/// after them that is refused. No event has a longer answer for its bytes than the first.
pub fn repeated(rng: &mut Rng, size: usize, out: &mut Vec<u8>) {
    let lines: [&[u8]; 5] = [
        b"\r\n+UEWAPSA:\r\n",
        b"\r\n+UEWAPSDA:\r\n",
        b"\r\n+UEWAPND\r\n",
        b"\r\n+UESOC:255\r\n",
        b"\r\n+UESODB:2\x01\x00\x00",
    ];
    let line = rng.pick(&lines);
    while out.len() + line.len() <= size {
        out.extend_from_slice(line);
    }
    if out.len() + 2 <= size && rng.one_in(2) {
        out.extend_from_slice(b"\r\n");
    }
}

/// What belongs to no event.
fn push_behind(rng: &mut Rng, out: &mut Vec<u8>) {
    let foreign: [&[u8]; 6] = [b"\r\n", b"\r\n\r\n", b"\n", b"\xFF", b"OK\r\n", b"\r\n+UESODB:"];
    if rng.one_in(3) {
        pieces::rubbish(rng, out);
    } else {
        out.extend_from_slice(rng.pick(&foreign));
    }
}
