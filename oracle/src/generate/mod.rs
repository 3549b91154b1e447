//! Random questions. A seed gives the same lines on every machine.

mod aimed;
mod binary;
mod captures;
mod damage;
mod dumps;
mod events;
mod frames;
mod long;
mod pieces;
mod responses;
mod walks;
mod writes;

use crate::record::{self, Call, Reader};
use crate::rng::Rng;
use crate::table;

/// One line in this many is long (about 4,100 bytes); the others have some dozens of bytes.
const LONG: usize = 400;

/// One input in this many of those that a reader reads is asked about with the field and the reason.
const WHY: usize = 6;

/// And one in this many of those that can be explained is explained.
const EXPLAIN: usize = 4;

/// One line in this many is a dump, and one of the others in this many a capture.
const DUMP: usize = 32;
const CAPTURE: usize = 16;

/// Up to two things in which a line or frame departs from a good one. Most lines have none, so that
/// every event is read often, and the others show one refusal at a time.
#[derive(Clone, Copy)]
struct Flaws(u32);

impl Flaws {
    const KINDS: usize = 8;
    const NONE: Flaws = Flaws(0);

    fn new(rng: &mut Rng) -> Flaws {
        match rng.below(20) {
            0..=10 => Flaws::NONE,
            11..=17 => Flaws(1 << rng.below(Flaws::KINDS)),
            _ => Flaws(1 << rng.below(Flaws::KINDS) | 1 << rng.below(Flaws::KINDS)),
        }
    }

    fn has(self, flaw: u32) -> bool {
        self.0 >> flaw & 1 == 1
    }
}

/// Sets the random numbers of dumps apart from those of captures and of other lines.
const DUMPS_APART: u64 = 0xAA55_AA55;

/// Captures and dumps have random numbers of their own, so that the other lines of a seed are the same
/// with and without them.
pub struct Maker {
    rng: Rng,
    captures: Option<Rng>,
    dumps: Option<Rng>,
    bytes: Vec<u8>,
    explains: bool,
}

impl Maker {
    pub fn new(seed: u64) -> Maker {
        let captures = Some(Rng::new(!seed));
        let dumps = Some(Rng::new(seed ^ DUMPS_APART));
        Maker { rng: Rng::new(seed), captures, dumps, bytes: Vec::new(), explains: true }
    }

    /// The same inputs without what the crate does not have: captures, dumps, and a word that explains.
    #[cfg(feature = "archive")]
    pub fn for_crate(seed: u64) -> Maker {
        Maker { captures: None, dumps: None, explains: false, ..Maker::new(seed) }
    }

    /// Appends one record line.
    pub fn line(&mut self, out: &mut Vec<u8>) {
        let (rng, bytes) = (&mut self.rng, &mut self.bytes);
        bytes.clear();
        // Before captures are drawn, so that those too are the same without dumps.
        if let Some(rng) = &mut self.dumps {
            if rng.one_in(DUMP) {
                dumps::dump(rng, bytes);
                return record::push(out, Call::Scan, bytes);
            }
        }
        if let Some(rng) = &mut self.captures {
            if rng.one_in(CAPTURE) {
                captures::file(rng, bytes);
                return record::push(out, Call::Pcap, bytes);
            }
        }
        let mut call = if rng.one_in(LONG) { long::make(rng, bytes) } else { make(rng, bytes) };
        if let (Call::Read(reader), true) = (call, rng.one_in(WHY)) {
            call = Call::Why(reader);
        }
        if let (Some(kind), true) = (call.explained(), rng.one_in(EXPLAIN) && self.explains) {
            call = Call::Explain(kind);
        }
        record::push(out, call, bytes);
    }
}

fn make(rng: &mut Rng, bytes: &mut Vec<u8>) -> Call {
    let call = match rng.below(100) {
        0..=15 => {
            events::line(rng, &table::W26, bytes);
            Call::Read(Reader::W26)
        }
        16..=27 => {
            events::line(rng, &table::W36, bytes);
            Call::Read(Reader::W36)
        }
        28..=36 => {
            binary::line(rng, bytes);
            Call::Read(Reader::Binary)
        }
        37..=47 => {
            walks::buffer(rng, bytes);
            Call::Walk36
        }
        48..=54 => {
            responses::text(rng, bytes);
            Call::Response
        }
        55..=70 => {
            frames::frame(rng, bytes);
            Call::Read(Reader::Frame)
        }
        71..=82 => aimed::make(rng, bytes),
        _ => writes::make(rng, bytes),
    };
    if rng.one_in(12) {
        damage::damage(rng, bytes);
    } else if rng.one_in(40) {
        bytes.clear();
        pieces::rubbish(rng, bytes);
    }
    call
}
