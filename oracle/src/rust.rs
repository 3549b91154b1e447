//! The calls of the Rust. Each returns what the Rust answers, or what document 01 fixes where the
//! Rust panics; None is a panic that no line of 01 explains.

use std::panic::{self, AssertUnwindSafe};
use std::sync::atomic::{AtomicBool, AtomicU64, Ordering};

use crate::judged::w26x::at_protocol as w26;
use crate::judged::w26x::edm_protocol as edm;
use crate::judged::w36x::at_protocol as w36;
use crate::panics;

pub type Read<T, E> = Option<Result<T, E>>;

pub fn frame(bytes: &[u8]) -> Read<edm::EdmPacket<'_>, edm::EdmPacketError> {
    caught(|| edm::EdmPacket::new(bytes)).or_else(|| panics::frame(bytes))
}

/// The line of an event in a frame, 0041.
pub fn event_line(frame: &[u8]) -> Option<&[u8]> {
    frame.get(3..frame.len().checked_sub(1)?)?.strip_prefix(&[0x00, 0x41])
}

/// The answer to a frame, from the answer to the line of an event in it. 01, "EDM frame": "The frame
/// reader takes the AT answer apart and wraps its refusal".
pub fn wrapped<'a>(
    event: Result<w26::ATEvent<'a>, w26::AtPacketError>,
) -> Result<edm::EdmPacket<'a>, edm::EdmPacketError> {
    event.map(edm::EdmPacket::ATEvent).map_err(edm::EdmPacketError::AtPacketError)
}

pub fn event26(bytes: &[u8]) -> Read<w26::ATEvent<'_>, w26::AtPacketError> {
    caught(|| w26::ATEvent::new(bytes)).or_else(|| panics::event26(bytes))
}

pub fn event36(bytes: &[u8]) -> Read<w36::ATEvent<'_>, w36::AtPacketError> {
    caught(|| w36::ATEvent::new(bytes)).or_else(|| panics::event36(bytes))
}

pub fn binary(bytes: &[u8]) -> Read<Option<w36::ATEvent<'_>>, w36::AtPacketError> {
    caught(|| w36::ATEvent::try_parse_binary(bytes))
}

/// Binary first, then text, as the Rust asks of its callers.
pub fn event36_of_either_kind(bytes: &[u8]) -> Read<w36::ATEvent<'_>, w36::AtPacketError> {
    match binary(bytes)? {
        Ok(Some(event)) => Some(Ok(event)),
        Ok(None) => event36(bytes),
        Err(error) => Some(Err(error)),
    }
}

pub fn response26(bytes: &[u8]) -> Read<w26::ATResponse<'_>, w26::AtPacketError> {
    caught(|| w26::ATResponse::new(bytes))
}

pub fn response36(bytes: &[u8]) -> Read<w36::ATResponse<'_>, w36::AtPacketError> {
    caught(|| w36::ATResponse::new(bytes))
}

pub fn write(packet: &edm::EdmPacket, buffer: &mut [u8]) -> Read<usize, edm::EdmPacketError> {
    let size = buffer.len();
    caught(|| packet.write(buffer)).or_else(|| panics::write(size))
}

/// True while the Rust is asked.
static ASKING: AtomicBool = AtomicBool::new(false);
static PANICS: AtomicU64 = AtomicU64::new(0);

/// Panics of the Rust are expected, caught and judged, so they are counted instead of shown. Any
/// other panic is a slip of this program and is shown as usual.
pub fn keep_panics_quiet() {
    let usual = panic::take_hook();
    panic::set_hook(Box::new(move |info| {
        if ASKING.load(Ordering::Relaxed) {
            PANICS.fetch_add(1, Ordering::Relaxed);
        } else {
            usual(info);
        }
    }));
}

/// How often the Rust has panicked so far.
pub fn panics() -> u64 {
    PANICS.load(Ordering::Relaxed)
}

fn caught<T>(call: impl FnOnce() -> T) -> Option<T> {
    ASKING.store(true, Ordering::Relaxed);
    let answer = panic::catch_unwind(AssertUnwindSafe(call)).ok();
    ASKING.store(false, Ordering::Relaxed);
    answer
}
