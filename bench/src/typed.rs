// The calls of one side as its caller writes them. main.rs includes this file twice, below `use` lines
// of the Rust and below those of the crate that replaces it. The answer passes through `black_box` by
// reference, so that all of it is really made.

use std::hint::black_box;
use std::slice;

use crate::calls::{Kind, CHANNEL};

/// The bytes that a measured call was given.
///
/// SAFETY of all calls below: `calls::repeat` passes slices taken apart, and both outlive the call.
#[inline(always)]
fn lent<'a>(at: *const u8, len: usize) -> &'a [u8] {
    unsafe { slice::from_raw_parts(at, len) }
}

#[inline(always)]
fn lent_mut<'a>(at: *mut u8, len: usize) -> &'a mut [u8] {
    unsafe { slice::from_raw_parts_mut(at, len) }
}

#[export_name = symbol!("frame")]
#[inline(never)]
pub extern "C" fn frame(at: *const u8, len: usize, _: *mut u8, _: usize) {
    black_box(&edm::EdmPacket::new(lent(at, len)));
}

#[export_name = symbol!("w26")]
#[inline(never)]
pub extern "C" fn w26(at: *const u8, len: usize, _: *mut u8, _: usize) {
    black_box(&w26::ATEvent::new(lent(at, len)));
}

#[export_name = symbol!("w36")]
#[inline(never)]
pub extern "C" fn w36(at: *const u8, len: usize, _: *mut u8, _: usize) {
    black_box(&w36::ATEvent::new(lent(at, len)));
}

#[export_name = symbol!("w36_binary")]
#[inline(never)]
pub extern "C" fn w36_binary(at: *const u8, len: usize, _: *mut u8, _: usize) {
    black_box(&w36::ATEvent::try_parse_binary(lent(at, len)));
}

#[export_name = symbol!("response")]
#[inline(never)]
pub extern "C" fn response(at: *const u8, len: usize, _: *mut u8, _: usize) {
    black_box(&w26::ATResponse::new(lent(at, len)));
}

#[export_name = symbol!("utf8")]
#[inline(never)]
pub extern "C" fn utf8(at: *const u8, len: usize, _: *mut u8, _: usize) {
    black_box(&valid_up_to(lent(at, len)));
}

#[export_name = symbol!("write_data")]
#[inline(never)]
pub extern "C" fn write_data(at: *const u8, len: usize, to: *mut u8, room: usize) {
    let packet = edm::EdmPacket::DataCommand { channel: black_box(CHANNEL), data: lent(at, len) };
    black_box(&packet.write(lent_mut(to, room)));
}

/// A request is a text, so its caller has one. `agree` has seen that these bytes are UTF-8.
#[export_name = symbol!("write_request")]
#[inline(never)]
pub extern "C" fn write_request(at: *const u8, len: usize, to: *mut u8, room: usize) {
    let text = unsafe { core::str::from_utf8_unchecked(lent(at, len)) };
    black_box(&edm::EdmPacket::ATRequest(text).write(lent_mut(to, room)));
}

/// What a call that hands out no field answers; `None` is a refusal, or a call that does.
pub fn number(kind: Kind, input: &[u8], to: &mut [u8]) -> Option<usize> {
    match kind {
        Kind::Utf8 => Some(valid_up_to(input)),
        Kind::WriteData => {
            edm::EdmPacket::DataCommand { channel: CHANNEL, data: input }.write(to).ok()
        }
        Kind::WriteRequest => {
            edm::EdmPacket::ATRequest(core::str::from_utf8(input).ok()?).write(to).ok()
        }
        _ => None,
    }
}
