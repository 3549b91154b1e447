//! The archive's side: its functions as C sees them, and the calls that are measured.

use std::hint::black_box;
use std::mem::MaybeUninit;

use crate::calls::{Kind, CHANNEL};

/// As many numbers as the longest row needs.
const ROW: usize = 17;
/// A write answers the frame's length, or this plus the refusal's number.
const REFUSED: usize = 65_536;

/// Reads the bytes and fills the row with what they say.
type Read = unsafe extern "C" fn(at: *const u8, len: usize, row: *mut u64, row_len: usize) -> u8;

extern "C" {
    fn mirvoncle_read_frame(at: *const u8, len: usize, row: *mut u64, row_len: usize) -> u8;
    fn mirvoncle_read_w26(at: *const u8, len: usize, row: *mut u64, row_len: usize) -> u8;
    fn mirvoncle_read_w36(at: *const u8, len: usize, row: *mut u64, row_len: usize) -> u8;
    fn mirvoncle_read_w36_binary(at: *const u8, len: usize, row: *mut u64, row_len: usize) -> u8;
    fn mirvoncle_read_response(at: *const u8, len: usize, row: *mut u64, row_len: usize) -> u8;
    fn mirvoncle_utf8_prefix(at: *const u8, len: usize) -> usize;
    fn mirvoncle_write_data(
        to: *mut u8,
        room: usize,
        channel: u8,
        at: *const u8,
        len: usize,
    ) -> usize;
    fn mirvoncle_write_request(to: *mut u8, room: usize, at: *const u8, len: usize) -> usize;
}

/// One read into a row of its own. It is not cleared, as a caller in C does not clear it either, and the
/// number that the call returns is the row's first.
///
/// SAFETY of all calls below: `calls::repeat` passes slices taken apart, and both outlive the call.
#[inline(always)]
fn read(call: Read, at: *const u8, len: usize) {
    let mut row = MaybeUninit::<[u64; ROW]>::uninit();
    unsafe { call(at, len, row.as_mut_ptr().cast(), ROW) };
    black_box(&row);
}

#[export_name = "bench_ours_frame"]
#[inline(never)]
pub extern "C" fn frame(at: *const u8, len: usize, _: *mut u8, _: usize) {
    read(mirvoncle_read_frame, at, len);
}

#[export_name = "bench_ours_w26"]
#[inline(never)]
pub extern "C" fn w26(at: *const u8, len: usize, _: *mut u8, _: usize) {
    read(mirvoncle_read_w26, at, len);
}

#[export_name = "bench_ours_w36"]
#[inline(never)]
pub extern "C" fn w36(at: *const u8, len: usize, _: *mut u8, _: usize) {
    read(mirvoncle_read_w36, at, len);
}

#[export_name = "bench_ours_w36_binary"]
#[inline(never)]
pub extern "C" fn w36_binary(at: *const u8, len: usize, _: *mut u8, _: usize) {
    read(mirvoncle_read_w36_binary, at, len);
}

#[export_name = "bench_ours_response"]
#[inline(never)]
pub extern "C" fn response(at: *const u8, len: usize, _: *mut u8, _: usize) {
    read(mirvoncle_read_response, at, len);
}

#[export_name = "bench_ours_utf8"]
#[inline(never)]
pub extern "C" fn utf8(at: *const u8, len: usize, _: *mut u8, _: usize) {
    black_box(&unsafe { mirvoncle_utf8_prefix(at, len) });
}

#[export_name = "bench_ours_write_data"]
#[inline(never)]
pub extern "C" fn write_data(at: *const u8, len: usize, to: *mut u8, room: usize) {
    black_box(&unsafe { mirvoncle_write_data(to, room, black_box(CHANNEL), at, len) });
}

#[export_name = "bench_ours_write_request"]
#[inline(never)]
pub extern "C" fn write_request(at: *const u8, len: usize, to: *mut u8, room: usize) {
    black_box(&unsafe { mirvoncle_write_request(to, room, at, len) });
}

/// What a call that hands out no field answers; `None` is a refusal, or a call that does.
pub fn number(kind: Kind, input: &[u8], to: &mut [u8]) -> Option<usize> {
    let (at, len) = (input.as_ptr(), input.len());
    let (to, room) = (to.as_mut_ptr(), to.len());
    // SAFETY: pointers and lengths are those of the two slices.
    let number = unsafe {
        match kind {
            Kind::Utf8 => return Some(mirvoncle_utf8_prefix(at, len)),
            Kind::WriteData => mirvoncle_write_data(to, room, CHANNEL, at, len),
            Kind::WriteRequest => mirvoncle_write_request(to, room, at, len),
            _ => return None,
        }
    };
    (number < REFUSED).then_some(number)
}
