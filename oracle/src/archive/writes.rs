//! The crate's writes, into a buffer whose surroundings are looked at too.

use std::str;

use mirvoncle::w26x::edm_protocol::EdmPacket;
use mirvoncle::Refusal;

use super::show;
use crate::answer::{Answered, BYTE_CHANGED, FILL};

/// So many bytes before and after each buffer must stay as they are.
const AROUND: usize = 8;

pub fn packet(packet: &EdmPacket, size: usize, bed: &mut Vec<u8>, out: &mut Vec<u8>) -> Answered {
    write(size, bed, out, |buffer| packet.write(buffer), show::frame_refusal)
}

pub fn request(bytes: &[u8], size: usize, bed: &mut Vec<u8>, out: &mut Vec<u8>) -> Answered {
    match str::from_utf8(bytes) {
        Ok(text) => packet(&EdmPacket::ATRequest(text), size, bed, out),
        Err(_) => write(size, bed, out, |buffer| not_text(buffer, bytes), numbered),
    }
}

/// Shows what a write into `size` bytes answers. It may change the bytes that it says it wrote, and
/// none on a refusal.
pub fn write<E>(
    size: usize,
    bed: &mut Vec<u8>,
    out: &mut Vec<u8>,
    call: impl FnOnce(&mut [u8]) -> Result<usize, E>,
    show_refusal: impl FnOnce(&mut Vec<u8>, E),
) -> Answered {
    bed.clear();
    bed.resize(AROUND + size + AROUND, FILL);
    let answer = call(&mut bed[AROUND..AROUND + size]);
    let count = answer.as_ref().map_or(0, |&count| count);
    if count > size {
        return Err(BYTE_CHANGED);
    }
    let (before, rest) = bed.split_at(AROUND);
    let (line, after) = rest.split_at(count);
    if before.iter().chain(after).any(|&b| b != FILL) {
        return Err(BYTE_CHANGED);
    }
    match answer {
        Ok(_) => show::written(out, line),
        Err(error) => show_refusal(out, error),
    }
    Ok(())
}

/// What a refused write adds to the number of the refusal.
const REFUSED: usize = 65_536;

extern "C" {
    fn mirvoncle_write_request(
        buf: *mut u8,
        buf_len: usize,
        text: *const u8,
        text_len: usize,
    ) -> usize;
}

/// A request that is not UTF-8. The crate takes text, so the archive's own call is asked. Its length, or
/// the number of its refusal.
fn not_text(buffer: &mut [u8], bytes: &[u8]) -> Result<usize, usize> {
    // SAFETY: both slices are borrowed for the whole call, and `buffer` is apart from `bytes`. The
    // call takes any bytes (bindings/c/mirvoncle.h).
    let code = unsafe {
        mirvoncle_write_request(buffer.as_mut_ptr(), buffer.len(), bytes.as_ptr(), bytes.len())
    };
    code.checked_sub(REFUSED).map_or(Ok(code), Err)
}

fn numbered(out: &mut Vec<u8>, number: usize) {
    match Refusal::ALL.iter().find(|refusal| usize::from(refusal.number()) == number) {
        Some(refusal) => show::refusal(out, refusal),
        None => show::refusal(out, number),
    }
}
