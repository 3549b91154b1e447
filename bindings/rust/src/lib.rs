//! EDM frames and AT events of u-blox radios, read and written. Each call is a proved function of
//! `crates/abi`; a borrowed slice is all that it asks for, so nothing here is `unsafe` to call, and
//! nothing here panics.
//!
//! The modules [`w26x::edm_protocol`], [`w26x::at_protocol`] and [`w36x::at_protocol`] have the names,
//! the signatures and the traits of the three Rust files that they replace. What those files do not
//! have stands beside: [`Placed`] is an event with the place past it, [`Why`] a refusal with its field
//! and its reason, [`w36x::walk::Walk`] goes over every event of one W36 read, and `write_line` of both
//! `ATEvent`s writes events.
//!
//! The functions of this module answer only whether bytes are accepted.

#![no_std]
#![deny(unsafe_code, unsafe_op_in_unsafe_fn)]
#![deny(
    clippy::arithmetic_side_effects,
    clippy::expect_used,
    clippy::indexing_slicing,
    clippy::panic,
    clippy::unreachable,
    clippy::unwrap_used
)]

mod reading;
mod refusal;
#[allow(unsafe_code)]
mod sys;
pub mod w26x;
pub mod w36x;
mod writing;

pub use reading::Placed;
pub use refusal::{EventWriteError, Reason, Refusal, RefusedAt, Why};
use sys::Question;

/// The version of the archive's calls. An archive of another version does not build with this crate.
pub const VERSION: u32 = 2;

/// What a refused write adds to the refusal's number. Every length is below it.
const REFUSED: usize = 65536;

/// What bytes are to the reader of binary events, where it does not refuse them.
#[derive(Clone, Copy, Debug, PartialEq, Eq, Hash)]
#[cfg_attr(feature = "defmt", derive(defmt::Format))]
pub enum Binary {
    Event,
    NotBinary,
}

fn read(question: Question<u8>, s: &[u8]) -> Result<(), Refusal> {
    match question.about(s) {
        0 => Ok(()),
        number => Err(Refusal::of(number.into())),
    }
}

fn why(question: Question<u32>, s: &[u8]) -> Result<(), Why> {
    match question.about(s) {
        0 => Ok(()),
        code => Err(Why::of_code(code)),
    }
}

/// A write's length, or its refusal.
fn written(code: usize) -> Result<usize, Refusal> {
    match code.checked_sub(REFUSED) {
        None => Ok(code),
        Some(number) => Err(Refusal::of(number)),
    }
}

/// One EDM frame, from AA to 55.
pub fn frame(s: &[u8]) -> Result<(), Refusal> {
    read(sys::FRAME, s)
}

/// The W26 event line that starts at the first byte.
pub fn w26(s: &[u8]) -> Result<(), Refusal> {
    read(sys::W26, s)
}

/// The W36 text event that starts at the first byte.
pub fn w36(s: &[u8]) -> Result<(), Refusal> {
    read(sys::W36, s)
}

/// The W36 binary event that starts at the first byte.
pub fn w36_binary(s: &[u8]) -> Result<Binary, Refusal> {
    match sys::W36_BINARY.about(s) {
        0 => Ok(Binary::Event),
        sys::NOT_BINARY => Ok(Binary::NotBinary),
        number => Err(Refusal::of(number.into())),
    }
}

/// As [`frame`], and which field of an event is refused, and why.
pub fn frame_why(s: &[u8]) -> Result<(), Why> {
    why(sys::FRAME_WHY, s)
}

/// As [`w26`], and which field is refused, and why.
pub fn w26_why(s: &[u8]) -> Result<(), Why> {
    why(sys::W26_WHY, s)
}

/// As [`w36`], and which field is refused, and why.
pub fn w36_why(s: &[u8]) -> Result<(), Why> {
    why(sys::W36_WHY, s)
}

/// As [`w36_binary`], and which field is refused, and why.
pub fn w36_binary_why(s: &[u8]) -> Result<Binary, Why> {
    match sys::W36_BINARY_WHY.about(s) {
        0 => Ok(Binary::Event),
        code if code == sys::NOT_BINARY.into() => Ok(Binary::NotBinary),
        code => Err(Why::of_code(code)),
    }
}

/// The AT response that starts at the first byte.
pub fn response(s: &[u8]) -> Result<(), Refusal> {
    read(sys::RESPONSE, s)
}

/// How many bytes stand before the first sequence that is not UTF-8; the length where there is none.
pub fn utf8_prefix(s: &[u8]) -> usize {
    sys::UTF8_PREFIX.about(s)
}

/// Writes a data command to the start of `buf` and gives the frame's length. A refused write changes
/// no byte.
pub fn write_data(buf: &mut [u8], channel: u8, data: &[u8]) -> Result<usize, Refusal> {
    written(sys::write_data(buf, channel, data))
}

/// Writes an AT request, with a CR after its text; otherwise as [`write_data`].
pub fn write_request(buf: &mut [u8], text: &str) -> Result<usize, Refusal> {
    written(sys::write_request(buf, text))
}

/// Writes the command to send the connect events again; otherwise as [`write_data`].
pub fn write_resend(buf: &mut [u8]) -> Result<usize, Refusal> {
    written(sys::write_resend(buf))
}
