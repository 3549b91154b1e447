//! The calls that are measured. All sides of a kind take an input and, if they write, the same buffer;
//! each is one function with a symbol of its own, so that callgrind can tell them apart.

use std::hint::black_box;

use crate::inputs::Place;
use crate::{gateway, ours, rust};

/// Input, its length, the buffer to write to, its length. Readers leave the buffer alone.
pub type Call = extern "C" fn(*const u8, usize, *mut u8, usize);

/// The longest frame, and so what a sender that fears no length sets aside.
pub const ROOM: usize = 4_099;
pub const CHANNEL: u8 = 3;

#[derive(Clone, Copy)]
pub enum Kind {
    Frame,
    W26,
    W36,
    Binary,
    Response,
    Utf8,
    WriteData,
    WriteRequest,
}

#[derive(Clone, Copy)]
pub enum Side {
    Rust,
    Ours,
    Crate,
}

impl Side {
    pub const ALL: [Side; 3] = [Side::Rust, Side::Ours, Side::Crate];

    pub fn name(self) -> &'static str {
        match self {
            Side::Rust => "rust",
            Side::Ours => "ours",
            Side::Crate => "crate",
        }
    }

    pub fn named(name: &str) -> Option<Side> {
        Side::ALL.into_iter().find(|side| side.name() == name)
    }
}

/// The function of a module that does what the kind says.
macro_rules! call_of {
    ($kind:expr, $module:ident) => {
        match $kind {
            Kind::Frame => $module::frame,
            Kind::W26 => $module::w26,
            Kind::W36 => $module::w36,
            Kind::Binary => $module::w36_binary,
            Kind::Response => $module::response,
            Kind::Utf8 => $module::utf8,
            Kind::WriteData => $module::write_data,
            Kind::WriteRequest => $module::write_request,
        }
    };
}

impl Kind {
    pub fn call(self, side: Side) -> Call {
        match side {
            Side::Rust => call_of!(self, rust),
            Side::Ours => call_of!(self, ours),
            Side::Crate => call_of!(self, gateway),
        }
    }
}

/// Calls one side `count` times. The input passes through `black_box` each time, so that no call can
/// be moved out of the loop or guess what it is given.
#[inline(never)]
pub fn repeat(call: Call, input: &Place, buffer: &mut Place, count: u64) {
    for _ in 0..count {
        let (given, room) = (black_box(input.bytes()), black_box(buffer.bytes_mut()));
        call(given.as_ptr(), given.len(), room.as_mut_ptr(), room.len());
    }
}
