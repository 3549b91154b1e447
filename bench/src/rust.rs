//! The Rust's side.

use crate::judged::w26x::{at_protocol as w26, edm_protocol as edm};
use crate::judged::w36x::at_protocol as w36;

macro_rules! symbol {
    ($call:literal) => {
        concat!("bench_rust_", $call)
    };
}

include!("typed.rs");

#[inline(always)]
fn valid_up_to(bytes: &[u8]) -> usize {
    match core::str::from_utf8(bytes) {
        Ok(text) => text.len(),
        Err(error) => error.valid_up_to(),
    }
}
