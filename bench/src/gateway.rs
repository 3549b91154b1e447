//! The crate's side: what a gateway calls in place of the Rust. It turns the archive's rows into events
//! and packets (`bindings/rust`).

use mirvoncle::utf8_prefix as valid_up_to;
use mirvoncle::w26x::{at_protocol as w26, edm_protocol as edm};
use mirvoncle::w36x::at_protocol as w36;

macro_rules! symbol {
    ($call:literal) => {
        concat!("bench_crate_", $call)
    };
}

include!("typed.rs");
