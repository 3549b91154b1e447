//! The W26 radio: EDM frames, and the AT events and responses in them.

pub mod at_protocol;
pub mod edm_protocol;
mod rows;
