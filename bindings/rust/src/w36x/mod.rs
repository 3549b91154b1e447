//! The W36 radio: AT events, in text and in binary, and AT responses.

pub mod at_protocol;
mod rows;
pub mod walk;
