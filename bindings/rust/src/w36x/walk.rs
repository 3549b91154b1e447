//! Every event of one W36 read.

use core::iter::FusedIterator;

use super::at_protocol::ATEvent;
use crate::sys::{self, ROW};
use crate::{reading, Placed, RefusedAt};

/// The events of one W36 read, from left to right; [`ATEvent::walk`] makes it. At each place a binary
/// event is tried first and a text event after it. The first refusal is the last item.
#[derive(Clone, Debug)]
pub struct Walk<'a> {
    buf: &'a [u8],
    /// Where the next event begins, unless the walk has ended.
    at: Option<usize>,
}

impl<'a> Walk<'a> {
    pub(super) fn new(buf: &'a [u8]) -> Self {
        Walk { buf, at: Some(0) }
    }
}

impl<'a> Iterator for Walk<'a> {
    type Item = Result<Placed<ATEvent<'a>>, RefusedAt>;

    fn next(&mut self) -> Option<Self::Item> {
        let mut row = [0; ROW];
        let mut answer = sys::read_w36_step(self.buf, self.at.take()?, &mut row);
        if answer.code() == sys::END {
            return None;
        }
        Some(match reading::placed(&mut answer) {
            Ok(placed) => {
                self.at = Some(placed.past);
                Ok(placed)
            }
            // The place stands after the field and the reason.
            Err(why) => Err(RefusedAt { why, at: answer.place() }),
        })
    }
}

impl FusedIterator for Walk<'_> {}
