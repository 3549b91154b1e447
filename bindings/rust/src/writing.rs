//! What the writers of both radios share.

use crate::sys::{Row, Writer, ROW, WRITE_PACKET};
use crate::EventWriteError;

/// The number of a refused line is added to this. No slice has as many bytes.
const LINE_REFUSED: usize = 1 << 63;

/// The row of an event or a packet, filled from left to right, and the source that its places count
/// in.
pub(crate) struct Writing<'s> {
    source: &'s [u8],
    row: Row,
    next: usize,
}

impl<'s> Writing<'s> {
    /// A row begins with 0, and the case of the event or the identifier of the packet.
    pub(crate) fn new(source: &'s [u8], case: u64) -> Self {
        Writing { source, row: [0; ROW], next: 1 }.number(case)
    }

    pub(crate) fn number(mut self, number: impl Into<u64>) -> Self {
        if let Some(place) = self.row.get_mut(self.next) {
            *place = number.into();
        }
        self.next = self.next.wrapping_add(1);
        self
    }

    /// A text or data, as its place in the source. One that begins before the source wraps to a place
    /// past its end, and the call refuses it as it refuses each one that runs past the end. An empty
    /// one may come from anywhere.
    pub(crate) fn part(self, part: &[u8]) -> Self {
        let place = match part {
            [] => 0,
            _ => (part.as_ptr() as usize).wrapping_sub(self.source.as_ptr() as usize),
        };
        self.number(place as u64).number(part.len() as u64)
    }

    pub(crate) fn text(self, text: &str) -> Self {
        self.part(text.as_bytes())
    }

    /// Writes an event. The proofs leave two numbers; any other one counts as the first.
    pub(crate) fn line(self, writer: Writer, buf: &mut [u8]) -> Result<usize, EventWriteError> {
        let code = writer.write(buf, self.source, &self.row);
        match code.checked_sub(LINE_REFUSED) {
            None => Ok(code),
            Some(18) => Err(EventWriteError::EventBufferTooSmall),
            Some(_) => Err(EventWriteError::FieldNotWritable),
        }
    }

    /// Writes a packet. What is returned is a length or a refusal, as the calls of one command each
    /// return it.
    pub(crate) fn packet(self, buf: &mut [u8]) -> usize {
        WRITE_PACKET.write(buf, self.source, &self.row)
    }
}
