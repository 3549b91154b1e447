//! What the readers of both radios share.

use crate::sys::Answer;
use crate::Why;

/// An event, and the place just past it in the buffer that it was read from.
#[derive(Clone, Copy, Debug, PartialEq, Eq, Hash)]
#[cfg_attr(feature = "defmt", derive(defmt::Format))]
pub struct Placed<E> {
    pub event: E,
    pub past: usize,
}

/// What an accepted row can hold.
pub(crate) trait FromRow<'a>: Sized {
    /// `None` where the numbers are of no such thing.
    fn of(row: &mut Answer<'a, '_>) -> Option<Self>;
}

/// The event of an answer. The place past it stands after its fields.
#[inline(always)]
pub(crate) fn placed<'a, E: FromRow<'a>>(answer: &mut Answer<'a, '_>) -> Result<Placed<E>, Why> {
    let event = accepted(answer)?;
    Ok(Placed { event, past: answer.place() })
}

/// What an answer holds, or why there is nothing in it.
#[inline]
pub(crate) fn accepted<'a, T: FromRow<'a>>(answer: &mut Answer<'a, '_>) -> Result<T, Why> {
    match answer.code() {
        0 => T::of(answer).ok_or(Why::NO_EVENT),
        _ => Err(Why::of_answer(answer)),
    }
}

/// A response, for the type of either module.
pub(crate) enum Said<'a> {
    Ok(&'a str),
    Error,
    Other(&'a str),
}

impl<'a> FromRow<'a> for Said<'a> {
    #[inline]
    fn of(row: &mut Answer<'a, '_>) -> Option<Self> {
        Some(match row.number() {
            0 => Self::Ok(row.text()),
            1 => Self::Error,
            2 => Self::Other(row.text()),
            _ => return None,
        })
    }
}

/// Numbers in the width of their field. None is too large for it: those of events by the theorems
/// that `sys` names, and a packet's own since they are one or two bytes of the frame.
impl Answer<'_, '_> {
    #[inline]
    pub(crate) fn u8(&mut self) -> u8 {
        self.number() as u8
    }

    #[inline]
    pub(crate) fn u16(&mut self) -> u16 {
        self.number() as u16
    }

    #[inline]
    pub(crate) fn u32(&mut self) -> u32 {
        self.number() as u32
    }

    /// A place in the slice.
    #[inline]
    pub(crate) fn place(&mut self) -> usize {
        self.number() as usize
    }
}
