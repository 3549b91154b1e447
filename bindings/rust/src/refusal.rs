//! The numbered refusals, and what they carry.

use core::{error, fmt};

use crate::sys::Answer;

/// The numbered refusals of reads and of frames, by the names of document 01.
#[derive(Clone, Copy, Debug, PartialEq, Eq, Hash)]
#[cfg_attr(feature = "defmt", derive(defmt::Format))]
#[repr(u8)]
pub enum Refusal {
    PacketDecodeFramingInvalid = 1,
    PacketDecodeTargetMemorySizeInvalid = 2,
    PacketTypeDecodeLengthMismatch = 3,
    PayloadTypeUnknown = 4,
    ConnectEventUnsupported = 5,
    ConnectEventDecodeError = 6,
    DisconnectEventDecodeError = 7,
    AtRequestEventDecodeError = 8,
    PacketEncodeTypeUnknown = 9,
    PacketEncodePayloadSizeInvalid = 10,
    Utf8DecodeFailed = 11,
    FramingDecodeFailed = 12,
    TypeDecodeUnsupported = 13,
    TypeDecodeParameterMissing = 14,
    TypeDecodeParameterDataTypeInvalid = 15,
    EventUnknown = 16,
}

impl Refusal {
    /// Every refusal, by its number.
    pub const ALL: [Refusal; 16] = [
        Refusal::PacketDecodeFramingInvalid,
        Refusal::PacketDecodeTargetMemorySizeInvalid,
        Refusal::PacketTypeDecodeLengthMismatch,
        Refusal::PayloadTypeUnknown,
        Refusal::ConnectEventUnsupported,
        Refusal::ConnectEventDecodeError,
        Refusal::DisconnectEventDecodeError,
        Refusal::AtRequestEventDecodeError,
        Refusal::PacketEncodeTypeUnknown,
        Refusal::PacketEncodePayloadSizeInvalid,
        Refusal::Utf8DecodeFailed,
        Refusal::FramingDecodeFailed,
        Refusal::TypeDecodeUnsupported,
        Refusal::TypeDecodeParameterMissing,
        Refusal::TypeDecodeParameterDataTypeInvalid,
        Refusal::EventUnknown,
    ];

    pub fn number(self) -> u8 {
        self as u8
    }

    /// The refusal of a number that a call gave. The proofs leave no number but these sixteen; any
    /// other one counts as the last.
    pub(crate) fn of(number: usize) -> Refusal {
        let index = number.wrapping_sub(1);
        Refusal::ALL.get(index).copied().unwrap_or(Refusal::EventUnknown)
    }
}

impl fmt::Display for Refusal {
    fn fmt(&self, f: &mut fmt::Formatter<'_>) -> fmt::Result {
        write!(f, "{self:?} ({})", self.number())
    }
}

impl error::Error for Refusal {}

/// Why a field is of wrong form.
#[derive(Clone, Copy, Debug, PartialEq, Eq, Hash)]
#[cfg_attr(feature = "defmt", derive(defmt::Format))]
#[repr(u8)]
pub enum Reason {
    /// It has no byte.
    Empty = 1,
    /// A byte of it is not allowed: it is no digit and no plus in front of a digit.
    Byte = 2,
    /// Every byte is allowed, and the number is too large for its width.
    Large = 3,
    /// The number is not in the field's list (protocol, W26 reason).
    List = 4,
}

impl Reason {
    /// Every reason, by its number.
    pub const ALL: [Reason; 4] = [Reason::Empty, Reason::Byte, Reason::Large, Reason::List];

    fn words(self) -> &'static str {
        match self {
            Reason::Empty => "it is empty",
            Reason::Byte => "it has a byte that is not allowed",
            Reason::Large => "the number is too large",
            Reason::List => "the number is not in the list",
        }
    }

    /// As [`Refusal::of`].
    fn of(number: u8) -> Reason {
        let index = usize::from(number.wrapping_sub(1));
        Reason::ALL.get(index).copied().unwrap_or(Reason::List)
    }
}

/// A refusal, with the field that it carries. Fields are counted from 1.
#[derive(Clone, Copy, Debug, PartialEq, Eq, Hash)]
#[cfg_attr(feature = "defmt", derive(defmt::Format))]
pub enum Why {
    /// Any refusal but the two below.
    Refused(Refusal),
    /// [`Refusal::TypeDecodeParameterMissing`]
    Missing { field: u8 },
    /// [`Refusal::TypeDecodeParameterDataTypeInvalid`]
    Invalid { field: u8, reason: Reason },
}

impl Why {
    /// What an accepted row counts as where its numbers are no event's. The proofs leave no such row.
    pub(crate) const NO_EVENT: Why = Why::Refused(Refusal::EventUnknown);

    /// The refusal without what it carries.
    pub fn refusal(self) -> Refusal {
        match self {
            Why::Refused(refusal) => refusal,
            Why::Missing { .. } => Refusal::TypeDecodeParameterMissing,
            Why::Invalid { .. } => Refusal::TypeDecodeParameterDataTypeInvalid,
        }
    }

    fn of(number: u8, field: u8, reason: u8) -> Why {
        match Refusal::of(number.into()) {
            Refusal::TypeDecodeParameterMissing => Why::Missing { field },
            Refusal::TypeDecodeParameterDataTypeInvalid => {
                Why::Invalid { field, reason: Reason::of(reason) }
            }
            refusal => Why::Refused(refusal),
        }
    }

    /// What a number that a call gave says: the refusal in its lowest byte, the field in the next, and
    /// above both the reason.
    pub(crate) fn of_code(code: u32) -> Why {
        let [number, field, reason, _] = code.to_le_bytes();
        Why::of(number, field, reason)
    }

    /// What the row of a refusal says: its number, the field, the reason.
    #[inline]
    pub(crate) fn of_answer(answer: &mut Answer<'_, '_>) -> Why {
        let field = answer.u8();
        let reason = answer.u8();
        Why::of(answer.code(), field, reason)
    }
}

impl fmt::Display for Why {
    fn fmt(&self, f: &mut fmt::Formatter<'_>) -> fmt::Result {
        match self {
            Why::Refused(refusal) => refusal.fmt(f),
            Why::Missing { field } => write!(f, "{}: field {field} is missing", self.refusal()),
            Why::Invalid { field, reason } => {
                write!(f, "{}: field {field}, {}", self.refusal(), reason.words())
            }
        }
    }
}

impl error::Error for Why {}

/// A refusal in a walk, and where the refused event begins in the buffer.
#[derive(Clone, Copy, Debug, PartialEq, Eq, Hash)]
#[cfg_attr(feature = "defmt", derive(defmt::Format))]
pub struct RefusedAt {
    pub why: Why,
    pub at: usize,
}

impl fmt::Display for RefusedAt {
    fn fmt(&self, f: &mut fmt::Formatter<'_>) -> fmt::Result {
        write!(f, "{}, at byte {}", self.why, self.at)
    }
}

impl error::Error for RefusedAt {}

/// Why an event was not written. No byte of the buffer was changed.
#[derive(Clone, Copy, Debug, PartialEq, Eq, Hash)]
#[cfg_attr(feature = "defmt", derive(defmt::Format))]
#[repr(u8)]
pub enum EventWriteError {
    /// No line says this event: a text or data of it is no part of the source, a text holds a comma
    /// or a CR, an address before binary data holds byte 01, the data have more than 65,535 bytes; or
    /// it is a case that no reader returns.
    FieldNotWritable = 17,
    /// The line is longer than the buffer.
    EventBufferTooSmall = 18,
}

impl EventWriteError {
    pub fn number(self) -> u8 {
        self as u8
    }
}

impl fmt::Display for EventWriteError {
    fn fmt(&self, f: &mut fmt::Formatter<'_>) -> fmt::Result {
        write!(f, "{self:?} ({})", self.number())
    }
}

impl error::Error for EventWriteError {}
