//! EDM frames: the packets that the W26 radio and its host exchange.

use super::at_protocol::{ATEvent, ATResponse, AtPacketError};
use crate::reading::{self, FromRow};
use crate::sys::{self, Answer, ROW};
use crate::writing::Writing;
use crate::{written, Refusal, Why};

/// Why a frame is refused, or a packet not written.
#[derive(Copy, Clone, PartialEq, Debug)]
#[cfg_attr(feature = "defmt", derive(defmt::Format))]
pub enum EdmPacketError {
    /// Nothing returns it.
    PacketTypeDecodingFailed,
    PacketTypeDecodeLengthMismatch,
    PacketDecodeFramingInvalid,
    PacketDecodeTargetMemorySizeInvalid,
    PacketEncodePayloadSizeInvalid,
    PacketEncodeTypeUnknown,
    ConnectEventDecodeError,
    ConnectEventUnsupported,
    DisconnectEventDecodeError,
    AtRequestEventDecodeError,
    AtPacketError(AtPacketError),
    PayloadTypeUnknown,
}

impl From<AtPacketError> for EdmPacketError {
    fn from(err: AtPacketError) -> Self {
        EdmPacketError::AtPacketError(err)
    }
}

impl EdmPacketError {
    fn of(refusal: Refusal) -> Self {
        match refusal {
            Refusal::PacketDecodeFramingInvalid => Self::PacketDecodeFramingInvalid,
            Refusal::PacketDecodeTargetMemorySizeInvalid => {
                Self::PacketDecodeTargetMemorySizeInvalid
            }
            Refusal::PacketTypeDecodeLengthMismatch => Self::PacketTypeDecodeLengthMismatch,
            Refusal::PayloadTypeUnknown => Self::PayloadTypeUnknown,
            Refusal::ConnectEventUnsupported => Self::ConnectEventUnsupported,
            Refusal::ConnectEventDecodeError => Self::ConnectEventDecodeError,
            Refusal::DisconnectEventDecodeError => Self::DisconnectEventDecodeError,
            Refusal::AtRequestEventDecodeError => Self::AtRequestEventDecodeError,
            Refusal::PacketEncodeTypeUnknown => Self::PacketEncodeTypeUnknown,
            Refusal::PacketEncodePayloadSizeInvalid => Self::PacketEncodePayloadSizeInvalid,
            _ => Self::AtPacketError(AtPacketError::of(refusal)),
        }
    }
}

/// As many bytes as a host adds to its data where it makes room for a frame. A frame itself has 6
/// bytes besides its payload, and a data command 7 besides its data.
pub const EDM_PACKET_WIRE_OVERHEAD: usize = 8;

const CONNECT_EVENT: u64 = 0x11;
const DISCONNECT_EVENT: u64 = 0x21;
const DATA_EVENT: u64 = 0x31;
const DATA_COMMAND: u64 = 0x36;
const AT_EVENT: u64 = 0x41;
const AT_REQUEST: u64 = 0x44;
const AT_RESPONSE: u64 = 0x45;
const RESEND_CONNECT_EVENTS: u64 = 0x56;
const START_EVENT: u64 = 0x71;

/// What a frame holds.
#[derive(PartialEq, Debug)]
#[cfg_attr(feature = "defmt", derive(defmt::Format))]
pub enum EdmPacket<'a> {
    ConnectEvent {
        channel: u8,
        event_type: ConnectEventType,
    },
    DisconnectEvent {
        channel: u8,
    },
    /// The frame of a data command reads as this too.
    DataEvent {
        channel: u8,
        data: &'a [u8],
    },
    /// To be written.
    DataCommand {
        channel: u8,
        data: &'a [u8],
    },
    /// To be written without a CR at its end, and read with it.
    ATRequest(&'a str),
    ATResponse(ATResponse<'a>),
    ATEvent(ATEvent<'a>),
    /// To be written.
    ResendConnectEvents,
    StartEvent,
}

impl EdmPacket<'_> {
    /// The packet of one frame, from AA to 55.
    #[inline]
    pub fn new(data: &'_ [u8]) -> Result<EdmPacket<'_>, EdmPacketError> {
        match EdmPacket::read(data) {
            Ok(packet) => Ok(packet),
            Err(why) => Err(EdmPacketError::of(why.refusal())),
        }
    }

    /// As [`EdmPacket::new`], with the field and the reason of the refusal.
    #[inline]
    pub fn read(data: &[u8]) -> Result<EdmPacket<'_>, Why> {
        reading::accepted(&mut sys::READ_FRAME.read(data, &mut [0; ROW]))
    }

    /// Writes the frame of a data command, a request or a resend to the start of `buf` and gives its
    /// length. A refused write changes no byte.
    pub fn write(&self, buf: &mut [u8]) -> Result<usize, EdmPacketError> {
        let code = match *self {
            Self::DataCommand { channel, data } => sys::write_data(buf, channel, data),
            Self::ATRequest(text) => sys::write_request(buf, text),
            Self::ResendConnectEvents => sys::write_resend(buf),
            // A packet that is no command is refused by its identifier alone.
            _ => Writing::new(&[], self.identifier()).packet(buf),
        };
        written(code).map_err(EdmPacketError::of)
    }

    /// The identifier of its frame.
    fn identifier(&self) -> u64 {
        match self {
            Self::ConnectEvent { .. } => CONNECT_EVENT,
            Self::DisconnectEvent { .. } => DISCONNECT_EVENT,
            Self::DataEvent { .. } => DATA_EVENT,
            Self::DataCommand { .. } => DATA_COMMAND,
            Self::ATRequest(_) => AT_REQUEST,
            Self::ATResponse(_) => AT_RESPONSE,
            Self::ATEvent(_) => AT_EVENT,
            Self::ResendConnectEvents => RESEND_CONNECT_EVENTS,
            Self::StartEvent => START_EVENT,
        }
    }
}

impl<'a> FromRow<'a> for EdmPacket<'a> {
    /// The packet of a row, by its identifier.
    #[inline]
    fn of(row: &mut Answer<'a, '_>) -> Option<Self> {
        Some(match row.number() {
            CONNECT_EVENT => Self::ConnectEvent {
                channel: row.u8(),
                event_type: ConnectEventType::ConnectEventIPv4(ConnectEventIPv4 {
                    protocol: row.u8(),
                    remote_addr: row.bytes().try_into().ok()?,
                    remote_port: row.u16(),
                    local_addr: row.bytes().try_into().ok()?,
                    local_port: row.u16(),
                }),
            },
            DISCONNECT_EVENT => Self::DisconnectEvent { channel: row.u8() },
            DATA_EVENT => Self::DataEvent { channel: row.u8(), data: row.bytes() },
            AT_EVENT => Self::ATEvent(ATEvent::of(row)?),
            AT_REQUEST => Self::ATRequest(row.text()),
            AT_RESPONSE => Self::ATResponse(ATResponse::of(row)?),
            RESEND_CONNECT_EVENTS => Self::ResendConnectEvents,
            START_EVENT => Self::StartEvent,
            _ => return None,
        })
    }
}

/// The remote end of a channel.
#[derive(PartialEq, Debug)]
#[cfg_attr(feature = "defmt", derive(defmt::Format))]
pub enum ConnectEventType {
    ConnectEventIPv4(ConnectEventIPv4),
}

/// No reader returns it.
#[derive(PartialEq, Debug)]
#[cfg_attr(feature = "defmt", derive(defmt::Format))]
#[repr(C)]
pub struct ConnectEventBluetooth {
    pub profile: u8,
    pub bd_address: [u8; 6],
    pub frame_size: u16,
}

/// A peer over IPv4.
#[derive(PartialEq, Debug)]
#[cfg_attr(feature = "defmt", derive(defmt::Format))]
#[repr(C)]
pub struct ConnectEventIPv4 {
    pub protocol: u8,
    pub remote_addr: [u8; 4],
    pub remote_port: u16,
    pub local_addr: [u8; 4],
    pub local_port: u16,
}

/// No reader returns it.
#[derive(PartialEq, Debug)]
#[cfg_attr(feature = "defmt", derive(defmt::Format))]
#[repr(C)]
pub struct ConnectEventIPv6 {
    pub protocol: u8,
    pub remote_addr: [u8; 16],
    pub remote_port: u16,
    pub local_addr: [u8; 16],
    pub local_port: u16,
}
