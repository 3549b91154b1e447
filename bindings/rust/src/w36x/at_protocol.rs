//! AT events and responses of the W36 radio.

use super::walk::Walk;
use crate::reading::{self, Said};
use crate::sys::{self, ROW};
use crate::{EventWriteError, Placed, Refusal, Why};

/// Why an event or a response is refused.
#[derive(Copy, Clone, PartialEq, Debug)]
#[cfg_attr(feature = "defmt", derive(defmt::Format))]
pub enum AtPacketError {
    Utf8DecodeFailed,
    FramingDecodeFailed,
    TypeDecodeUnsupported,
    TypeDecodeParameterMissing,
    TypeDecodeParameterDataTypeInvalid,
    EventUnknown,
}

impl AtPacketError {
    /// The proofs leave 11 to 16; any other refusal counts as the last.
    fn of(refusal: Refusal) -> Self {
        match refusal {
            Refusal::Utf8DecodeFailed => Self::Utf8DecodeFailed,
            Refusal::FramingDecodeFailed => Self::FramingDecodeFailed,
            Refusal::TypeDecodeUnsupported => Self::TypeDecodeUnsupported,
            Refusal::TypeDecodeParameterMissing => Self::TypeDecodeParameterMissing,
            Refusal::TypeDecodeParameterDataTypeInvalid => Self::TypeDecodeParameterDataTypeInvalid,
            _ => Self::EventUnknown,
        }
    }
}

/// The protocol of a socket, by its number in `AT+USOCR`.
#[derive(Copy, Clone, PartialEq, Debug)]
#[cfg_attr(feature = "defmt", derive(defmt::Format))]
pub enum SocketProtocol {
    TCP = 6,
    UDP = 17,
}

/// What the radio says unasked.
#[derive(PartialEq, Debug)]
#[cfg_attr(feature = "defmt", derive(defmt::Format))]
pub enum ATEvent<'a> {
    /// `+UESOC`
    SocketConnected { socket_id: u8 },
    /// `+UESOCL`
    SocketClosed { socket_id: u8 },
    /// `+UESODA`
    SocketDataAvailable { socket_id: u8, length: u16 },
    /// `+UESODB`: data of a TCP socket, in binary. `AT+USORM=2` asks for it.
    SocketDataBinary { socket_id: u8, data: &'a [u8] },
    /// `+UESODBF`: data of a UDP socket with their source, in binary. `AT+USORM=2` asks for it.
    SocketDataBinaryFrom { socket_id: u8, remote_ip: &'a str, remote_port: u16, data: &'a [u8] },
    /// `+UEWLU`
    WifiLinkUp { wlan_handle: u16, bssid: &'a str, channel: u16 },
    /// `+UEWLD`, with a reason of 802.11.
    WifiLinkDown { wlan_handle: u16, reason: u16 },
    /// `+UEWAPU`
    WifiAccessPointUp,
    /// `+UEWAPD`
    WifiAccessPointDown,
    /// `+UEWAPSA`
    WifiAccessPointStationAssociated { mac_addr: &'a str },
    /// `+UEWAPSDA`
    WifiAccessPointStationDisassociated { mac_addr: &'a str },
    /// `+UEWSNU`
    StationNetworkUp,
    /// `+UEWSND`
    StationNetworkDown,
    /// `+UEWAPNU`
    AccessPointNetworkUp,
    /// `+UEWAPND`
    AccessPointNetworkDown,
}

impl ATEvent<'_> {
    /// The text event that starts at the first byte. What follows its line is left alone.
    #[inline]
    pub fn new(buf: &[u8]) -> Result<ATEvent<'_>, AtPacketError> {
        match ATEvent::read(buf) {
            Ok(placed) => Ok(placed.event),
            Err(why) => Err(AtPacketError::of(why.refusal())),
        }
    }

    /// The binary event that starts at the first byte, or `None` where none starts there. Ask this
    /// before [`ATEvent::new`].
    #[inline]
    pub fn try_parse_binary(buf: &[u8]) -> Result<Option<ATEvent<'_>>, AtPacketError> {
        match ATEvent::read_binary(buf) {
            Ok(placed) => Ok(placed.map(|placed| placed.event)),
            Err(why) => Err(AtPacketError::of(why.refusal())),
        }
    }

    /// As [`ATEvent::new`], with the place past the event, or the field and the reason of the refusal.
    #[inline]
    pub fn read(buf: &[u8]) -> Result<Placed<ATEvent<'_>>, Why> {
        reading::placed(&mut sys::READ_W36.read(buf, &mut [0; ROW]))
    }

    /// As [`ATEvent::try_parse_binary`], with the place past the event, or the field and the reason of
    /// the refusal.
    #[inline]
    pub fn read_binary(buf: &[u8]) -> Result<Option<Placed<ATEvent<'_>>>, Why> {
        let mut row = [0; ROW];
        let mut answer = sys::READ_W36_BINARY.read(buf, &mut row);
        match answer.code() {
            sys::NOT_BINARY => Ok(None),
            _ => reading::placed(&mut answer).map(Some),
        }
    }

    /// Every event of one read, binary and text.
    pub fn walk(buf: &[u8]) -> Walk<'_> {
        Walk::new(buf)
    }

    /// Writes the event to the start of `buf` as the radio sends it, and gives the length. Each text
    /// and data of the event is a part of `source`: the buffer that the event was read from, or the one
    /// that a gateway put them together in. A refused write changes no byte.
    pub fn write_line(&self, source: &[u8], buf: &mut [u8]) -> Result<usize, EventWriteError> {
        self.row(source).line(sys::WRITE_W36, buf)
    }
}

/// What the radio answers to a command.
#[derive(PartialEq, Debug)]
#[cfg_attr(feature = "defmt", derive(defmt::Format))]
pub enum ATResponse<'a> {
    /// `OK`, and the text before it.
    Ok(&'a str),
    /// `ERROR`
    Error,
    /// Anything else.
    Other(&'a str),
}

impl ATResponse<'_> {
    /// The response that starts at the first byte.
    #[inline]
    pub fn new(buf: &[u8]) -> Result<ATResponse<'_>, AtPacketError> {
        match reading::accepted(&mut sys::READ_RESPONSE.read(buf, &mut [0; ROW])) {
            Ok(Said::Ok(text)) => Ok(ATResponse::Ok(text)),
            Ok(Said::Error) => Ok(ATResponse::Error),
            Ok(Said::Other(text)) => Ok(ATResponse::Other(text)),
            Err(why) => Err(AtPacketError::of(why.refusal())),
        }
    }
}
