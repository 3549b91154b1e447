//! AT events and responses of the W26 radio.

use crate::reading::{self, FromRow, Said};
use crate::sys::{self, Answer, ROW};
use crate::{EventWriteError, Placed, Refusal, Why};

/// Why an event or a response is refused.
#[derive(Copy, Clone, PartialEq, Debug)]
#[cfg_attr(feature = "defmt", derive(defmt::Format))]
pub enum AtPacketError {
    Utf8DecodeFailed,
    FramingDecodeFailed,
    TypeDecodeUnsupported,
    TypeDecodeParameterMissing,
    TypeDecodeParameterDataTypeInvalid,
    EventUnknown,
}

impl AtPacketError {
    /// The proofs leave 11 to 16; any other refusal counts as the last.
    pub(super) fn of(refusal: Refusal) -> Self {
        match refusal {
            Refusal::Utf8DecodeFailed => Self::Utf8DecodeFailed,
            Refusal::FramingDecodeFailed => Self::FramingDecodeFailed,
            Refusal::TypeDecodeUnsupported => Self::TypeDecodeUnsupported,
            Refusal::TypeDecodeParameterMissing => Self::TypeDecodeParameterMissing,
            Refusal::TypeDecodeParameterDataTypeInvalid => Self::TypeDecodeParameterDataTypeInvalid,
            _ => Self::EventUnknown,
        }
    }
}

/// Why a station has lost its access point.
#[derive(PartialEq, Debug)]
#[cfg_attr(feature = "defmt", derive(defmt::Format))]
pub enum WifiLinkDisconnectedReason {
    Unknown = 0,
    RemoteClose = 1,
    OutOfRange = 2,
    Roaming = 3,
    SecurityProblems = 4,
    NetworkDisabled = 5,
}

impl TryFrom<u8> for WifiLinkDisconnectedReason {
    type Error = ();

    fn try_from(val: u8) -> Result<Self, Self::Error> {
        match val {
            0 => Ok(Self::Unknown),
            1 => Ok(Self::RemoteClose),
            2 => Ok(Self::OutOfRange),
            3 => Ok(Self::Roaming),
            4 => Ok(Self::SecurityProblems),
            5 => Ok(Self::NetworkDisabled),
            _ => Err(()),
        }
    }
}

impl WifiLinkDisconnectedReason {
    pub(super) fn number(&self) -> u8 {
        match self {
            Self::Unknown => 0,
            Self::RemoteClose => 1,
            Self::OutOfRange => 2,
            Self::Roaming => 3,
            Self::SecurityProblems => 4,
            Self::NetworkDisabled => 5,
        }
    }
}

/// The protocol of a peer.
#[derive(PartialEq, Debug)]
#[cfg_attr(feature = "defmt", derive(defmt::Format))]
pub enum PeerConnectedProfile {
    TCP,
    UDP,
    MQTT,
}

impl TryFrom<u8> for PeerConnectedProfile {
    type Error = ();

    fn try_from(val: u8) -> Result<Self, Self::Error> {
        match val {
            1 => Ok(Self::TCP),
            2 => Ok(Self::UDP),
            6 => Ok(Self::MQTT),
            _ => Err(()),
        }
    }
}

impl PeerConnectedProfile {
    /// The number that the radio sends. It is not the number of the case.
    pub(super) fn number(&self) -> u8 {
        match self {
            Self::TCP => 1,
            Self::UDP => 2,
            Self::MQTT => 6,
        }
    }
}

/// What the radio says unasked.
#[derive(PartialEq, Debug)]
#[cfg_attr(feature = "defmt", derive(defmt::Format))]
pub enum ATEvent<'a> {
    /// `+UUDATA`
    DataAvailable { peer: u16, length: u16 },
    /// `+UUDPC` with type 1
    PeerConnectedBluetooth { peer_handle: u16, profile: u8, address: &'a str, frame_size: u16 },
    /// `+UUDPC` with type 2 (IPv4) or 3 (IPv6)
    PeerConnectedIP {
        peer_handle: u16,
        is_ipv6: bool,
        protocol: PeerConnectedProfile,
        local_address: &'a str,
        local_port: u16,
        remote_address: &'a str,
        remote_port: u16,
    },
    /// `+UUDPD`
    PeerDisconnected { peer_handle: u16 },
    /// `+UUBTB`
    BondEvent { bd_addr: &'a str, status: u8 },
    /// `+UUBTUC`
    UserConfirmation { bd_addr: &'a str, value: u32 },
    /// `+UUBTUPD`
    UserPasskeyDisplay { bd_addr: &'a str, passkey: u32 },
    /// `+UUBTUPE`
    UserPasskeyEntry { bd_addr: &'a str },
    /// `+UUBTACLC`. The Rust that was replaced has no `bd_addr`; the radio sends it.
    ACLConnected { conn_handle: u16, type_: u8, bd_addr: &'a str },
    /// `+UUBTACLD`
    ACLDisconnected { conn_handle: u16 },
    /// `+UUWLE`
    WifiLinkConnected { conn_id: u16, bssid: &'a str, channel: u16 },
    /// `+UUWLD`
    WifiLinkDisconnected { conn_id: u16, reason: WifiLinkDisconnectedReason },
    /// `+UUWAPU`
    WifiAccessPointUp { id: u16 },
    /// `+UUWAPD`
    WifiAccessPointDown { id: u16 },
    /// `+UUWAPSTAC`
    WifiAccessPointStationConnected { id: u16, mac_addr: &'a str },
    /// `+UUWAPSTAD`
    WifiAccessPointStationDisconnected { id: u16 },
    /// `+UUETHLU`
    EthernetLinkUp,
    /// `+UUETHLD`
    EthernetLinkDown,
    /// `+UUDRSC`. No reader returns it.
    RemoteServiceConnected { handle: u16, local_url: &'a str, remote_url: &'a str },
    /// `+UUDRSD`. No reader returns it.
    RemoteServiceDisconnected { handle: u16 },
    /// `+UUNU`
    NetworkUp { interface_id: u16 },
    /// `+UUND`
    NetworkDown { interface_id: u16 },
    /// `+UUNERR`
    NetworkError { interface_id: u16, code: u16 },
    /// `+UUBTGRR`
    GATTRequestToRead { conn_handle: u16, char_handle: u16 },
    /// `+UUBTGRW`
    GATTRequestToWrite { conn_handle: u16, char_handle: u16, value: &'a str, options: u8 },
    /// `+UUBTGIC`
    GATTIndicationConfirmation { conn_handle: u16, char_handle: u16 },
    /// `+UUBTGN`
    GATTNotification { conn_handle: u16, value_handle: u16, hex_data: &'a str },
    /// `+UUBTGI`
    GATTIndication { conn_handle: u16, value_handle: u16, hex_data: &'a str },
    /// `+UUDHTTP`. No reader returns it.
    HTTPResponseEvent {
        peer_handle: u16,
        status_code: u16,
        length: u16,
        content_type: &'a str,
        content: &'a [u8],
    },
    /// `+UUNFCRD`. No reader returns it.
    NFCReadEvent,
}

impl ATEvent<'_> {
    /// The event line that starts at the first byte.
    #[inline]
    pub fn new(buf: &[u8]) -> Result<ATEvent<'_>, AtPacketError> {
        match ATEvent::read(buf) {
            Ok(placed) => Ok(placed.event),
            Err(why) => Err(AtPacketError::of(why.refusal())),
        }
    }

    /// As [`ATEvent::new`], with the place past the event, or the field and the reason of the refusal.
    #[inline]
    pub fn read(buf: &[u8]) -> Result<Placed<ATEvent<'_>>, Why> {
        reading::placed(&mut sys::READ_W26.read(buf, &mut [0; ROW]))
    }

    /// Writes the event to the start of `buf` as the radio sends it, and gives the length. Each text of
    /// the event is a part of `source`: the buffer that the event was read from, or the one that a
    /// gateway put the texts together in. A refused write changes no byte.
    pub fn write_line(&self, source: &[u8], buf: &mut [u8]) -> Result<usize, EventWriteError> {
        match self.row(source) {
            Some(row) => row.line(sys::WRITE_W26, buf),
            None => Err(EventWriteError::FieldNotWritable),
        }
    }
}

/// What the radio answers to a command.
#[derive(PartialEq, Debug)]
#[cfg_attr(feature = "defmt", derive(defmt::Format))]
pub enum ATResponse<'a> {
    /// `OK`, and the text before it.
    Ok(&'a str),
    /// `ERROR`
    Error,
    /// Anything else.
    Other(&'a str),
}

impl ATResponse<'_> {
    /// The response that starts at the first byte.
    #[inline]
    pub fn new(buf: &[u8]) -> Result<ATResponse<'_>, AtPacketError> {
        match reading::accepted(&mut sys::READ_RESPONSE.read(buf, &mut [0; ROW])) {
            Ok(response) => Ok(response),
            Err(why) => Err(AtPacketError::of(why.refusal())),
        }
    }
}

impl<'a> FromRow<'a> for ATResponse<'a> {
    #[inline]
    fn of(row: &mut Answer<'a, '_>) -> Option<Self> {
        Some(match Said::of(row)? {
            Said::Ok(text) => Self::Ok(text),
            Said::Error => Self::Error,
            Said::Other(text) => Self::Other(text),
        })
    }
}
