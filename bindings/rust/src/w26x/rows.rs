//! W26 events as the archive's rows, in both directions.

use super::at_protocol::{ATEvent, PeerConnectedProfile, WifiLinkDisconnectedReason};
use crate::reading::FromRow;
use crate::sys::Answer;
use crate::writing::Writing;

impl<'a> FromRow<'a> for ATEvent<'a> {
    /// The event of a row, by its case. Fields stand in the order of the arms.
    #[inline(always)]
    fn of(row: &mut Answer<'a, '_>) -> Option<Self> {
        Some(match row.number() {
            0 => Self::PeerConnectedIP {
                peer_handle: row.u16(),
                is_ipv6: row.u8() == 3,
                protocol: PeerConnectedProfile::try_from(row.u8()).ok()?,
                local_address: row.text(),
                local_port: row.u16(),
                remote_address: row.text(),
                remote_port: row.u16(),
            },
            1 => Self::PeerDisconnected { peer_handle: row.u16() },
            2 => Self::WifiLinkConnected {
                conn_id: row.u16(),
                bssid: row.text(),
                channel: row.u16(),
            },
            3 => Self::WifiLinkDisconnected {
                conn_id: row.u16(),
                reason: WifiLinkDisconnectedReason::try_from(row.u8()).ok()?,
            },
            4 => Self::WifiAccessPointUp { id: row.u16() },
            5 => Self::WifiAccessPointDown { id: row.u16() },
            6 => Self::WifiAccessPointStationConnected { id: row.u16(), mac_addr: row.text() },
            7 => Self::WifiAccessPointStationDisconnected { id: row.u16() },
            8 => Self::EthernetLinkUp,
            9 => Self::EthernetLinkDown,
            10 => Self::NetworkUp { interface_id: row.u16() },
            11 => Self::NetworkDown { interface_id: row.u16() },
            12 => Self::NetworkError { interface_id: row.u16(), code: row.u16() },
            case => return Self::of_bluetooth(case, row),
        })
    }
}

impl<'a> ATEvent<'a> {
    #[inline(always)]
    fn of_bluetooth(case: u64, row: &mut Answer<'a, '_>) -> Option<Self> {
        Some(match case {
            13 => Self::DataAvailable { peer: row.u16(), length: row.u16() },
            14 => Self::BondEvent { bd_addr: row.text(), status: row.u8() },
            15 => Self::UserConfirmation { bd_addr: row.text(), value: row.u32() },
            16 => Self::UserPasskeyDisplay { bd_addr: row.text(), passkey: row.u32() },
            17 => Self::UserPasskeyEntry { bd_addr: row.text() },
            18 => {
                Self::ACLConnected { conn_handle: row.u16(), type_: row.u8(), bd_addr: row.text() }
            }
            19 => Self::ACLDisconnected { conn_handle: row.u16() },
            25 => {
                let peer_handle = row.u16();
                let _type_1 = row.number();
                Self::PeerConnectedBluetooth {
                    peer_handle,
                    profile: row.u8(),
                    address: row.text(),
                    frame_size: row.u16(),
                }
            }
            case => return Self::of_gatt(case, row),
        })
    }

    #[inline(always)]
    fn of_gatt(case: u64, row: &mut Answer<'a, '_>) -> Option<Self> {
        Some(match case {
            20 => Self::GATTRequestToRead { conn_handle: row.u16(), char_handle: row.u16() },
            21 => Self::GATTRequestToWrite {
                conn_handle: row.u16(),
                char_handle: row.u16(),
                value: row.text(),
                options: row.u8(),
            },
            22 => {
                Self::GATTIndicationConfirmation { conn_handle: row.u16(), char_handle: row.u16() }
            }
            23 => Self::GATTNotification {
                conn_handle: row.u16(),
                value_handle: row.u16(),
                hex_data: row.text(),
            },
            24 => Self::GATTIndication {
                conn_handle: row.u16(),
                value_handle: row.u16(),
                hex_data: row.text(),
            },
            _ => return None,
        })
    }

    /// The row of an event: what [`ATEvent::of`] takes apart. `None` where no reader returns the case.
    pub(super) fn row<'s>(&self, source: &'s [u8]) -> Option<Writing<'s>> {
        let case = |number| Writing::new(source, number);
        Some(match *self {
            Self::PeerConnectedIP {
                peer_handle,
                is_ipv6,
                ref protocol,
                local_address,
                local_port,
                remote_address,
                remote_port,
            } => case(0)
                .number(peer_handle)
                .number(if is_ipv6 { 3_u8 } else { 2 })
                .number(protocol.number())
                .text(local_address)
                .number(local_port)
                .text(remote_address)
                .number(remote_port),
            Self::PeerDisconnected { peer_handle } => case(1).number(peer_handle),
            Self::WifiLinkConnected { conn_id, bssid, channel } => {
                case(2).number(conn_id).text(bssid).number(channel)
            }
            Self::WifiLinkDisconnected { conn_id, ref reason } => {
                case(3).number(conn_id).number(reason.number())
            }
            Self::WifiAccessPointUp { id } => case(4).number(id),
            Self::WifiAccessPointDown { id } => case(5).number(id),
            Self::WifiAccessPointStationConnected { id, mac_addr: s } => case(6).number(id).text(s),
            Self::WifiAccessPointStationDisconnected { id } => case(7).number(id),
            Self::EthernetLinkUp => case(8),
            Self::EthernetLinkDown => case(9),
            Self::NetworkUp { interface_id } => case(10).number(interface_id),
            Self::NetworkDown { interface_id } => case(11).number(interface_id),
            Self::NetworkError { interface_id, code } => case(12).number(interface_id).number(code),
            _ => return self.row_bluetooth(source),
        })
    }

    fn row_bluetooth<'s>(&self, source: &'s [u8]) -> Option<Writing<'s>> {
        let case = |number| Writing::new(source, number);
        Some(match *self {
            Self::DataAvailable { peer, length } => case(13).number(peer).number(length),
            Self::BondEvent { bd_addr, status } => case(14).text(bd_addr).number(status),
            Self::UserConfirmation { bd_addr, value } => case(15).text(bd_addr).number(value),
            Self::UserPasskeyDisplay { bd_addr, passkey } => case(16).text(bd_addr).number(passkey),
            Self::UserPasskeyEntry { bd_addr } => case(17).text(bd_addr),
            Self::ACLConnected { conn_handle, type_, bd_addr } => {
                case(18).number(conn_handle).number(type_).text(bd_addr)
            }
            Self::ACLDisconnected { conn_handle } => case(19).number(conn_handle),
            Self::GATTRequestToRead { conn_handle, char_handle } => {
                case(20).number(conn_handle).number(char_handle)
            }
            Self::GATTRequestToWrite { conn_handle, char_handle, value, options } => {
                case(21).number(conn_handle).number(char_handle).text(value).number(options)
            }
            Self::GATTIndicationConfirmation { conn_handle, char_handle } => {
                case(22).number(conn_handle).number(char_handle)
            }
            Self::GATTNotification { conn_handle, value_handle, hex_data } => {
                case(23).number(conn_handle).number(value_handle).text(hex_data)
            }
            Self::GATTIndication { conn_handle, value_handle, hex_data } => {
                case(24).number(conn_handle).number(value_handle).text(hex_data)
            }
            Self::PeerConnectedBluetooth { peer_handle, profile, address, frame_size } => case(25)
                .number(peer_handle)
                .number(1_u8)
                .number(profile)
                .text(address)
                .number(frame_size),
            _ => return None,
        })
    }
}
