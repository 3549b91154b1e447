//! W36 events as the archive's rows, in both directions.

use super::at_protocol::ATEvent;
use crate::reading::FromRow;
use crate::sys::Answer;
use crate::writing::Writing;

impl<'a> FromRow<'a> for ATEvent<'a> {
    /// The event of a row, by its case. Fields stand in the order of the arms.
    #[inline(always)]
    fn of(row: &mut Answer<'a, '_>) -> Option<Self> {
        Some(match row.number() {
            0 => Self::SocketConnected { socket_id: row.u8() },
            1 => Self::SocketClosed { socket_id: row.u8() },
            2 => Self::SocketDataAvailable { socket_id: row.u8(), length: row.u16() },
            3 => Self::WifiLinkUp { wlan_handle: row.u16(), bssid: row.text(), channel: row.u16() },
            4 => Self::WifiLinkDown { wlan_handle: row.u16(), reason: row.u16() },
            5 => Self::WifiAccessPointStationAssociated { mac_addr: row.text() },
            6 => Self::WifiAccessPointStationDisassociated { mac_addr: row.text() },
            7 => Self::WifiAccessPointUp,
            8 => Self::WifiAccessPointDown,
            9 => Self::StationNetworkUp,
            10 => Self::StationNetworkDown,
            11 => Self::AccessPointNetworkUp,
            12 => Self::AccessPointNetworkDown,
            13 => Self::SocketDataBinary { socket_id: row.u8(), data: row.bytes() },
            14 => Self::SocketDataBinaryFrom {
                socket_id: row.u8(),
                remote_ip: row.text(),
                remote_port: row.u16(),
                data: row.bytes(),
            },
            _ => return None,
        })
    }
}

impl ATEvent<'_> {
    /// The row of an event: what [`ATEvent::of`] takes apart.
    pub(super) fn row<'s>(&self, source: &'s [u8]) -> Writing<'s> {
        let case = |number| Writing::new(source, number);
        match *self {
            Self::SocketConnected { socket_id } => case(0).number(socket_id),
            Self::SocketClosed { socket_id } => case(1).number(socket_id),
            Self::SocketDataAvailable { socket_id, length } => {
                case(2).number(socket_id).number(length)
            }
            Self::WifiLinkUp { wlan_handle, bssid, channel } => {
                case(3).number(wlan_handle).text(bssid).number(channel)
            }
            Self::WifiLinkDown { wlan_handle, reason } => {
                case(4).number(wlan_handle).number(reason)
            }
            Self::WifiAccessPointStationAssociated { mac_addr } => case(5).text(mac_addr),
            Self::WifiAccessPointStationDisassociated { mac_addr } => case(6).text(mac_addr),
            Self::WifiAccessPointUp => case(7),
            Self::WifiAccessPointDown => case(8),
            Self::StationNetworkUp => case(9),
            Self::StationNetworkDown => case(10),
            Self::AccessPointNetworkUp => case(11),
            Self::AccessPointNetworkDown => case(12),
            Self::SocketDataBinary { socket_id, data } => case(13).number(socket_id).part(data),
            Self::SocketDataBinaryFrom { socket_id, remote_ip, remote_port, data } => {
                case(14).number(socket_id).text(remote_ip).number(remote_port).part(data)
            }
        }
    }
}
