//! Where accepted rows hold texts. `sys` makes a `&str` there and nowhere else, so these tables must
//! say no more texts than the rows of `crates/abi/specs` have.

use super::Row;

/// Bit i is set where the numbers i and i + 1 of a row are the place and the length of a text.
pub(super) type Texts = u32;

/// The texts of a row by the letters of its fields, which begin at number 2: `n` is a number, `s` a
/// text, `b` bytes. A text and bytes are two numbers.
const fn texts(letters: &str) -> Texts {
    let mut letters = letters.as_bytes();
    let mut set = 0;
    let mut bit = 1 << 2;
    while let [letter, rest @ ..] = letters {
        if *letter == b's' {
            set |= bit;
        }
        bit <<= if *letter == b'n' { 1 } else { 2 };
        letters = rest;
    }
    set
}

// The tables are no `static`s, since those are not known where a read is inlined in another crate.
const W26: [Texts; 26] = [
    texts("nnnsnsn"), // 0 PeerConnectedIP
    texts("n"),       // 1 PeerDisconnected
    texts("nsn"),     // 2 WifiLinkConnected
    texts("nn"),      // 3 WifiLinkDisconnected
    texts("n"),       // 4 WifiAccessPointUp
    texts("n"),       // 5 WifiAccessPointDown
    texts("ns"),      // 6 WifiAccessPointStationConnected
    texts("n"),       // 7 WifiAccessPointStationDisconnected
    texts(""),        // 8 EthernetLinkUp
    texts(""),        // 9 EthernetLinkDown
    texts("n"),       // 10 NetworkUp
    texts("n"),       // 11 NetworkDown
    texts("nn"),      // 12 NetworkError
    texts("nn"),      // 13 DataAvailable
    texts("sn"),      // 14 BondEvent
    texts("sn"),      // 15 UserConfirmation
    texts("sn"),      // 16 UserPasskeyDisplay
    texts("s"),       // 17 UserPasskeyEntry
    texts("nns"),     // 18 ACLConnected
    texts("n"),       // 19 ACLDisconnected
    texts("nn"),      // 20 GATTRequestToRead
    texts("nnsn"),    // 21 GATTRequestToWrite
    texts("nn"),      // 22 GATTIndicationConfirmation
    texts("nns"),     // 23 GATTNotification
    texts("nns"),     // 24 GATTIndication
    texts("nnnsn"),   // 25 PeerConnectedBluetooth
];

const W36: [Texts; 15] = [
    texts("n"),    // 0 SocketConnected
    texts("n"),    // 1 SocketClosed
    texts("nn"),   // 2 SocketDataAvailable
    texts("nsn"),  // 3 WifiLinkUp
    texts("nn"),   // 4 WifiLinkDown
    texts("s"),    // 5 WifiAccessPointStationAssociated
    texts("s"),    // 6 WifiAccessPointStationDisassociated
    texts(""),     // 7 WifiAccessPointUp
    texts(""),     // 8 WifiAccessPointDown
    texts(""),     // 9 StationNetworkUp
    texts(""),     // 10 StationNetworkDown
    texts(""),     // 11 AccessPointNetworkUp
    texts(""),     // 12 AccessPointNetworkDown
    texts("nb"),   // 13 SocketDataBinary
    texts("nsnb"), // 14 SocketDataBinaryFrom
];

const RESPONSE: [Texts; 3] = [
    texts("s"), // 0 Ok
    texts(""),  // 1 Error
    texts("s"), // 2 Other
];

/// A request is its text.
const REQUEST: Texts = texts("s");

#[inline]
fn of_case(texts: &[Texts], case: u64) -> Texts {
    texts.get(case as usize).copied().unwrap_or(0)
}

#[inline]
pub(super) fn w26(row: &Row) -> Texts {
    of_case(&W26, row[1])
}

#[inline]
pub(super) fn w36(row: &Row) -> Texts {
    of_case(&W36, row[1])
}

#[inline]
pub(super) fn response(row: &Row) -> Texts {
    of_case(&RESPONSE, row[1])
}

/// By the identifier. An event and a response stand one number later than by themselves.
#[inline(always)]
pub(super) fn frame(row: &Row) -> Texts {
    match row[1] {
        0x41 => of_case(&W26, row[2]) << 1,
        0x44 => REQUEST,
        0x45 => of_case(&RESPONSE, row[2]) << 1,
        _ => 0,
    }
}
