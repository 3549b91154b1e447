//! Every class of answer that each kind of question can have. What the generator and the recorded
//! list reach is held against this.

use crate::pcap::{Cause, Order};
use crate::record::{Explained, Reader};
use crate::why::Amiss;
use crate::{amiss, walk};

const W26_EVENTS: [&str; 26] = [
    "PeerConnectedIP",
    "PeerDisconnected",
    "WifiLinkConnected",
    "WifiLinkDisconnected",
    "WifiAccessPointUp",
    "WifiAccessPointDown",
    "WifiAccessPointStationConnected",
    "WifiAccessPointStationDisconnected",
    "EthernetLinkUp",
    "EthernetLinkDown",
    "NetworkUp",
    "NetworkDown",
    "NetworkError",
    "DataAvailable",
    "PeerConnectedBluetooth",
    "BondEvent",
    "UserConfirmation",
    "UserPasskeyDisplay",
    "UserPasskeyEntry",
    "ACLConnected",
    "ACLDisconnected",
    "GATTRequestToRead",
    "GATTRequestToWrite",
    "GATTIndicationConfirmation",
    "GATTNotification",
    "GATTIndication",
];

const W36_EVENTS: [&str; 13] = [
    "SocketConnected",
    "SocketClosed",
    "SocketDataAvailable",
    "WifiLinkUp",
    "WifiLinkDown",
    "WifiAccessPointUp",
    "WifiAccessPointDown",
    "WifiAccessPointStationAssociated",
    "WifiAccessPointStationDisassociated",
    "StationNetworkUp",
    "StationNetworkDown",
    "AccessPointNetworkUp",
    "AccessPointNetworkDown",
];

/// Refusals 11, 12 and 16. The last does not arise for inline data, whose names are known.
const LINE_REFUSALS: [&str; 3] = ["Utf8DecodeFailed", "FramingDecodeFailed", "EventUnknown"];

/// Refusals 14 and 15.
const FIELD_REFUSALS: [&str; 2] =
    ["TypeDecodeParameterMissing", "TypeDecodeParameterDataTypeInvalid"];

/// Refusal 13, for a W26 line.
const TYPE_REFUSAL: [&str; 1] = ["TypeDecodeUnsupported"];

const BINARY_ANSWERS: [&str; 3] = ["SocketDataBinary", "SocketDataBinaryFrom", "notbinary"];

const WRITER_REFUSALS: [&str; 2] = ["FieldNotWritable", "EventBufferTooSmall"];

/// Refusals 1 to 8.
const FRAME_REFUSALS: [&str; 8] = [
    "PacketDecodeFramingInvalid",
    "PacketDecodeTargetMemorySizeInvalid",
    "PacketTypeDecodeLengthMismatch",
    "PayloadTypeUnknown",
    "ConnectEventUnsupported",
    "ConnectEventDecodeError",
    "DisconnectEventDecodeError",
    "AtRequestEventDecodeError",
];

const FRAME_PACKETS: [&str; 9] = [
    "ConnectEvent",
    "DisconnectEvent",
    "DataEvent",
    "ATRequest",
    "ATResponse Ok",
    "ATResponse Error",
    "ATResponse Other",
    "ResendConnectEvents",
    "StartEvent",
];

/// The checks of 01 that are not about a field, each with its refusal.
const FRAME_CHECKS: [&str; 12] = [
    "1 PacketDecodeFramingInvalid FrameOfTwo",
    "1 PacketDecodeFramingInvalid StartByte",
    "1 PacketDecodeFramingInvalid EndByte",
    "2 PacketDecodeTargetMemorySizeInvalid FrameOfSix",
    "3 PacketTypeDecodeLengthMismatch FrameLength",
    "4 PayloadTypeUnknown Identifier",
    "2 PacketDecodeTargetMemorySizeInvalid ConnectOfTwo",
    "5 ConnectEventUnsupported ConnectType",
    "6 ConnectEventDecodeError ConnectSize",
    "7 DisconnectEventDecodeError DisconnectSize",
    "2 PacketDecodeTargetMemorySizeInvalid DataChannel",
    "8 AtRequestEventDecodeError RequestUtf8",
];

const LINE_CHECKS: [&str; 5] = [
    "11 Utf8DecodeFailed Utf8",
    "12 FramingDecodeFailed LineOfTwo",
    "12 FramingDecodeFailed PlaceTwo",
    "12 FramingDecodeFailed LineEnd",
    "16 EventUnknown EventName",
];

const RESPONSE_CHECKS: [&str; 3] = [
    "11 Utf8DecodeFailed Utf8",
    "12 FramingDecodeFailed FirstLineEnd",
    "12 FramingDecodeFailed LastLineEnd",
];

const BINARY_CHECKS: [&str; 4] = [
    "12 FramingDecodeFailed Marker",
    "11 Utf8DecodeFailed Utf8",
    "12 FramingDecodeFailed LengthBytes",
    "12 FramingDecodeFailed DataBytes",
];

/// The type of a peer is W26's second field.
const TYPE_CHECK: [&str; 1] = ["13 TypeDecodeUnsupported FieldType2"];

/// The fields of what is accepted: of a payload and of a response, and how many an event may have.
const PAYLOAD_PARTS: [&str; 5] = [
    "",
    " Channel ConnectType Protocol RemoteAddress RemotePort LocalAddress LocalPort",
    " Channel",
    " Channel Data",
    " Text",
];
const W26_FIELDS: [usize; 7] = [0, 1, 2, 3, 4, 5, 7];
const W36_FIELDS: [usize; 4] = [0, 1, 2, 3];
const BINARY_FIELDS: [usize; 2] = [1, 3];

const OTHERS: [&str; 17] = [
    "response Ok",
    "response Error",
    "response Other",
    "response refused Utf8DecodeFailed",
    "response refused FramingDecodeFailed",
    "data wrote",
    "data refused PacketDecodeTargetMemorySizeInvalid",
    "data refused PacketEncodePayloadSizeInvalid",
    "request wrote",
    "request refused PacketDecodeTargetMemorySizeInvalid",
    "request refused AtRequestEventDecodeError",
    "request refused PacketEncodePayloadSizeInvalid",
    "resend wrote",
    "resend refused PacketDecodeTargetMemorySizeInvalid",
    "again26 wrote",
    "again26 refused TypeDecodeUnsupported",
    "again36 wrote",
];

/// The first ranges of a dump in every order that there is: no two skipped ones are neighbours. A dump
/// that is refused is too long for the recorded list; the slips at the limit ask the generator for one.
const DUMPS: [&str; 16] = [
    "-",
    "kept",
    "skipped",
    "kept kept",
    "kept skipped",
    "skipped kept",
    "kept kept kept",
    "kept kept skipped",
    "kept skipped kept",
    "skipped kept kept",
    "skipped kept skipped",
    "kept kept kept ..",
    "kept kept skipped ..",
    "kept skipped kept ..",
    "skipped kept kept ..",
    "skipped kept skipped ..",
];

/// The classes with their kind before them, as `classes::label` gives them.
pub fn labels() -> Vec<String> {
    let mut labels: Vec<String> = OTHERS.iter().map(|label| label.to_string()).collect();
    for reader in Reader::ALL {
        add_read(&mut labels, reader);
    }
    for kind in Explained::ALL {
        add_explained(&mut labels, kind);
    }
    for count in walk::COUNTS {
        add(&mut labels, &format!("walk36 {count} "), &["end"]);
        add(&mut labels, &format!("walk36 {count} refused "), &LINE_REFUSALS);
        add(&mut labels, &format!("walk36 {count} refused "), &FIELD_REFUSALS);
    }
    add_captures(&mut labels);
    add(&mut labels, "scan ", &DUMPS);
    for again in ["again26 refused ", "again36 refused "] {
        add(&mut labels, again, &LINE_REFUSALS);
        add(&mut labels, again, &FIELD_REFUSALS);
        add(&mut labels, again, &WRITER_REFUSALS);
    }
    labels
}

fn add(labels: &mut Vec<String>, before: &str, names: &[&str]) {
    labels.extend(names.iter().map(|name| format!("{before}{name}")));
}

/// The classes of both words of a reader: they part only where a refusal has a field.
fn add_read(labels: &mut Vec<String>, reader: Reader) {
    let (plain, why) = (reader.word(), reader.why_word());
    let refused = if reader == Reader::Frame { "refused AtPacketError" } else { "refused" };
    for word in [plain, why] {
        add_without_field(labels, reader, word, refused);
    }
    add(labels, &format!("{plain} {refused} "), &FIELD_REFUSALS);
    for found in amiss::flaws(reader).iter().map(|flaw| flaw.found) {
        let label = format!("{why} {refused} {} {found}", found.amiss.refusal());
        if !labels.contains(&label) {
            labels.push(label);
        }
    }
}

fn add_without_field(labels: &mut Vec<String>, reader: Reader, word: &str, refused: &str) {
    let (events, refusals): (&[&str], &[&str]) = match reader {
        Reader::Frame | Reader::W26 => (&W26_EVENTS, &LINE_REFUSALS),
        Reader::W36 => (&W36_EVENTS, &LINE_REFUSALS),
        Reader::Binary => (&BINARY_ANSWERS, &LINE_REFUSALS[..2]),
    };
    let wrapper = if reader == Reader::Frame { "ATEvent " } else { "" };
    add(labels, &format!("{word} {wrapper}"), events);
    add(labels, &format!("{word} {refused} "), refusals);
    if matches!(reader, Reader::Frame | Reader::W26) {
        add(labels, &format!("{word} {refused} "), &TYPE_REFUSAL);
    }
    if reader == Reader::Frame {
        add(labels, &format!("{word} "), &FRAME_PACKETS);
        add(labels, &format!("{word} refused "), &FRAME_REFUSALS);
    }
}

fn add_explained(labels: &mut Vec<String>, kind: Explained) {
    let refused = format!("explain {} refused ", kind.word());
    let reader = match kind {
        Explained::Read(reader) => reader,
        Explained::Response => {
            add(labels, &refused, &RESPONSE_CHECKS);
            return add(labels, "explain response accepted", &["", " Text"]);
        }
    };
    let checks: &[&str] = if reader == Reader::Binary { &BINARY_CHECKS } else { &LINE_CHECKS };
    add(labels, &refused, checks);
    for flaw in amiss::flaws(reader) {
        let label = format!("{refused}{}", check(flaw.found.amiss, flaw.found.field));
        if !labels.contains(&label) {
            labels.push(label);
        }
    }
    if matches!(reader, Reader::Frame | Reader::W26) {
        add(labels, &refused, &TYPE_CHECK);
    }
    if reader == Reader::Frame {
        add(labels, &refused, &FRAME_CHECKS);
        add(labels, &refused, &RESPONSE_CHECKS[1..]);
    }
    labels.extend(accepted(reader));
}

/// Each cause of a refusal: those of the header in either byte order once the magic shows it, those of a
/// record in either and after each count of records, as the end is.
fn add_captures(labels: &mut Vec<String>) {
    add_causes(labels, "0", &Cause::OF_MAGIC);
    for order in Order::ALL.map(Order::word) {
        add_causes(labels, &format!("{order} 0"), &Cause::OF_HEADER);
        for count in walk::COUNTS {
            add(labels, &format!("pcap {order} {count} "), &["end"]);
            add_causes(labels, &format!("{order} {count}"), &Cause::OF_RECORD);
        }
    }
}

fn add_causes(labels: &mut Vec<String>, before: &str, causes: &[Cause]) {
    for cause in causes {
        add(labels, &format!("pcap {before} refused {} ", cause.refusal()), &[cause.word()]);
    }
}

fn check(amiss: Amiss, field: usize) -> String {
    let (number, name) = match amiss {
        Amiss::Missing => (14, "FieldThere"),
        Amiss::Type => (13, "FieldType"),
        Amiss::Empty => (15, "FieldEmpty"),
        Amiss::Byte => (15, "FieldByte"),
        Amiss::Large => (15, "FieldLarge"),
        Amiss::List => (15, "FieldListed"),
    };
    format!("{number} {} {name}{field}", amiss.refusal())
}

/// The classes of what a reader accepts, by the names of the fields.
fn accepted(reader: Reader) -> Vec<String> {
    let event = |count: usize| {
        let fields: Vec<String> = (1..=count).map(|field| format!(" Field{field}")).collect();
        format!(" Name{}", fields.concat())
    };
    let (parts, before, after): (Vec<String>, _, _) = match reader {
        Reader::Frame => {
            let payloads = PAYLOAD_PARTS.iter().map(|parts| parts.to_string());
            let parts = payloads.chain(W26_FIELDS.into_iter().map(event)).collect();
            (parts, " StartByte Length Identifier", " EndByte")
        }
        Reader::W26 => (W26_FIELDS.into_iter().map(event).collect(), "", ""),
        Reader::W36 => (W36_FIELDS.into_iter().map(event).collect(), "", ""),
        Reader::Binary => {
            (BINARY_FIELDS.into_iter().map(event).collect(), "", " Marker DataLength Data")
        }
    };
    let label = |parts: String| format!("explain {} accepted{before}{parts}{after}", reader.word());
    parts.into_iter().map(label).collect()
}
