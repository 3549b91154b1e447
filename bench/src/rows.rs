//! The rows of the table: what a gateway meets every day, each with the most instructions that ours may
//! take for one of the Rust's.

use crate::calls::Kind;
use crate::inputs::{any_bytes, binary, filled, frame, mixed};

pub struct Row {
    pub name: &'static str,
    pub what: &'static str,
    pub bar: f64,
    pub kind: Kind,
    pub input: Vec<u8>,
    /// The line as the Rust spells it, where that is another one.
    pub rust_input: Option<Vec<u8>>,
}

fn row(name: &'static str, what: &'static str, bar: f64, kind: Kind, input: Vec<u8>) -> Row {
    Row { name, what, bar, kind, input, rust_input: None }
}

pub fn all() -> Vec<Row> {
    let mut rows = frames();
    rows.extend(lines());
    rows.extend(texts());
    rows.extend(writes());
    rows
}

fn frames() -> Vec<Row> {
    let peer = b"\r\n+UUDPC:1,2,1,192.168.1.20,5003,192.168.1.77,49152\r\n";
    vec![
        row("frame-data-100", "data frame, 100 data bytes", 1.0, Kind::Frame, data_frame(100)),
        row("frame-data-4000", "data frame, 4,000 data bytes", 1.0, Kind::Frame, data_frame(4_000)),
        row("frame-uudpc", "0041 frame with `+UUDPC`", 1.0, Kind::Frame, frame(0x0041, peer)),
    ]
}

/// A frame 0031 with channel 3 and `len` data bytes.
fn data_frame(len: usize) -> Vec<u8> {
    let mut payload = vec![3];
    payload.extend(any_bytes(len));
    frame(0x0031, &payload)
}

fn lines() -> Vec<Row> {
    let link = b"\r\n+UEWLU:0,0012F398DD12,6\r\n".to_vec();
    let socket = b"\r\n+UESOC:1\r\n".to_vec();
    let last_w26 = b"\r\n+UUNERR:0,1\r\n".to_vec();
    let last_w36 = b"\r\n+UEWAPND\r\n".to_vec();
    let head = b"\r\n+UESODB:2";
    let data = binary(head, head.len() + 3 + 100);
    vec![
        row("w36-uewlu", "W36 `+UEWLU`", 1.0, Kind::W36, link),
        row("w36-uesoc", "W36 `+UESOC`", 1.0, Kind::W36, socket),
        Row {
            // 02, request 2: "`+UUNERR` is the event". The Rust has the bare name.
            rust_input: Some(b"\r\nUUNERR:0,1\r\n".to_vec()),
            ..row("w26-last", "W26 `+UUNERR`, the Rust's last row", 1.0, Kind::W26, last_w26)
        },
        row("w36-last", "W36 `+UEWAPND`, the table's last row", 1.0, Kind::W36, last_w36),
        row("binary-100", "`+UESODB`, 100 data bytes", 1.0, Kind::Binary, data),
    ]
}

fn texts() -> Vec<Row> {
    let many = filled(b"\r\n", b"+UMLA:17\r\n", b"+U:1\r\nOK\r\n", 1_000);
    let one = filled(b"\r\n", b"+UWSCAN 0012F398DD12 -64 ", b"\r\nOK\r\n", 1_000);
    let ascii = filled(b"", b"The quick brown fox jumps over the lazy dog. ", b"", 4_096);
    vec![
        row("response-lines", "response, 1,000 bytes, many lines", 1.0, Kind::Response, many),
        row("response-line", "response, 1,000 bytes, one line", 1.0, Kind::Response, one),
        row("utf8-ascii", "UTF-8, 4,096 ASCII bytes", 1.2, Kind::Utf8, ascii),
        row("utf8-mixed", "UTF-8, 4 KB of five scripts", 0.8, Kind::Utf8, mixed(4_096)),
    ]
}

fn writes() -> Vec<Row> {
    let (few, many) = (any_bytes(100), any_bytes(4_000));
    vec![
        row("write-data-100", "write 100 data bytes", 1.0, Kind::WriteData, few),
        row("write-data-4000", "write 4,000 data bytes", 1.0, Kind::WriteData, many),
    ]
}
