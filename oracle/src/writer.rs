//! A plain model of the event writer, from the section "Event writer" of document 01. The Rust has no
//! such writer; what it does have is the reader that must give the same event back.

use crate::record::push_decimal;
use crate::rows::{Row, Value};

/// 17 and 18 of document 01.
#[derive(Debug)]
pub enum WriteRefusal {
    FieldNotWritable,
    EventBufferTooSmall,
}

/// The line of an event, if its fields may be written (17) and it fits into `size` bytes (18).
pub fn write(row: &Row, size: usize) -> Result<Vec<u8>, WriteRefusal> {
    if !row.values.iter().all(|value| is_writable(value, is_binary(row))) {
        return Err(WriteRefusal::FieldNotWritable);
    }
    let line = line(row);
    if line.len() > size {
        return Err(WriteRefusal::EventBufferTooSmall);
    }
    Ok(line)
}

fn is_binary(row: &Row) -> bool {
    matches!(row.values.last(), Some(Value::Data(_)))
}

/// The condition of 17, as far as an event of the Rust can break it: its texts are UTF-8 by their
/// type, and its fields lie in their source.
fn is_writable(value: &Value, in_binary: bool) -> bool {
    match value {
        Value::Text(text) => !text.contains([',', '\r']) && (!in_binary || !text.contains('\x01')),
        Value::Data(data) => data.len() <= 65_535,
        _ => true,
    }
}

fn line(row: &Row) -> Vec<u8> {
    let mut line = Vec::from(*b"\r\n");
    line.extend_from_slice(row.name.as_bytes());
    let mut before = b':';
    for value in &row.values {
        if let Value::Data(data) = value {
            line.extend_from_slice(&[1, (data.len() / 256) as u8, (data.len() % 256) as u8]);
            line.extend_from_slice(data);
        } else {
            line.push(before);
            field(&mut line, value);
        }
        before = b',';
    }
    if !is_binary(row) {
        line.extend_from_slice(b"\r\n");
    }
    line
}

fn field(line: &mut Vec<u8>, value: &Value) {
    match *value {
        Value::Number(n) | Value::Case(_, n) => push_decimal(line, n as usize),
        Value::TypeBluetooth => line.push(b'1'),
        Value::IsIpv6(yes) => line.push(if yes { b'3' } else { b'2' }),
        Value::Text(text) => line.extend_from_slice(text.as_bytes()),
        Value::Data(data) => line.extend_from_slice(data),
    }
}
