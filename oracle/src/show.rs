//! Answers as text: the Rust's names, then the fields in the Rust's order, split by single spaces.
//! `archive` compiles this file a second time, for the types of the crate.

use std::fmt::Debug;
use std::io::Write;

use super::judged::w26x::at_protocol::ATResponse;
use super::judged::w26x::edm_protocol::{ConnectEventType, EdmPacket, EdmPacketError};
use super::rows::{self, Row, Value};
use crate::hex;
use crate::record::push_decimal;

/// The Rust returned a case that no reader returns, by document 01.
pub const UNLISTED: &str = "UNLISTED CASE";

fn word(out: &mut Vec<u8>, text: &str) {
    out.extend_from_slice(text.as_bytes());
}

fn number_after(out: &mut Vec<u8>, n: usize) {
    out.push(b' ');
    push_decimal(out, n);
}

/// A place in the bytes that were asked about.
pub fn place_after(out: &mut Vec<u8>, place: usize) {
    word(out, " @");
    push_decimal(out, place);
}

fn hex_after(out: &mut Vec<u8>, bytes: &[u8]) {
    out.push(b' ');
    hex::push(out, bytes);
}

/// The Rust derives Debug for both error enums, so the name printed is its own.
pub fn refusal(out: &mut Vec<u8>, error: impl Debug) {
    write!(out, "refused {error:?}").expect("a Vec takes every byte");
}

pub fn frame_refusal(out: &mut Vec<u8>, error: EdmPacketError) {
    match error {
        EdmPacketError::AtPacketError(inner) => {
            write!(out, "refused AtPacketError {inner:?}").expect("a Vec takes every byte")
        }
        own => refusal(out, own),
    }
}

pub fn row(out: &mut Vec<u8>, row: &Row) {
    word(out, row.case);
    for value in &row.values {
        match *value {
            Value::Number(n) => number_after(out, n as usize),
            Value::IsIpv6(yes) => number_after(out, yes.into()),
            Value::TypeBluetooth => {}
            Value::Text(text) => hex_after(out, text.as_bytes()),
            Value::Data(data) => hex_after(out, data),
            Value::Case(name, _) => {
                out.push(b' ');
                word(out, name);
            }
        }
    }
}

/// An event in a frame, 0041.
pub fn event_packet(out: &mut Vec<u8>, event: &Row) {
    word(out, "ATEvent ");
    row(out, event);
}

pub fn response(out: &mut Vec<u8>, response: &ATResponse) {
    match response {
        ATResponse::Ok(text) => {
            word(out, "Ok");
            hex_after(out, text.as_bytes());
        }
        ATResponse::Error => word(out, "Error"),
        ATResponse::Other(text) => {
            word(out, "Other");
            hex_after(out, text.as_bytes());
        }
    }
}

pub fn packet(out: &mut Vec<u8>, packet: &EdmPacket) -> Result<(), &'static str> {
    match packet {
        EdmPacket::ConnectEvent { channel, event_type } => {
            word(out, "ConnectEvent");
            number_after(out, (*channel).into());
            connect(out, event_type);
        }
        EdmPacket::DisconnectEvent { channel } => {
            word(out, "DisconnectEvent");
            number_after(out, (*channel).into());
        }
        EdmPacket::DataEvent { channel, data } => {
            word(out, "DataEvent");
            number_after(out, (*channel).into());
            hex_after(out, data);
        }
        EdmPacket::ATRequest(text) => {
            word(out, "ATRequest");
            hex_after(out, text.as_bytes());
        }
        EdmPacket::ATResponse(inner) => {
            word(out, "ATResponse ");
            response(out, inner);
        }
        EdmPacket::ATEvent(event) => event_packet(out, &rows::of26(event).ok_or(UNLISTED)?),
        EdmPacket::ResendConnectEvents => word(out, "ResendConnectEvents"),
        EdmPacket::StartEvent => word(out, "StartEvent"),
        EdmPacket::DataCommand { .. } => return Err(UNLISTED),
    }
    Ok(())
}

fn connect(out: &mut Vec<u8>, event_type: &ConnectEventType) {
    let ConnectEventType::ConnectEventIPv4(ends) = event_type;
    word(out, " ConnectEventIPv4");
    number_after(out, ends.protocol.into());
    hex_after(out, &ends.remote_addr);
    number_after(out, ends.remote_port.into());
    hex_after(out, &ends.local_addr);
    number_after(out, ends.local_port.into());
}

pub fn written(out: &mut Vec<u8>, bytes: &[u8]) {
    word(out, "wrote");
    number_after(out, bytes.len());
    hex_after(out, bytes);
}
