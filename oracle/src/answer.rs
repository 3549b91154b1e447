//! One record line in, one answer line out.

use crate::judged::w26x::at_protocol::AtPacketError;
use crate::judged::w26x::edm_protocol::{EdmPacket, EdmPacketError};
use crate::record::{self, Call, Explained, Reader};
use crate::rows::{self, Row};
use crate::{differences, explain, pcap, rust, scan, show, walk, why, writer};

/// A panic that document 01 has no answer for.
pub const PANIC: &str = "PANIC";
/// The two copies of the response reader do not agree.
pub const COPIES_DIFFER: &str = "COPIES DIFFER";
/// The Rust does not read the line of our event writer as the event that was written.
const NOT_READ_BACK: &str = "NOT READ BACK";
/// A write changed a byte that it must leave: after its frame, or any on a refusal.
pub const BYTE_CHANGED: &str = "BYTE CHANGED";

/// What a buffer holds before a write.
pub const FILL: u8 = 0xC7;

/// Nothing, or the fault that stands in the answer's place.
pub type Answered = Result<(), &'static str>;

#[derive(PartialEq)]
pub enum Outcome {
    Answered,
    /// The line that stands in the answer's place names a fault, and the run must fail.
    Fault,
    /// The line is no record, and nothing was printed.
    NoRecord,
}

/// Keeps its buffers from line to line.
#[derive(Default)]
pub struct Answerer {
    bytes: Vec<u8>,
    bed: Vec<u8>,
}

impl Answerer {
    /// Appends the answer, without a line end.
    pub fn answer(&mut self, line: &[u8], out: &mut Vec<u8>) -> Outcome {
        if !record::is_question(line) {
            out.extend_from_slice(line);
            return Outcome::Answered;
        }
        let Some(call) = record::parse(line, &mut self.bytes) else {
            return Outcome::NoRecord;
        };
        let start = out.len();
        let Err(fault) = self.call(call, out) else {
            return Outcome::Answered;
        };
        out.truncate(start);
        out.extend_from_slice(fault.as_bytes());
        Outcome::Fault
    }

    fn call(&mut self, call: Call, out: &mut Vec<u8>) -> Answered {
        let (bytes, bed) = (&self.bytes, &mut self.bed);
        match call {
            Call::Read(reader) => read(reader, bytes, bed, out),
            Call::Why(reader) => {
                let start = out.len();
                read(reader, bytes, bed, out)?;
                why::carry(reader, bytes, start, out)
            }
            Call::Explain(kind) => {
                let start = out.len();
                match kind {
                    Explained::Read(reader) => read(reader, bytes, bed, out)?,
                    Explained::Response => response(bytes, out)?,
                }
                explain::answer(kind, bytes, start, out)
            }
            Call::Walk36 => walk::answer(bytes, out),
            Call::Pcap => {
                pcap::answer(bytes, out);
                Ok(())
            }
            Call::Scan => scan::answer(bytes, bed, out),
            Call::Response => response(bytes, out),
            Call::Data { size, channel } => {
                let packet = EdmPacket::DataCommand { channel, data: bytes };
                write(&packet, 1 + bytes.len(), odd_place(bed, size), out)
            }
            Call::Request { size } => request(bytes, odd_place(bed, size), out),
            Call::Resend { size } => {
                write(&EdmPacket::ResendConnectEvents, 0, odd_place(bed, size), out)
            }
            Call::Again26 { size } => again26(bytes, size, out),
            Call::Again36 { size } => again36(bytes, size, out),
        }
    }
}

fn read(reader: Reader, bytes: &[u8], bed: &mut Vec<u8>, out: &mut Vec<u8>) -> Answered {
    match reader {
        Reader::Frame => frame(bytes, bed, out),
        Reader::W26 => event26(bytes, out),
        Reader::W36 => event36(bytes, out),
        Reader::Binary => binary(bytes, out),
    }
}

/// A place of `size` bytes at an odd address: byte 1 of a frame there has an even one, as the Rust's
/// struct of 16-bit numbers needs (01, "What must change shape").
pub fn odd_place(bed: &mut Vec<u8>, size: usize) -> &mut [u8] {
    if bed.len() < size + 1 {
        bed.resize(size + 1, 0);
    }
    let start = 1 - bed.as_ptr() as usize % 2;
    &mut bed[start..start + size]
}

fn frame(bytes: &[u8], bed: &mut Vec<u8>, out: &mut Vec<u8>) -> Answered {
    let place = odd_place(bed, bytes.len());
    place.copy_from_slice(bytes);
    let line = rust::event_line(place);
    let exchanged = line.and_then(differences::exchanged26);
    let answer = match (rust::frame(place).ok_or(PANIC)?, &exchanged) {
        // The Rust has come to that line, and is asked about it alone.
        (Ok(EdmPacket::ATEvent(_)) | Err(EdmPacketError::AtPacketError(_)), Some(line)) => {
            rust::wrapped(rust::event26(line).ok_or(PANIC)?)
        }
        (answer, _) => answer,
    };
    let defined = match (&answer, line) {
        (Err(EdmPacketError::AtPacketError(error)), Some(line)) => {
            differences::defined26(line, *error)
        }
        _ => None,
    };
    match (defined, answer) {
        (Some(Ok(event)), _) => show::event_packet(out, &event),
        (Some(Err(error)), _) => show::frame_refusal(out, EdmPacketError::AtPacketError(error)),
        (None, Ok(packet)) => show::packet(out, &packet)?,
        (None, Err(error)) => show::frame_refusal(out, error),
    }
    Ok(())
}

/// The Rust's answer to a W26 line, or the definition's where that takes its place.
fn read26(line: &[u8]) -> Result<Result<Row<'_>, AtPacketError>, &'static str> {
    match rust::event26(line).ok_or(PANIC)? {
        Ok(event) => rows::of26(&event).ok_or(show::UNLISTED).map(Ok),
        Err(error) => Ok(differences::defined26(line, error).unwrap_or(Err(error))),
    }
}

fn event26(bytes: &[u8], out: &mut Vec<u8>) -> Answered {
    match read26(&differences::asked26(bytes))? {
        Ok(row) => show::row(out, &row),
        Err(error) => show::refusal(out, error),
    }
    Ok(())
}

fn event36(bytes: &[u8], out: &mut Vec<u8>) -> Answered {
    match rust::event36(bytes).ok_or(PANIC)? {
        Ok(event) => show::row(out, &rows::of36(&event)),
        Err(error) => show::refusal(out, error),
    }
    Ok(())
}

fn binary(bytes: &[u8], out: &mut Vec<u8>) -> Answered {
    match rust::binary(bytes).ok_or(PANIC)? {
        Ok(Some(event)) => show::row(out, &rows::of36(&event)),
        Ok(None) => out.extend_from_slice(b"notbinary"),
        Err(error) => show::refusal(out, error),
    }
    Ok(())
}

/// The Rust has the response reader twice and one port stands for both, so both are asked.
fn response(bytes: &[u8], out: &mut Vec<u8>) -> Answered {
    use crate::judged::{w26x::at_protocol::ATResponse as A, w36x::at_protocol::ATResponse as B};
    let first = rust::response26(bytes).ok_or(PANIC)?;
    let second = rust::response36(bytes).ok_or(PANIC)?;
    let same = match (&first, &second) {
        (Ok(A::Ok(a)), Ok(B::Ok(b))) | (Ok(A::Other(a)), Ok(B::Other(b))) => a == b,
        (Ok(A::Error), Ok(B::Error)) => true,
        (Err(a), Err(b)) => *a as u8 == *b as u8,
        _ => false,
    };
    if !same {
        return Err(COPIES_DIFFER);
    }
    match first {
        Ok(answer) => show::response(out, &answer),
        Err(error) => show::refusal(out, error),
    }
    Ok(())
}

fn request(bytes: &[u8], buffer: &mut [u8], out: &mut Vec<u8>) -> Answered {
    let Ok(text) = std::str::from_utf8(bytes) else {
        show::frame_refusal(out, differences::request_not_text(buffer.len()));
        return Ok(());
    };
    write(&EdmPacket::ATRequest(text), text.len() + 1, buffer, out)
}

fn write(packet: &EdmPacket, payload: usize, buffer: &mut [u8], out: &mut Vec<u8>) -> Answered {
    buffer.fill(FILL);
    let answer = rust::write(packet, buffer).ok_or(PANIC)?;
    let (frame, rest) = buffer.split_at(answer.unwrap_or(0));
    if rest.iter().any(|&b| b != FILL) {
        return Err(BYTE_CHANGED);
    }
    match differences::written(answer, payload) {
        Ok(_) => show::written(out, frame),
        Err(error) => show::frame_refusal(out, error),
    }
    Ok(())
}

fn again26(bytes: &[u8], size: usize, out: &mut Vec<u8>) -> Answered {
    let asked = differences::asked26(bytes);
    let row = match read26(&asked)? {
        Ok(row) => row,
        Err(error) => {
            show::refusal(out, error);
            return Ok(());
        }
    };
    write_again(&row, size, out, |line| {
        let asked = differences::asked26(line);
        matches!(read26(&asked), Ok(Ok(back)) if back == row)
    })
}

fn again36(bytes: &[u8], size: usize, out: &mut Vec<u8>) -> Answered {
    let event = match rust::event36_of_either_kind(bytes).ok_or(PANIC)? {
        Ok(event) => event,
        Err(error) => {
            show::refusal(out, error);
            return Ok(());
        }
    };
    let row = rows::of36(&event);
    write_again(&row, size, out, |line| {
        let back = rust::event36_of_either_kind(line).and_then(Result::ok);
        back.as_ref().map(rows::of36).is_some_and(|back| back == row)
    })
}

/// Shows what the event writer answers. A line that it wrote must be read back as the same event.
fn write_again(
    row: &Row,
    size: usize,
    out: &mut Vec<u8>,
    reads_back: impl FnOnce(&[u8]) -> bool,
) -> Answered {
    match writer::write(row, size) {
        Ok(line) if reads_back(&line) => show::written(out, &line),
        Ok(_) => return Err(NOT_READ_BACK),
        Err(error) => show::refusal(out, error),
    }
    Ok(())
}
