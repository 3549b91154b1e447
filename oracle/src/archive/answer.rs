//! One question put to the crate, and the crate's answer as text. The plain words go to what a gateway
//! calls (`new`, `try_parse_binary`, `write`), the others to what stands beside it.

use mirvoncle::w26x::at_protocol as w26;
use mirvoncle::w26x::edm_protocol::EdmPacket;
use mirvoncle::w36x::at_protocol as w36;
use mirvoncle::{Placed, Reason, Why};

use super::{rows, show, writes};
use crate::answer::{Answered, COPIES_DIFFER};
use crate::record::{Call, Reader};

/// `read` gives another place past a W26 event than the end of the line.
const PLACE_WRONG: &str = "PLACE WRONG";
/// The first step of a walk is not the event that the reader gives, or its refusal.
const WALK_DIFFERS: &str = "WALK DIFFERS";

/// The crate explains nothing.
const NOT_EXPLAINED: &str = "NOT EXPLAINED";

/// The crate reads no captures.
const NO_CAPTURES: &str = "NO CAPTURES";

/// The crate scans no dumps.
const NO_DUMPS: &str = "NO DUMPS";

/// Refusals from this number on are those of a line, which a frame wraps.
const FIRST_OF_A_LINE: u8 = 11;

/// Appends the answer, without a line end; `bed` is kept from question to question.
pub fn answer(call: Call, bytes: &[u8], bed: &mut Vec<u8>, out: &mut Vec<u8>) -> Answered {
    match call {
        Call::Read(reader) => plain(reader, bytes, out),
        Call::Why(reader) => carrying(reader, bytes, out),
        // The generator asks none of these of the crate (`Maker::for_crate`).
        Call::Explain(_) => Err(NOT_EXPLAINED),
        Call::Pcap => Err(NO_CAPTURES),
        Call::Scan => Err(NO_DUMPS),
        Call::Walk36 => walk(bytes, out),
        Call::Response => response(bytes, out),
        Call::Data { size, channel } => {
            writes::packet(&EdmPacket::DataCommand { channel, data: bytes }, size, bed, out)
        }
        Call::Request { size } => writes::request(bytes, size, bed, out),
        Call::Resend { size } => writes::packet(&EdmPacket::ResendConnectEvents, size, bed, out),
        Call::Again26 { size } => again26(bytes, size, bed, out),
        Call::Again36 { size } => again36(bytes, size, bed, out),
    }
}

fn plain(reader: Reader, bytes: &[u8], out: &mut Vec<u8>) -> Answered {
    match reader {
        Reader::Frame => match EdmPacket::new(bytes) {
            Ok(packet) => show::packet(out, &packet)?,
            Err(error) => show::frame_refusal(out, error),
        },
        Reader::W26 => match w26::ATEvent::new(bytes) {
            Ok(event) => event26(out, &event)?,
            Err(error) => show::refusal(out, error),
        },
        Reader::W36 => match w36::ATEvent::new(bytes) {
            Ok(event) => show::row(out, &rows::of36(&event)),
            Err(error) => show::refusal(out, error),
        },
        Reader::Binary => match w36::ATEvent::try_parse_binary(bytes) {
            Ok(Some(event)) => show::row(out, &rows::of36(&event)),
            Ok(None) => out.extend_from_slice(b"notbinary"),
            Err(error) => show::refusal(out, error),
        },
    }
    Ok(())
}

/// The answer with the field and the reason of a refusal. The place past an event is not shown, and
/// held against the line's end (W26) or against the walk (W36).
fn carrying(reader: Reader, bytes: &[u8], out: &mut Vec<u8>) -> Answered {
    match reader {
        Reader::Frame => match EdmPacket::read(bytes) {
            Ok(packet) => show::packet(out, &packet)?,
            Err(why) => frame_refusal(out, why),
        },
        Reader::W26 => match w26::ATEvent::read(bytes) {
            Ok(placed) if placed.past != bytes.len() => return Err(PLACE_WRONG),
            Ok(placed) => event26(out, &placed.event)?,
            Err(why) => refusal(out, why),
        },
        Reader::W36 => match w36::ATEvent::read(bytes) {
            Ok(placed) => first36(out, bytes, placed)?,
            Err(why) => refusal(out, why),
        },
        Reader::Binary => match w36::ATEvent::read_binary(bytes) {
            Ok(Some(placed)) => first36(out, bytes, placed)?,
            Ok(None) => out.extend_from_slice(b"notbinary"),
            Err(why) => refusal(out, why),
        },
    }
    Ok(())
}

fn event26(out: &mut Vec<u8>, event: &w26::ATEvent) -> Answered {
    show::row(out, &rows::of26(event).ok_or(show::UNLISTED)?);
    Ok(())
}

/// A W36 event that was read at the first byte is the first step of a walk, with the same place.
fn first36(out: &mut Vec<u8>, bytes: &[u8], placed: Placed<w36::ATEvent>) -> Answered {
    show::row(out, &rows::of36(&placed.event));
    let is_step = w36::ATEvent::walk(bytes).next() == Some(Ok(placed));
    is_step.then_some(()).ok_or(WALK_DIFFERS)
}

fn refusal(out: &mut Vec<u8>, why: Why) {
    show::refusal(out, why.refusal());
    carried(out, why);
}

fn frame_refusal(out: &mut Vec<u8>, why: Why) {
    if why.refusal().number() >= FIRST_OF_A_LINE {
        out.extend_from_slice(format!("refused AtPacketError {:?}", why.refusal()).as_bytes());
        carried(out, why);
    } else {
        refusal(out, why);
    }
}

fn carried(out: &mut Vec<u8>, why: Why) {
    let text = match why {
        Why::Refused(_) => return,
        Why::Missing { field } => format!(" field {field}"),
        Why::Invalid { field, reason } => format!(" field {field} {}", word(reason)),
    };
    out.extend_from_slice(text.as_bytes());
}

fn word(reason: Reason) -> &'static str {
    match reason {
        Reason::Empty => "empty",
        Reason::Byte => "byte",
        Reason::Large => "large",
        Reason::List => "list",
    }
}

/// Everything that the walk gives is shown. What its refusal carries is not part of the answer, and
/// must be what the reader says at that place. Each event takes a byte, so that there are no more steps.
fn walk(bytes: &[u8], out: &mut Vec<u8>) -> Answered {
    let mut end: &[u8] = b"end";
    for step in w36::ATEvent::walk(bytes).take(bytes.len() + 1) {
        match step {
            Ok(placed) => {
                show::row(out, &rows::of36(&placed.event));
                show::place_after(out, placed.past);
                out.extend_from_slice(b" ; ");
            }
            Err(refused) => {
                let rest = bytes.get(refused.at..).ok_or(WALK_DIFFERS)?;
                if read36(rest) != Err(refused.why) {
                    return Err(WALK_DIFFERS);
                }
                show::refusal(out, refused.why.refusal());
                show::place_after(out, refused.at);
                end = b"";
            }
        }
    }
    out.extend_from_slice(end);
    Ok(())
}

/// Binary first, then text.
fn read36(bytes: &[u8]) -> Result<Placed<w36::ATEvent<'_>>, Why> {
    match w36::ATEvent::read_binary(bytes)? {
        Some(placed) => Ok(placed),
        None => w36::ATEvent::read(bytes),
    }
}

/// The crate has the type of a response twice, as the Rust has.
fn response(bytes: &[u8], out: &mut Vec<u8>) -> Answered {
    use w26::ATResponse as A;
    use w36::ATResponse as B;
    let first = A::new(bytes);
    let same = match (&first, &B::new(bytes)) {
        (Ok(A::Ok(a)), Ok(B::Ok(b))) | (Ok(A::Other(a)), Ok(B::Other(b))) => a == b,
        (Ok(A::Error), Ok(B::Error)) => true,
        (Err(a), Err(b)) => *a as u8 == *b as u8,
        _ => false,
    };
    match first {
        _ if !same => return Err(COPIES_DIFFER),
        Ok(response) => show::response(out, &response),
        Err(error) => show::refusal(out, error),
    }
    Ok(())
}

fn again26(bytes: &[u8], size: usize, bed: &mut Vec<u8>, out: &mut Vec<u8>) -> Answered {
    match w26::ATEvent::read(bytes) {
        Ok(placed) => {
            let line = |buffer: &mut [u8]| placed.event.write_line(bytes, buffer);
            writes::write(size, bed, out, line, show::refusal)?;
        }
        Err(why) => show::refusal(out, why.refusal()),
    }
    Ok(())
}

fn again36(bytes: &[u8], size: usize, bed: &mut Vec<u8>, out: &mut Vec<u8>) -> Answered {
    match read36(bytes) {
        Ok(placed) => {
            let line = |buffer: &mut [u8]| placed.event.write_line(bytes, buffer);
            writes::write(size, bed, out, line, show::refusal)?;
        }
        Err(why) => show::refusal(out, why.refusal()),
    }
    Ok(())
}
