//! Every event of one W36 read, from place to place (02, request 1). The Rust reads one event and does
//! not say where it ends, so the place just past it is found here.

use crate::answer::{Answered, PANIC};
use crate::judged::w36x::at_protocol::ATEvent;
use crate::{rows, rust, show};

/// The Rust read a text event from a line that has no end.
const NO_LINE_END: &str = "NO LINE END";

/// How many events a walk has, as its class says it.
pub const COUNTS: [&str; 4] = ["0", "1", "2", "3+"];

pub fn answer(bytes: &[u8], out: &mut Vec<u8>) -> Answered {
    let mut at = 0;
    while at < bytes.len() {
        match rust::event36_of_either_kind(&bytes[at..]).ok_or(PANIC)? {
            Ok(event) => {
                at = past(bytes, at, &event).ok_or(NO_LINE_END)?;
                show::row(out, &rows::of36(&event));
                show::place_after(out, at);
                out.extend_from_slice(b" ; ");
            }
            Err(error) => {
                show::refusal(out, error);
                show::place_after(out, at);
                return Ok(());
            }
        }
    }
    out.extend_from_slice(b"end");
    Ok(())
}

/// A binary event ends with its data, a text event that begins at `at` with the first CR LF after the
/// two bytes before its name.
fn past(bytes: &[u8], at: usize, event: &ATEvent) -> Option<usize> {
    match event {
        ATEvent::SocketDataBinary { data, .. } | ATEvent::SocketDataBinaryFrom { data, .. } => {
            Some(data.as_ptr_range().end as usize - bytes.as_ptr() as usize)
        }
        _ => {
            let line = &bytes[at + 2..];
            let end = line.windows(2).position(|pair| pair == b"\r\n")?;
            Some(at + 2 + end + 2)
        }
    }
}

/// The class of a walk's answer: how many events, and how it ended.
/// None if the answer is not that of a walk.
pub fn class(answer: &str) -> Option<String> {
    let parts: Vec<&str> = answer.split(" ; ").collect();
    let (last, events) = parts.split_last()?;
    let (end, _) = last.split_once(" @").or((*last == "end").then_some(("end", "")))?;
    let count = COUNTS[events.len().min(COUNTS.len() - 1)];
    Some(format!("{count} {end}"))
}
