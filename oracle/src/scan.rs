//! The frames in a noisy dump (02, request 8). The Rust has no search, so this is a model from the
//! documents. But the Rust reads frames, so it is asked at each place to which the search comes.

use std::io::Write;

use crate::answer::{self, Answered, PANIC};
use crate::judged::w26x::edm_protocol::EdmPacketError;
use crate::rust;

/// At some place only one of the model and the Rust finds a frame, or each finds another.
const KEPT_OTHERWISE: &str = "KEPT OTHERWISE";

pub const LARGEST_DUMP: usize = 65_536;
const LARGEST_FRAME: usize = 4_099;
const START_BYTE: u8 = 0xAA;
const END_BYTE: u8 = 0x55;

/// A frame, or bytes that are skipped.
#[derive(Clone, Copy, PartialEq)]
pub struct Range {
    pub kept: bool,
    pub start: usize,
    pub len: usize,
}

impl Range {
    pub fn end(self) -> usize {
        self.start + self.len
    }
}

/// The length of the run at the start of these bytes that passes checks 1 to 3 of 01. No other length
/// passes check 3: the identifier and the payload are counted by the length, four bytes are not.
pub fn frame_at(rest: &[u8]) -> Option<usize> {
    let counted = usize::from(*rest.get(1)? & 0x0F) << 8 | usize::from(*rest.get(2)?);
    let run = rest.get(..counted + 4)?;
    let ends = (run[0], run[run.len() - 1]);
    let passes = ends == (START_BYTE, END_BYTE) && run.len() >= 6;
    passes.then_some(run.len())
}

/// Each step of the search: a frame, or one byte.
pub fn steps(bytes: &[u8]) -> Vec<Range> {
    let (mut steps, mut start) = (Vec::new(), 0);
    while start < bytes.len() {
        let frame = frame_at(&bytes[start..]);
        let step = Range { kept: frame.is_some(), start, len: frame.unwrap_or(1) };
        steps.push(step);
        start = step.end();
    }
    steps
}

/// Neighbouring skipped bytes are one range.
pub fn joined(steps: Vec<Range>) -> Vec<Range> {
    let mut ranges: Vec<Range> = Vec::new();
    for step in steps {
        match ranges.last_mut() {
            Some(last) if !last.kept && !step.kept => last.len += step.len,
            _ => ranges.push(step),
        }
    }
    ranges
}

pub fn show(ranges: &[Range], out: &mut Vec<u8>) {
    if ranges.is_empty() {
        out.push(b'-');
    }
    for (at, Range { kept, start, len }) in ranges.iter().enumerate() {
        let before = if at == 0 { "" } else { " ; " };
        let word = if *kept { "kept" } else { "skipped" };
        write!(out, "{before}{word} {start}+{len}").expect("a Vec takes every byte");
    }
}

pub fn answer(bytes: &[u8], bed: &mut Vec<u8>, out: &mut Vec<u8>) -> Answered {
    if bytes.len() > LARGEST_DUMP {
        out.extend_from_slice(b"refused DumpTooLong");
        return Ok(());
    }
    let steps = steps(bytes);
    confirm(bytes, &steps, bed)?;
    show(&joined(steps), out);
    Ok(())
}

/// Asks the Rust at each step.
pub fn confirm(bytes: &[u8], steps: &[Range], bed: &mut Vec<u8>) -> Answered {
    let dump = Dump::laid(bytes, bed);
    for step in steps {
        if dump.frame_at(step.start)? != step.kept.then_some(step.len) {
            return Err(KEPT_OTHERWISE);
        }
    }
    Ok(())
}

/// A dump laid out twice, the second time at an odd distance from the first, so that a run from any place
/// stands at an odd address in one of the two (`answer::odd_place`).
struct Dump<'a> {
    bytes: &'a [u8],
    twice: &'a [u8],
    ends: Vec<usize>,
}

impl<'a> Dump<'a> {
    fn laid(bytes: &'a [u8], bed: &'a mut Vec<u8>) -> Dump<'a> {
        let second = bytes.len() | 1;
        let twice = answer::odd_place(bed, second + bytes.len());
        twice[..bytes.len()].copy_from_slice(bytes);
        twice[second..].copy_from_slice(bytes);
        let ends = (1..=bytes.len()).filter(|&end| bytes[end - 1] == END_BYTE).collect();
        Dump { bytes, twice, ends }
    }

    fn run(&self, start: usize, end: usize) -> &[u8] {
        let from = if start.is_multiple_of(2) { start } else { (self.bytes.len() | 1) + start };
        &self.twice[from..from + end - start]
    }

    /// The length of the frame that the Rust finds at a place. No length field chooses what is asked:
    /// from an AA on it is every run that ends in 55 and the longest, from another byte on the longest.
    fn frame_at(&self, start: usize) -> Result<Option<usize>, &'static str> {
        let longest = self.bytes.len().min(start + LARGEST_FRAME);
        let ends = match self.bytes[start] {
            START_BYTE => &self.ends[self.ends.partition_point(|&end| end <= start)..],
            _ => &[],
        };
        let ends = ends.iter().copied().take_while(|&end| end < longest);
        for end in ends.chain([longest]) {
            let run = self.run(start, end);
            if passes(run)? {
                return Ok(Some(run.len()));
            }
        }
        Ok(None)
    }
}

/// Whether the Rust comes past checks 1 to 3. Its refusal 2 of six bytes or more is about the payload.
fn passes(run: &[u8]) -> Result<bool, &'static str> {
    Ok(match rust::frame(run).ok_or(PANIC)? {
        Err(EdmPacketError::PacketDecodeFramingInvalid) => false,
        Err(EdmPacketError::PacketTypeDecodeLengthMismatch) => false,
        Err(EdmPacketError::PacketDecodeTargetMemorySizeInvalid) => run.len() >= 6,
        _ => true,
    })
}

/// The class of an answer has the words of so many ranges.
const CLASSED: usize = 3;

/// A refusal, or the words of the first ranges.
pub fn class(answer: &str) -> String {
    if answer.starts_with("refused") {
        return answer.to_string();
    }
    let words = answer.split(" ; ").map(|range| range.split(' ').next().unwrap_or(range));
    let mut words: Vec<_> = words.take(CLASSED + 1).collect();
    if words.len() > CLASSED {
        words[CLASSED] = "..";
    }
    words.join(" ")
}
