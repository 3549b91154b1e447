//! The self test of the dumps that are asked about: each list of questions must show every slip that a
//! program could make when it scans, and the Rust must refuse what such a program takes for a frame.

use crate::judged::w26x::edm_protocol::EdmPacketError;
use crate::record::{self, Call};
use crate::scan::{self, Range, LARGEST_DUMP};
use crate::{answer, rust};

/// The length of what a program keeps at the start of these bytes.
type FrameAt = fn(&[u8]) -> Option<usize>;

/// What a program makes of a step in a dump, and where it goes on.
type GoesOn = fn(&[u8], Range) -> (Range, usize);

/// What a program lists of its steps.
type Lists = fn(Vec<Range>) -> Vec<Range>;

/// Whether a program refuses a dump of so many bytes.
type Refuses = fn(usize) -> bool;

const FRAME_SLIPS: [(&str, FrameAt); 25] = [
    ("does not mask the length", |rest| kept(rest, field(rest)? + 4)),
    ("masks three bits of the length alone", |rest| kept(rest, (field(rest)? & 0x1FFF) + 4)),
    ("takes eleven bits of the length", |rest| kept(rest, (field(rest)? & 0x07FF) + 4)),
    ("takes the length's low byte alone", |rest| kept(rest, (field(rest)? & 0xFF) + 4)),
    ("takes the length's low byte first", |rest| {
        let [high, low] = [rest.get(2)?, rest.get(1)?].map(|&byte| usize::from(byte));
        kept(rest, ((high << 8 | low) & 0x0FFF) + 4)
    }),
    ("adds 2 to the length", |rest| kept(rest, size(rest)? - 2)),
    ("adds 3 to the length", |rest| kept(rest, size(rest)? - 1)),
    ("adds 5 to the length", |rest| kept(rest, size(rest)? + 1)),
    ("adds 6 to the length", |rest| kept(rest, size(rest)? + 2)),
    ("keeps four bytes", |rest| kept_from(4, rest, size(rest)?)),
    ("keeps five bytes", |rest| kept_from(5, rest, size(rest)?)),
    ("keeps no six bytes", |rest| kept_from(7, rest, size(rest)?)),
    ("keeps no 4,099 bytes", |rest| kept(rest, size(rest)?).filter(|&size| size < 4_099)),
    ("does not look at the first byte", |rest| {
        size(rest).filter(|&size| size >= 6 && rest.get(size - 1) == Some(&0x55))
    }),
    ("does not look at the last byte", |rest| claimed(rest).filter(|&size| size <= rest.len())),
    ("keeps a frame past the dump's end", past_the_end),
    ("keeps what there is of such a frame", |rest| Some(past_the_end(rest)?.min(rest.len()))),
    ("keeps no frame at the dump's end", |rest| {
        scan::frame_at(rest).filter(|&size| size < rest.len())
    }),
    ("keeps no frame without an AA after it", |rest| {
        scan::frame_at(rest).filter(|&size| rest.get(size).is_none_or(|&byte| byte == 0xAA))
    }),
    ("keeps no frame with AA inside", |rest| {
        scan::frame_at(rest).filter(|&size| !rest[1..size].contains(&0xAA))
    }),
    ("keeps no frame with 55 inside", |rest| {
        scan::frame_at(rest).filter(|&size| !rest[..size - 1].contains(&0x55))
    }),
    ("ends a frame at the next 55", |rest| {
        let size = rest.iter().position(|&byte| byte == 0x55)? + 1;
        kept(rest, size)
    }),
    ("ends a frame at the last 55", |rest| {
        let size = rest.iter().rposition(|&byte| byte == 0x55)? + 1;
        scan::frame_at(rest).and(kept(rest, size))
    }),
    ("keeps no frame of an unknown identifier", |rest| {
        let unknown = Some(EdmPacketError::PayloadTypeUnknown);
        scan::frame_at(rest).filter(|&size| refusal(&rest[..size]) != unknown)
    }),
    ("keeps no frame that is no packet", |rest| {
        scan::frame_at(rest).filter(|&size| refusal(&rest[..size]).is_none())
    }),
];

const STEP_SLIPS: [(&str, GoesOn); 11] = [
    ("goes on one byte after a frame's start", |_, step| after(step, step.start + 1)),
    ("goes on at a frame's last byte", |_, step| after(step, step.end() - 1)),
    ("goes on one byte after a frame's end", |_, step| after(step, step.end() + 1)),
    ("ends with the first frame", |bytes, step| after(step, bytes.len())),
    ("ends with the first byte that is skipped", |bytes, step| match step.kept {
        true => (step, step.end()),
        false => (step, bytes.len()),
    }),
    ("skips the whole of a wrong frame", |bytes, step| {
        skips(bytes, step, size(&bytes[step.start..]))
    }),
    ("skips the head of a wrong frame", |bytes, step| skips(bytes, step, Some(5))),
    ("skips an AA with the byte after it", |bytes, step| skips(bytes, step, Some(2))),
    ("skips a wrong frame up to the next 55", |bytes, step| {
        let end = bytes[step.start..].iter().position(|&byte| byte == 0x55);
        skips(bytes, step, end.map(|end| end + 1))
    }),
    ("skips a wrong frame up to its last 55", |bytes, step| {
        let rest = &bytes[step.start..];
        let there = size(rest).map_or(rest, |size| &rest[..size.min(rest.len())]);
        let end = there.iter().rposition(|&byte| byte == 0x55);
        skips(bytes, step, end.map(|end| end + 1))
    }),
    ("gives up at a frame past the dump's end", |bytes, step| {
        let rest = &bytes[step.start..];
        skips(bytes, step, claimed(rest).filter(|&size| size > rest.len()))
    }),
];

const LIST_SLIPS: [(&str, Lists); 11] = [
    ("does not join skipped bytes", |steps| steps),
    ("joins frames", |steps| {
        let mut ranges: Vec<Range> = Vec::new();
        for step in scan::joined(steps) {
            match ranges.last_mut() {
                Some(last) if last.kept && step.kept => last.len += step.len,
                _ => ranges.push(step),
            }
        }
        ranges
    }),
    ("lists no skipped range", |steps| only(steps, |range| range.kept)),
    ("lists no frame", |steps| only(steps, |range| !range.kept)),
    ("lists no skipped range of one byte", |steps| {
        only(steps, |range| range.kept || range.len > 1)
    }),
    ("lists no skipped range at the end", |steps| {
        let end = steps.last().map_or(0, |step| step.end());
        only(steps, |range| range.kept || range.end() < end)
    }),
    ("lists an empty range for an empty dump", |steps| match steps[..] {
        [] => vec![Range { kept: false, start: 0, len: 0 }],
        _ => scan::joined(steps),
    }),
    ("lists an empty range between frames", |steps| {
        let mut ranges: Vec<Range> = Vec::new();
        for range in scan::joined(steps) {
            if range.kept && ranges.last().is_some_and(|last| last.kept) {
                ranges.push(Range { kept: false, start: range.start, len: 0 });
            }
            ranges.push(range);
        }
        ranges
    }),
    ("counts places from 1", |steps| each(steps, |range| range.start += 1)),
    ("gives a range's end for its length", |steps| each(steps, |range| range.len = range.end())),
    ("gives the length field for a frame's length", |steps| {
        each(steps, |range| range.len -= if range.kept { 4 } else { 0 })
    }),
];

const LIMIT_SLIPS: [(&str, Refuses); 3] = [
    ("refuses 65,536 bytes", |count| count >= 65_536),
    ("takes 65,537 bytes", |count| count > 65_537),
    ("takes any dump", |_| false),
];

/// The length field with its top bits.
fn field(rest: &[u8]) -> Option<usize> {
    Some(usize::from(*rest.get(1)?) << 8 | usize::from(*rest.get(2)?))
}

/// The size of a frame with the masked length.
fn size(rest: &[u8]) -> Option<usize> {
    Some((field(rest)? & 0x0FFF) + 4)
}

fn kept(rest: &[u8], size: usize) -> Option<usize> {
    kept_from(6, rest, size)
}

/// A run of at least so many bytes, if it has both ends.
fn kept_from(least: usize, rest: &[u8], size: usize) -> Option<usize> {
    let has_ends = |size: &usize| rest[0] == 0xAA && rest.get(size - 1) == Some(&0x55);
    Some(size).filter(|&size| size >= least).filter(has_ends)
}

/// The size that a frame has by its first bytes alone.
fn claimed(rest: &[u8]) -> Option<usize> {
    size(rest).filter(|&size| size >= 6 && rest[0] == 0xAA)
}

fn past_the_end(rest: &[u8]) -> Option<usize> {
    claimed(rest).filter(|&size| rest.get(size - 1).is_none_or(|&byte| byte == 0x55))
}

fn refusal(run: &[u8]) -> Option<EdmPacketError> {
    let mut bed = Vec::new();
    let place = answer::odd_place(&mut bed, run.len());
    place.copy_from_slice(run);
    rust::frame(place)?.err()
}

/// Goes on elsewhere after a frame.
fn after(step: Range, place: usize) -> (Range, usize) {
    (step, if step.kept { place } else { step.end() })
}

/// Skips more than one byte where an AA begins no frame.
fn skips(bytes: &[u8], step: Range, count: Option<usize>) -> (Range, usize) {
    let mut skipped = step;
    if !step.kept && bytes[step.start] == 0xAA {
        skipped.len = count.unwrap_or(1).min(bytes.len() - step.start);
    }
    (skipped, skipped.end())
}

fn only(steps: Vec<Range>, listed: impl Fn(&Range) -> bool) -> Vec<Range> {
    scan::joined(steps).into_iter().filter(listed).collect()
}

fn each(steps: Vec<Range>, change: impl Fn(&mut Range)) -> Vec<Range> {
    let mut ranges = scan::joined(steps);
    ranges.iter_mut().for_each(change);
    ranges
}

/// How a program scans.
struct Way {
    frame_at: FrameAt,
    goes_on: GoesOn,
    lists: Lists,
}

const RIGHT: Way =
    Way { frame_at: scan::frame_at, goes_on: |_, step| (step, step.end()), lists: scan::joined };

impl Way {
    fn steps(&self, bytes: &[u8]) -> Vec<Range> {
        let (mut steps, mut start) = (Vec::new(), 0);
        while start < bytes.len() {
            let frame = (self.frame_at)(&bytes[start..]);
            let step = Range { kept: frame.is_some(), start, len: frame.unwrap_or(1) };
            let (step, place) = (self.goes_on)(bytes, step);
            steps.push(step);
            start = place;
        }
        steps
    }

    fn answer(&self, bytes: &[u8]) -> Vec<u8> {
        shown((self.lists)(self.steps(bytes)))
    }
}

fn shown(ranges: Vec<Range>) -> Vec<u8> {
    let mut text = Vec::new();
    scan::show(&ranges, &mut text);
    text
}

fn ways() -> Vec<(&'static str, Way)> {
    let frames = FRAME_SLIPS.map(|(name, frame_at)| (name, Way { frame_at, ..RIGHT }));
    let steps = STEP_SLIPS.map(|(name, goes_on)| (name, Way { goes_on, ..RIGHT }));
    let lists = LIST_SLIPS.map(|(name, lists)| (name, Way { lists, ..RIGHT }));
    frames.into_iter().chain(steps).chain(lists).collect()
}

fn each_dump(lines: &[u8], mut call: impl FnMut(&[u8])) {
    let mut bytes = Vec::new();
    for line in lines.split(|&b| b == b'\n').filter(|line| line.starts_with(b"scan ")) {
        if let Some(Call::Scan) = record::parse(line, &mut bytes) {
            call(&bytes);
        }
    }
}

/// Counts the slips that no dump of a list shows, and the dumps in which even the right way comes to
/// another answer than the model.
pub fn not_noticed(what: &str, lines: &[u8]) -> usize {
    let (mut missed, mut wrong) = (ways(), 0);
    let all = missed.len();
    each_dump(lines, |bytes| {
        let model = shown(scan::joined(scan::steps(bytes)));
        wrong += usize::from(RIGHT.answer(bytes) != model);
        missed.retain(|(_, way)| bytes.len() > LARGEST_DUMP || way.answer(bytes) == model);
    });
    println!("{what}: {} of {all} slips with dumps noticed", all - missed.len());
    missed.iter().for_each(|(slip, _)| println!("not noticed by {what}: {slip}"));
    if wrong > 0 {
        println!("{what}: {wrong} dumps answered otherwise without a slip");
    }
    missed.len() + wrong
}

/// The same for the slips at the limit, which need dumps too long for a list that is kept.
pub fn limit_not_noticed(what: &str, lines: &[u8]) -> usize {
    let mut missed = LIMIT_SLIPS.to_vec();
    each_dump(lines, |bytes| {
        let refused = bytes.len() > LARGEST_DUMP;
        missed.retain(|(_, refuses)| refuses(bytes.len()) == refused);
    });
    let all = LIMIT_SLIPS.len();
    println!("{what}: {} of {all} slips at the limit of dumps noticed", all - missed.len());
    missed.iter().for_each(|(slip, _)| println!("not noticed by {what}: {slip}"));
    missed.len()
}

/// Counts the dumps in which a slip finds other frames than the model and the Rust does not object.
pub fn silent(lines: &[u8]) -> usize {
    let (mut bed, mut count) = (Vec::new(), 0);
    each_dump(lines, |bytes| {
        for (slip, frame_at) in FRAME_SLIPS {
            let steps = Way { frame_at, ..RIGHT }.steps(bytes);
            if steps != scan::steps(bytes) && scan::confirm(bytes, &steps, &mut bed).is_ok() {
                println!("the Rust lets pass what {slip}");
                count += 1;
            }
        }
    });
    count
}
