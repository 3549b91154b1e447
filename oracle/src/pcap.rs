//! A whole capture file, from record to record (02, request 7). The Rust has no captures, so this is a
//! model from the documents and from the layout of classic pcap.

use std::io::Write;

use crate::walk;

/// The byte order of a file: the low byte of each number first, or the high byte.
#[derive(Clone, Copy, PartialEq)]
pub enum Order {
    Little,
    Big,
}

impl Order {
    pub const ALL: [Order; 2] = [Order::Little, Order::Big];

    pub fn word(self) -> &'static str {
        match self {
            Order::Little => "little",
            Order::Big => "big",
        }
    }

    fn number(self, bytes: &[u8]) -> u32 {
        let add = |number: u32, byte: &u8| number << 8 | u32::from(*byte);
        match self {
            Order::Little => bytes.iter().rev().fold(0, add),
            Order::Big => bytes.iter().fold(0, add),
        }
    }
}

/// What is amiss with a header or with a record, in the order in which the model looks.
#[derive(Clone, Copy, PartialEq)]
pub enum Cause {
    Short,
    Magic,
    Major,
    Minor,
    LinkType,
    HeadCut,
    Microseconds,
    Lengths,
    Large,
    FrameCut,
}

impl Cause {
    pub const OF_MAGIC: [Cause; 2] = [Cause::Short, Cause::Magic];
    pub const OF_HEADER: [Cause; 3] = [Cause::Major, Cause::Minor, Cause::LinkType];
    pub const OF_RECORD: [Cause; 5] =
        [Cause::HeadCut, Cause::Microseconds, Cause::Lengths, Cause::Large, Cause::FrameCut];

    /// The refusals 19 and 20.
    pub fn refusal(self) -> &'static str {
        if Cause::OF_RECORD.contains(&self) {
            "CaptureRecordInvalid"
        } else {
            "CaptureHeaderInvalid"
        }
    }

    pub fn word(self) -> &'static str {
        match self {
            Cause::Short => "short",
            Cause::Magic => "magic",
            Cause::Major => "major",
            Cause::Minor => "minor",
            Cause::LinkType => "link type",
            Cause::HeadCut => "cut head",
            Cause::Microseconds => "microseconds",
            Cause::Lengths => "lengths",
            Cause::Large => "large",
            Cause::FrameCut => "cut frame",
        }
    }
}

const MAGIC: u32 = 0xA1B2_C3D4;

/// The numbers of the header: how many bytes each has, and what it must be, or else what is amiss.
const HEADER: [(usize, Option<(u32, Cause)>); 7] = [
    (4, Some((MAGIC, Cause::Magic))),
    (2, Some((2, Cause::Major))),
    (2, Some((4, Cause::Minor))),
    (4, None), // the zone
    (4, None), // the accuracy
    (4, None), // the snap length
    (4, Some((147, Cause::LinkType))),
];
pub type Header = [u32; 7];
pub const HEADER_BYTES: usize = 24;

/// The numbers before a frame: seconds, microseconds, the length kept and the length that there was.
pub type Head = [u32; 4];
pub const HEAD_BYTES: usize = 16;

const LARGEST_MICROSECONDS: u32 = 999_999;
const LARGEST_FRAME: u32 = 4_099;

#[derive(Clone, Copy, PartialEq)]
pub struct Record {
    pub seconds: u32,
    pub microseconds: u32,
    /// Where the frame begins in the file.
    pub start: usize,
    pub len: usize,
}

/// What stands at a place of the file. A refusal has the place that it names.
#[derive(Clone, Copy, PartialEq)]
pub enum Step {
    Header(Order),
    Record(Record),
    End,
    Refused(Cause, usize),
}

impl Step {
    /// Its part of the answer. The header has none.
    pub fn show(&self, out: &mut Vec<u8>) {
        let written = match self {
            Step::Header(_) => Ok(()),
            Step::Record(Record { seconds, microseconds, start, len }) => {
                write!(out, "{seconds}.{microseconds:06} @{start}+{len} ; ")
            }
            Step::End => write!(out, "end"),
            Step::Refused(cause, at) => write!(out, "refused {} @{at}", cause.refusal()),
        };
        written.expect("a Vec takes every byte");
    }
}

/// The numbers at the start of `bytes`, each of so many bytes. None if `bytes` has not all of them.
fn numbers<const N: usize>(sizes: [usize; N], order: Order, bytes: &[u8]) -> Option<[u32; N]> {
    let mut rest = bytes;
    let next = |size| {
        let (number, after) = rest.split_at(size);
        rest = after;
        order.number(number)
    };
    (bytes.len() >= sizes.iter().sum()).then(|| sizes.map(next))
}

/// The header in each of the two byte orders. None if the file has under 24 bytes.
pub fn headers(bytes: &[u8]) -> Option<[(Order, Header); 2]> {
    let sizes = HEADER.map(|(size, _)| size);
    let [little, big] = Order::ALL.map(|order| Some((order, numbers(sizes, order, bytes)?)));
    Some([little?, big?])
}

/// The header in the byte order in which its magic is right.
fn chosen(read: [(Order, Header); 2]) -> Option<(Order, Header)> {
    read.into_iter().find(|(_, header)| header[0] == MAGIC)
}

/// 02: "19 CaptureHeaderInvalid (under 24 bytes, magic not A1B2C3D4 in either byte order, version not 2.4,
/// link type not 147)".
pub fn judged_header(read: Option<[(Order, Header); 2]>) -> Step {
    let Some(read) = read else {
        return Step::Refused(Cause::Short, 0);
    };
    let Some((order, header)) = chosen(read) else {
        return Step::Refused(Cause::Magic, 0);
    };
    let wrong = header.iter().zip(HEADER).find_map(|(&number, (_, wanted))| {
        let (wanted, cause) = wanted?;
        (number != wanted).then_some(cause)
    });
    match wrong {
        None => Step::Header(order),
        Some(cause) => Step::Refused(cause, 0),
    }
}

/// The four numbers of the record at `at`.
pub fn head(bytes: &[u8], order: Order, at: usize) -> Option<Head> {
    numbers([4; 4], order, &bytes[at..])
}

/// 02: "20 CaptureRecordInvalid (microseconds over 999,999, lengths, cut record)", and "two lengths must
/// agree and be at most 4,099". The record begins at `at`; `head` is None if the file is cut inside it.
pub fn judged_record(head: Option<Head>, bytes: &[u8], at: usize) -> Step {
    let Some([seconds, microseconds, kept, original]) = head else {
        return Step::Refused(Cause::HeadCut, at);
    };
    let start = at + HEAD_BYTES;
    let (len, left) = (kept as usize, bytes.len() - start);
    let checks = [
        (microseconds <= LARGEST_MICROSECONDS, Cause::Microseconds),
        (kept == original, Cause::Lengths),
        (kept <= LARGEST_FRAME, Cause::Large),
        (len <= left, Cause::FrameCut),
    ];
    match checks.into_iter().find(|(holds, _)| !holds) {
        None => Step::Record(Record { seconds, microseconds, start, len }),
        Some((_, cause)) => Step::Refused(cause, at),
    }
}

/// Each place of the file, the byte order, which is None at the header, and what stands there. 02: "no
/// bytes left after a record or the header is the end".
pub fn steps(bytes: &[u8]) -> Vec<(usize, Option<Order>, Step)> {
    let header = judged_header(headers(bytes));
    let mut steps = vec![(0, None, header)];
    let Step::Header(order) = header else {
        return steps;
    };
    let mut at = HEADER_BYTES;
    loop {
        let step = if at == bytes.len() {
            Step::End
        } else {
            judged_record(head(bytes, order, at), bytes, at)
        };
        steps.push((at, Some(order), step));
        let Step::Record(record) = step else {
            return steps;
        };
        at = record.start + record.len;
    }
}

pub fn answer(bytes: &[u8], out: &mut Vec<u8>) {
    steps(bytes).iter().for_each(|(_, _, step)| step.show(out));
}

/// The class of an answer: the byte order if the magic shows one, how many records, how it ended, and what
/// is amiss.
pub fn class(bytes: &[u8], answer: &str) -> String {
    let order = headers(bytes).and_then(chosen).map(|(order, _)| order.word());
    let amiss = match steps(bytes).last() {
        Some((_, _, Step::Refused(cause, _))) => Some(cause.word()),
        _ => None,
    };
    let answered = walk::class(answer).unwrap_or_default();
    let words = [order, Some(answered.as_str()), amiss];
    words.into_iter().flatten().collect::<Vec<_>>().join(" ")
}
