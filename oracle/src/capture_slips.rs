//! The self test of the captures that are asked about: each list of questions must show every slip that a
//! reader of captures could make.

use crate::pcap::{self, Cause, Head, Header, Order, Record, Step, HEADER_BYTES, HEAD_BYTES};
use crate::record::{self, Call};

/// A place of a file to which a right program comes. The order is None at the header.
struct Place<'a> {
    bytes: &'a [u8],
    at: usize,
    order: Option<Order>,
}

/// What the numbers of the header are to a program with one slip.
type HeaderSlip = fn(&mut Header);

/// The same for the numbers before a frame.
type HeadSlip = fn(&mut Head);

/// What such a program finds at a place, where a right one finds the second argument.
type StepSlip = fn(&Place, Step) -> Step;

// The numbers of the header.
const MAGIC: usize = 0;
const MAJOR: usize = 1;
const MINOR: usize = 2;
const ZONE: usize = 3;
const ACCURACY: usize = 4;
const SNAP_LENGTH: usize = 5;
const LINK_TYPE: usize = 6;

const HEADER_SLIPS: [(&str, HeaderSlip); 17] = [
    ("takes the magic of nanoseconds", |header| {
        exchange(&mut header[MAGIC], 0xA1B2_3C4D, 0xA1B2_C3D4)
    }),
    ("looks at the magic's high half alone", |header| {
        header[MAGIC] = header[MAGIC] & 0xFFFF_0000 | 0xC3D4
    }),
    ("looks at the magic's low half alone", |header| {
        header[MAGIC] = header[MAGIC] & 0xFFFF | 0xA1B2_0000
    }),
    ("does not look at the version's first part", |header| header[MAJOR] = 2),
    ("does not look at the version's second part", |header| header[MINOR] = 4),
    ("takes an earlier version", |header| header[MINOR] = header[MINOR].max(4)),
    ("takes a later version", |header| header[MINOR] = header[MINOR].min(4)),
    ("takes 4.2 for 2.4", |header| header[MAJOR..=MINOR].sort()),
    ("takes the version in either byte order", |header| {
        exchange(&mut header[MAJOR], 0x0200, 2);
        exchange(&mut header[MINOR], 0x0400, 4);
    }),
    ("wants no zone", |header| wants(header, |header| header[ZONE] == 0)),
    ("wants no accuracy", |header| wants(header, |header| header[ACCURACY] == 0)),
    ("wants our snap length", |header| wants(header, |header| header[SNAP_LENGTH] == 4_099)),
    ("wants a snap length", |header| wants(header, |header| header[SNAP_LENGTH] > 0)),
    ("does not look at the link type", |header| header[LINK_TYPE] = 147),
    ("looks at the link type's low byte alone", |header| header[LINK_TYPE] &= 0xFF),
    ("looks at the link type's low half alone", |header| header[LINK_TYPE] &= 0xFFFF),
    ("leaves out the link type's top four bits", |header| header[LINK_TYPE] &= 0x0FFF_FFFF),
];

// The numbers before a frame.
const SECONDS: usize = 0;
const MICROSECONDS: usize = 1;
const KEPT: usize = 2;
const ORIGINAL: usize = 3;

const HEAD_SLIPS: [(&str, HeadSlip); 11] = [
    ("has 31 bits for the seconds", |head| head[SECONDS] &= 0x7FFF_FFFF),
    ("exchanges seconds and microseconds", |head| head.swap(SECONDS, MICROSECONDS)),
    ("takes 1,000,000 microseconds", |head| exchange(&mut head[MICROSECONDS], 1_000_000, 999_999)),
    ("refuses 999,999 microseconds", |head| exchange(&mut head[MICROSECONDS], 999_999, 1_000_000)),
    ("does not look at the first length", |head| head[KEPT] = head[ORIGINAL]),
    ("does not look at the second length", |head| head[ORIGINAL] = head[KEPT]),
    ("takes a frame that was longer", |head| head[ORIGINAL] = head[ORIGINAL].min(head[KEPT])),
    ("takes a frame of 4,100 bytes", |head| {
        head[KEPT..].iter_mut().for_each(|length| exchange(length, 4_100, 4_099))
    }),
    ("refuses a frame of 4,099 bytes", |head| exchange(&mut head[KEPT], 4_099, 4_100)),
    ("refuses an empty frame", |head| exchange(&mut head[KEPT], 0, 4_100)),
    ("looks at the lengths' low halves alone", |head| {
        head[KEPT..].iter_mut().for_each(|length| *length &= 0xFFFF)
    }),
];

const STEP_SLIPS: [(&str, StepSlip); 16] = [
    ("reads no little-endian file", |_, step| without(Order::Little, step)),
    ("reads no big-endian file", |_, step| without(Order::Big, step)),
    ("takes 00 for what a short header lacks", |place, step| match step {
        Step::Refused(Cause::Short, _) => {
            let lacking = vec![0; HEADER_BYTES - place.bytes.len()];
            pcap::judged_header(pcap::headers(&[place.bytes, &lacking].concat()))
        }
        step => step,
    }),
    ("takes an empty file for the end", |place, step| match step {
        Step::Refused(..) if place.bytes.is_empty() => Step::End,
        step => step,
    }),
    ("wants a record", |place, step| match step {
        Step::End if place.at == HEADER_BYTES => refused(place),
        step => step,
    }),
    ("reads one record alone", |place, step| match step {
        Step::Record(_) if place.at > HEADER_BYTES => Step::End,
        step => step,
    }),
    ("takes a cut head for the end", |_, step| match step {
        Step::Refused(Cause::HeadCut, _) => Step::End,
        step => step,
    }),
    ("takes what there is of a cut frame", |place, step| match step {
        Step::Refused(Cause::FrameCut, at) => {
            let there = (place.bytes.len() - at - HEAD_BYTES) as u32;
            read_again(place, place.order, step, |head| head[KEPT..].fill(there))
        }
        step => step,
    }),
    ("wants a byte after the frame", |place, step| match step {
        Step::Record(record) if record.start + record.len == place.bytes.len() => refused(place),
        step => step,
    }),
    ("wants a frame that begins with AA", |place, step| match step {
        Step::Record(record) if place.bytes.get(record.start) != Some(&0xAA) => refused(place),
        step => step,
    }),
    ("refuses a frame over the snap length", |place, step| match step {
        Step::Record(record) if record.len > snap_length(place) => refused(place),
        step => step,
    }),
    ("reads every record as little-endian", |place, step| {
        read_again(place, Some(Order::Little), step, |_| {})
    }),
    ("reads every record as big-endian", |place, step| {
        read_again(place, Some(Order::Big), step, |_| {})
    }),
    ("reads a record in whichever byte order holds", |place, step| {
        Order::ALL.into_iter().fold(step, |found, order| match found {
            Step::Refused(..) => read_again(place, Some(order), found, |_| {}),
            found => found,
        })
    }),
    ("gives the place of the record for the frame's", |_, step| match step {
        Step::Record(record) => Step::Record(Record { start: record.start - HEAD_BYTES, ..record }),
        step => step,
    }),
    ("gives the end of the file for a refusal's place", |place, step| match step {
        Step::Refused(cause, _) => Step::Refused(cause, place.bytes.len()),
        step => step,
    }),
];

fn exchange(number: &mut u32, from: u32, to: u32) {
    if *number == from {
        *number = to;
    }
}

/// A header that does not hold has no right magic any more.
fn wants(header: &mut Header, holds: fn(&Header) -> bool) {
    if !holds(header) {
        header[MAGIC] = 0;
    }
}

fn without(order: Order, step: Step) -> Step {
    match step {
        Step::Header(read) if read == order => Step::Refused(Cause::Magic, 0),
        step => step,
    }
}

/// The record is refused, for whatever cause.
fn refused(place: &Place) -> Step {
    Step::Refused(Cause::HeadCut, place.at)
}

fn snap_length(place: &Place) -> usize {
    let read = pcap::headers(place.bytes).into_iter().flatten();
    let mut lengths = read.filter(|(order, _)| Some(*order) == place.order);
    lengths.next().map_or(0, |(_, header)| header[SNAP_LENGTH] as usize)
}

/// The header, with the numbers that the slip makes of it.
fn header_again(place: &Place, step: Step, slip: HeaderSlip) -> Step {
    if place.order.is_some() {
        return step;
    }
    let mut read = pcap::headers(place.bytes);
    read.iter_mut().flatten().for_each(|(_, header)| slip(header));
    pcap::judged_header(read)
}

/// The record, read in this byte order and with the numbers that the slip makes of it.
fn read_again(place: &Place, order: Option<Order>, step: Step, slip: impl Fn(&mut Head)) -> Step {
    let (Some(order), Some(_), false) = (order, place.order, step == Step::End) else {
        return step;
    };
    let mut head = pcap::head(place.bytes, order, place.at);
    head.iter_mut().for_each(slip);
    pcap::judged_record(head, place.bytes, place.at)
}

/// A slip of any of the three kinds, as one of the last.
type AnySlip = Box<dyn Fn(&Place, Step) -> Step>;

fn slips() -> Vec<(&'static str, AnySlip)> {
    let mut slips: Vec<(_, AnySlip)> = Vec::new();
    for (name, slip) in HEADER_SLIPS {
        slips.push((name, Box::new(move |place, step| header_again(place, step, slip))));
    }
    for (name, slip) in HEAD_SLIPS {
        slips.push((name, Box::new(move |place, step| read_again(place, place.order, step, slip))));
    }
    for (name, slip) in STEP_SLIPS {
        slips.push((name, Box::new(slip)));
    }
    slips
}

/// Counts the slips that no capture of a list shows.
pub fn not_noticed(what: &str, lines: &[u8]) -> usize {
    let mut missed = slips();
    let all = missed.len();
    let mut bytes = Vec::new();
    for line in lines.split(|&b| b == b'\n').filter(|line| line.starts_with(b"pcap ")) {
        let Some(Call::Pcap) = record::parse(line, &mut bytes) else { continue };
        for (at, order, step) in pcap::steps(&bytes) {
            let place = Place { bytes: &bytes, at, order };
            missed.retain(|(_, slip)| shown(slip(&place, step)) == shown(step));
        }
    }
    println!("{what}: {} of {all} slips with captures noticed", all - missed.len());
    missed.iter().for_each(|(slip, _)| println!("not noticed by {what}: {slip}"));
    missed.len()
}

fn shown(step: Step) -> Vec<u8> {
    let mut text = Vec::new();
    step.show(&mut text);
    text
}
