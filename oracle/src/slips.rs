//! The self test of the questions that ask for the field and the reason: each list of them must have
//! every flaw of every row, and must show every slip that a program could make.

use std::num::IntErrorKind;

use crate::amiss;
use crate::record::{self, Call, Reader};
use crate::table::Field;
use crate::why::{self, Amiss, Found, Line};

/// What a program with one slip finds, where a right one finds the second argument.
type Slip = fn(&Line, Found) -> Found;

const SLIPS: [(&str, Slip); 8] = [
    ("counts the fields from 0", |_, found| Found { field: found.field - 1, ..found }),
    ("names the field after", |_, found| Found { field: found.field + 1, ..found }),
    ("names the last field that is there for one that is missing", |_, found| match found.amiss {
        Amiss::Missing => Found { field: found.field - 1, ..found },
        _ => found,
    }),
    ("names the second bad field", second),
    ("says large where a byte is not allowed", large_first),
    ("says list for large and large for list", |_, found| match found.amiss {
        Amiss::List => Found { amiss: Amiss::Large, ..found },
        Amiss::Large => Found { amiss: Amiss::List, ..found },
        _ => found,
    }),
    ("says empty for a lone plus", |line, found| match line.fields.get(found.field - 1) {
        Some(&"+") => Found { amiss: Amiss::Empty, ..found },
        _ => found,
    }),
    ("says byte for every number that is none", |_, found| match found.amiss {
        Amiss::Empty | Amiss::Large => Found { amiss: Amiss::Byte, ..found },
        _ => found,
    }),
];

/// The next field with the same refusal, as another refusal would be seen without the field.
fn second(line: &Line, found: Found) -> Found {
    let same = |other: &Found| other.amiss.refusal() == found.amiss.refusal();
    line.found().filter(same).nth(1).unwrap_or(found)
}

/// Stops at the digit that makes the number too large, as Rust's library does.
fn large_first(line: &Line, found: Found) -> Found {
    let at = found.field - 1;
    let bits = if let Field::Number(bits) = line.row[at] { bits } else { 8 };
    match why::parsed(line.fields.get(at).unwrap_or(&""), bits) {
        Err(IntErrorKind::PosOverflow) => Found { amiss: Amiss::Large, ..found },
        _ => found,
    }
}

/// Counts the slips that no question of a list shows.
pub fn not_noticed(what: &str, lines: &[u8]) -> usize {
    let mut noticed = [false; SLIPS.len()];
    each_found(lines, |line, found| {
        for (noticed, (_, slip)) in noticed.iter_mut().zip(SLIPS) {
            *noticed |= slip(line, found) != found;
        }
    });
    let count = noticed.iter().filter(|&&noticed| noticed).count();
    println!("{what}: {count} of {} slips noticed", SLIPS.len());
    let missed = SLIPS.iter().zip(noticed).filter(|(_, noticed)| !noticed);
    missed.inspect(|((slip, _), _)| println!("not noticed by {what}: {slip}")).count()
}

/// Counts the flaws of the table's rows that no question of a list has.
pub fn not_asked(what: &str, lines: &[u8]) -> usize {
    let mut asked = Vec::new();
    each_found(lines, |line, found| {
        if !asked.contains(&(line.name, found)) {
            asked.push((line.name, found));
        }
    });
    let readers = [Reader::W26, Reader::W36, Reader::Binary];
    let flaws: Vec<_> = readers.into_iter().flat_map(amiss::flaws).collect();
    let missed = flaws.iter().filter(|flaw| !asked.contains(&(flaw.name, flaw.found)));
    let missed: Vec<_> = missed.collect();
    println!("{what}: {} of {} flaws of fields asked", flaws.len() - missed.len(), flaws.len());
    missed.iter().for_each(|flaw| println!("not asked by {what}: {} {}", flaw.name, flaw.found));
    missed.len()
}

/// The questions that ask why and are refused for a field.
fn each_found(lines: &[u8], mut call: impl FnMut(&Line, Found)) {
    let mut bytes = Vec::new();
    for question in lines.split(|&b| b == b'\n').filter(|line| record::is_question(line)) {
        let Some(Call::Why(reader)) = record::parse(question, &mut bytes) else { continue };
        let Some(line) = why::line(reader, &bytes) else { continue };
        let found = line.found().next().filter(|found| found.amiss != Amiss::Type);
        found.into_iter().for_each(|found| call(&line, found));
    }
}

/// Counts the plain answers that are not the model's and pass all the same.
pub fn silent() -> usize {
    let asked: [(&[u8], &str); 4] = [
        (b"\r\n+UUDPD:7\r\n", "PeerDisconnected 7"),
        (b"\r\n+UUDPD:x\r\n", "refused TypeDecodeParameterDataTypeInvalid"),
        (b"\r\n+UUDPD\r\n", "refused TypeDecodeParameterMissing"),
        (b"\r\n+UUDPC:1,9\r\n", "refused TypeDecodeUnsupported"),
    ];
    let pairs = asked.iter().flat_map(|line| asked.iter().map(move |other| (line, other)));
    let wrong = pairs.filter(|((line, right), (_, plain))| {
        let mut answer = plain.as_bytes().to_vec();
        let passes = why::carry(Reader::W26, line, 0, &mut answer).is_ok();
        passes != (right == plain)
    });
    wrong.inspect(|((_, right), (_, plain))| println!("{plain} passes for {right}")).count()
}
