//! The list of questions that is kept with its answers: the documents' own cases, the sizes around
//! every exact fit, and a sample of the generator that reaches every class of answer.

use std::collections::{BTreeMap, BTreeSet};

use crate::answer::Answerer;
use crate::pcap::{HEADER_BYTES, HEAD_BYTES};
use crate::record::{self, Call, Explained, Reader};
use crate::{amiss, cases, classes, generate};

/// Drawn from the generator to find lines of every class.
const DRAWN: usize = 400_000;
/// Kept of each class, and of all draws as they come.
const OF_EACH_CLASS: usize = 12;
const AS_THEY_COME: usize = 1_000;
const SEED: u64 = 2_026;
/// Longer lines are left to the cases that need them.
const LONGEST: usize = 240;

/// One line of every event that our writer writes.
const W26_LINES: [&str; 26] = [
    "~+UUDPC:1,3,6,fe80::1,80,fe80::2,65535~",
    "~+UUDPD:65535~",
    "~+UUWLE:0,001122334455,11~",
    "~+UUWLD:3,4~",
    "~+UUWAPU:10~",
    "~+UUWAPD:9~",
    "~+UUWAPSTAC:0,AB~",
    "~+UUWAPSTAD:100~",
    "~+UUETHLU~",
    "~+UUETHLD~",
    "~+UUNU:1~",
    "~+UUND:99~",
    "~+UUNERR:0,10000~",
    "~+UUDATA:3,1460~",
    "~+UUDPC:3,1,0,112233445566p,670~",
    "~+UUBTB:112233445566p,255~",
    "~+UUBTUC:112233445566p,4294967295~",
    "~+UUBTUPD:112233445566p,1000000000~",
    "~+UUBTUPE:112233445566p~",
    "~+UUBTACLC:0,1,CCF9578E0D8Ap~",
    "~+UUBTACLD:65535~",
    "~+UUBTGRR:0,35~",
    "~+UUBTGRW:0,35,,100~",
    "~+UUBTGIC:10,9999~",
    "~+UUBTGN:0,33,00FF~",
    "~+UUBTGI:0,33,~",
];

const W36_LINES: [&str; 15] = [
    "~+UESOC:255~",
    "~+UESOCL:0~",
    "~+UESODA:9,10~",
    "~+UEWLU:0,001122334455,11~",
    "~+UEWLD:0,65535~",
    "~+UEWAPSA:AB~",
    "~+UEWAPSDA:~",
    "~+UEWAPU~",
    "~+UEWAPD~",
    "~+UEWSNU~",
    "~+UEWSND~",
    "~+UEWAPNU~",
    "~+UEWAPND~",
    "~+UESODB:2{01 00 03 01 0D 0A}",
    "~+UESODBF:2,10.0.0.1,5000{01 00 02 55 AA}",
];

/// One file of two records in each byte order.
const CAPTURES: [&str; 2] = [
    "{D4 C3 B2 A1 02 00 04 00 00*8 03 10 00 00 93 00 00 00}\
     {01 00 00 00 02 00 00 00 01 00 00 00 01 00 00 00}A{00*16}",
    "{A1 B2 C3 D4 00 02 00 04 00*8 00 00 10 03 00 00 00 93}\
     {00 00 00 01 00 00 00 02 00 00 00 01 00 00 00 01}A{00*16}",
];

/// Rubbish, a frame that has a frame inside and top bits in its length, and a frame of unknown identifier.
const DUMP: &str = "{AA 00}{AA F0 08 00 31}{AA 00 02 00 71 55}{55}{AA 00 02 55 AA 55}";

pub fn lines(out: &mut Vec<u8>) -> Result<(), String> {
    for text in cases::RECORDED {
        for entry in cases::entries(text)? {
            match entry {
                cases::Entry::Heading(heading) => push_heading(out, heading),
                cases::Entry::Case { question, .. } => push_line(out, &question),
            }
        }
    }
    small_frames(out);
    small_writes(out);
    event_sizes(out)?;
    event_ends(out)?;
    field_flaws(out);
    captures(out)?;
    dumps(out)?;
    sample_by_class(out);
    sample(out);
    Ok(())
}

fn push_heading(out: &mut Vec<u8>, heading: &str) {
    if !out.is_empty() {
        out.push(b'\n');
    }
    push_line(out, heading.as_bytes());
}

fn push_line(out: &mut Vec<u8>, line: &[u8]) {
    out.extend_from_slice(line);
    out.push(b'\n');
}

/// Frames of each identifier, with the right length as far as they are long enough to have one.
fn small_frames(out: &mut Vec<u8>) {
    push_heading(out, "# Frames of 0 to 8 bytes");
    for identifier in [0x11, 0x21, 0x31, 0x36, 0x41, 0x44, 0x45, 0x56, 0x71] {
        for size in 0..=8 {
            let whole = [0xAA, 0x00, size.max(4) - 4, 0x00, identifier, 0x02, 0x02, 0x55];
            let mut frame = whole[..usize::from(size)].to_vec();
            if let Some(last) = frame.last_mut().filter(|_| size > 1) {
                *last = 0x55;
            }
            record::push(out, Call::Read(Reader::Frame), &frame);
        }
    }
}

fn small_writes(out: &mut Vec<u8>) {
    push_heading(out, "# Commands of 0 to 3 bytes into 0 to 11 bytes");
    for size in 0..=11 {
        record::push(out, Call::Resend { size }, b"");
        for text in ["", "A", "AT", "\u{20ac}"] {
            record::push(out, Call::Request { size }, text.as_bytes());
            record::push(out, Call::Data { size, channel: 3 }, text.as_bytes());
        }
        record::push(out, Call::Request { size }, b"\xC3");
    }
}

/// Every event into a buffer that fits, one byte less and one more, and none at all.
fn event_sizes(out: &mut Vec<u8>) -> Result<(), String> {
    let again26 = |size| Call::Again26 { size };
    let again36 = |size| Call::Again36 { size };
    push_heading(out, "# Every W26 event, read and written again around its exact size");
    for text in W26_LINES {
        push_sizes(out, &again26, text)?;
    }
    push_heading(out, "# Every W36 event, read and written again around its exact size");
    for text in W36_LINES {
        push_sizes(out, &again36, text)?;
    }
    Ok(())
}

/// Every W36 event with another after it, so that its end is seen.
fn event_ends(out: &mut Vec<u8>) -> Result<(), String> {
    push_heading(out, "# Every W36 event with another after it");
    for text in W36_LINES {
        record::push(out, Call::Walk36, &bytes_of(&format!("{text}~+UESOC:1~"))?);
    }
    Ok(())
}

/// Every flaw of every row, alone in its line.
fn field_flaws(out: &mut Vec<u8>) {
    push_heading(out, "# Every field of every line: missing, or of each wrong form");
    for reader in [Reader::W26, Reader::W36, Reader::Binary] {
        for flaw in amiss::flaws(reader) {
            record::push(out, Call::Why(reader), &flaw.line(reader));
            record::push(out, Call::Explain(Explained::Read(reader)), &flaw.line(reader));
        }
    }
}

/// Every beginning of a capture, and the whole with another byte at each place before its first frame.
fn captures(out: &mut Vec<u8>) -> Result<(), String> {
    push_heading(out, "# A capture of each byte order, cut after each byte");
    for text in CAPTURES {
        let bytes = bytes_of(text)?;
        (0..=bytes.len()).for_each(|size| record::push(out, Call::Pcap, &bytes[..size]));
    }
    push_heading(out, "# The same with one bit changed in each byte before the first frame");
    for text in CAPTURES {
        let mut bytes = bytes_of(text)?;
        for at in 0..HEADER_BYTES + HEAD_BYTES {
            bytes[at] ^= 1;
            record::push(out, Call::Pcap, &bytes);
            bytes[at] ^= 1;
        }
    }
    Ok(())
}

/// Every beginning of a dump, and the whole with another byte at each place.
fn dumps(out: &mut Vec<u8>) -> Result<(), String> {
    let mut bytes = bytes_of(DUMP)?;
    push_heading(out, "# A dump, cut after each byte");
    (0..=bytes.len()).for_each(|size| record::push(out, Call::Scan, &bytes[..size]));
    push_heading(out, "# The same with one bit changed in each byte");
    for at in 0..bytes.len() {
        bytes[at] ^= 1;
        record::push(out, Call::Scan, &bytes);
        bytes[at] ^= 1;
    }
    Ok(())
}

fn bytes_of(text: &str) -> Result<Vec<u8>, String> {
    cases::bytes(text).ok_or_else(|| format!("no bytes: {text}"))
}

/// The lines above are spelt as the writer spells them, so their own length is the exact one.
fn push_sizes(out: &mut Vec<u8>, call: &dyn Fn(usize) -> Call, text: &str) -> Result<(), String> {
    let bytes = bytes_of(text)?;
    for size in [0, bytes.len() - 1, bytes.len(), bytes.len() + 1] {
        record::push(out, call(size), &bytes);
    }
    Ok(())
}

/// Lines by their class.
type Found = BTreeMap<String, Vec<Vec<u8>>>;

fn sample_by_class(out: &mut Vec<u8>) {
    let mut maker = generate::Maker::new(SEED);
    let mut answerer = Answerer::default();
    let mut found = Found::new();
    let mut line = Vec::new();
    for _ in 0..DRAWN {
        line.clear();
        maker.line(&mut line);
        line.pop();
        if line.len() > LONGEST {
            continue;
        }
        let kept = found.entry(label(&mut answerer, &line)).or_default();
        if kept.len() < OF_EACH_CLASS {
            kept.push(line.clone());
        }
    }
    let fewer = [
        ("why", "the questions that ask why"),
        ("explain", "the questions that ask explain"),
        ("pcap", "captures"),
        ("scan", "dumps"),
    ];
    let fewer = fewer.map(|(word, what)| (word, what, take(&mut found, word)));
    for (label, kept) in found {
        push_heading(out, &format!("# Generated: {label}"));
        kept.iter().for_each(|line| push_line(out, line));
    }
    for (word, what, found) in fewer {
        push_new_classes(out, word, what, found);
    }
}

fn label(answerer: &mut Answerer, line: &[u8]) -> String {
    let mut answer = Vec::new();
    answerer.answer(line, &mut answer);
    classes::label(line, &answer)
}

/// Takes out the classes that begin with a word.
fn take(found: &mut Found, word: &str) -> Found {
    let (taken, left) =
        std::mem::take(found).into_iter().partition(|(label, _)| label.starts_with(word));
    *found = left;
    taken
}

/// The questions that ask why, or to explain, share most classes with the plain ones, and of captures and
/// dumps the lines above have many. One line of each class that is still missing is enough.
fn push_new_classes(out: &mut Vec<u8>, word: &str, what: &str, found: Found) {
    let mut answerer = Answerer::default();
    let above = out.split(|&b| b == b'\n').filter(|line| line.starts_with(word.as_bytes()));
    let above: BTreeSet<_> = above.map(|line| label(&mut answerer, line)).collect();
    push_heading(out, &format!("# Generated: further classes of {what}"));
    let new = found.iter().filter(|(label, _)| !above.contains(*label));
    new.filter_map(|(_, kept)| kept.first()).for_each(|line| push_line(out, line));
}

fn sample(out: &mut Vec<u8>) {
    push_heading(out, "# Generated, as they come");
    let mut maker = generate::Maker::new(SEED + 1);
    let mut line = Vec::new();
    for _ in 0..AS_THEY_COME {
        line.clear();
        maker.line(&mut line);
        if line.len() <= LONGEST {
            out.extend_from_slice(&line);
        }
    }
}
