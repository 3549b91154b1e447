//! Holds the crate of `bindings/rust`, and so the archive, against the Rust, in one process. What the
//! crate owes is what `replay` owes: the answer of `Answerer`, with its differences and its models.

mod answer;
mod rows;
#[allow(clippy::duplicate_mod)]
#[path = "../show.rs"]
mod show;
mod slips;
mod writes;

// `show.rs` and `rows.rs` are compiled for the crate's types here.
use mirvoncle as judged;

use std::collections::BTreeMap;

use crate::answer::{Answerer, Outcome};
use crate::generate::Maker;
use crate::record::{self, Call};
use crate::rust;

/// More differences than this are only counted.
const SHOWN: u64 = 20;

/// True if every answer agrees, and every question that is put amiss on purpose is noticed.
pub fn compare(count: u64, seed: u64) -> Result<bool, String> {
    let noticed = slips::noticed()?;
    let panicked = rust::panics();
    let mut maker = Maker::for_crate(seed);
    let mut comparison = Comparison::default();
    let mut line = Vec::new();
    for number in 1..=count {
        line.clear();
        maker.line(&mut line);
        if !comparison.ask(line.trim_ascii_end(), as_it_is)? && comparison.differences() <= SHOWN {
            comparison.show(number, line.trim_ascii_end());
        }
    }
    for (word, tally) in &comparison.words {
        println!("{:>9}  {word}", tally.asked);
    }
    let differences = match comparison.differences() {
        0 => "no difference".to_string(),
        count => format!("{count} differences"),
    };
    println!(
        "crate and originals: {count} inputs of seed {seed}, {differences}; the Rust panicked {} times",
        rust::panics() - panicked
    );
    Ok(noticed && comparison.differences() == 0)
}

/// What the crate is asked in place of a question: all of it, or a slip.
type Put = fn(Call, &mut Vec<u8>) -> Call;

fn as_it_is(call: Call, _: &mut Vec<u8>) -> Call {
    call
}

#[derive(Default)]
struct Tally {
    asked: u64,
    differ: u64,
}

/// Keeps its buffers from question to question.
#[derive(Default)]
struct Comparison {
    answerer: Answerer,
    bytes: Vec<u8>,
    bed: Vec<u8>,
    expected: Vec<u8>,
    given: Vec<u8>,
    words: BTreeMap<&'static str, Tally>,
}

impl Comparison {
    /// Asks the Rust and the crate; false if they differ, or if either answer is a fault.
    fn ask(&mut self, line: &[u8], put: Put) -> Result<bool, String> {
        self.expected.clear();
        self.given.clear();
        let outcome = self.answerer.answer(line, &mut self.expected);
        let call = record::parse(line, &mut self.bytes)
            .ok_or_else(|| format!("no record: {}", String::from_utf8_lossy(line)))?;
        let tally = self.words.entry(call.word()).or_default();
        let call = put(call, &mut self.bytes);
        let answered = answer::answer(call, &self.bytes, &mut self.bed, &mut self.given);
        if let Err(fault) = answered {
            self.given.clear();
            self.given.extend_from_slice(fault.as_bytes());
        }
        let same = answered.is_ok() && outcome == Outcome::Answered && self.given == self.expected;
        tally.asked += 1;
        tally.differ += u64::from(!same);
        Ok(same)
    }

    fn differences(&self) -> u64 {
        self.words.values().map(|tally| tally.differ).sum()
    }

    fn show(&self, number: u64, line: &[u8]) {
        println!("difference at input {number}: {}", String::from_utf8_lossy(line));
        println!("  Rust:   {}", String::from_utf8_lossy(&self.expected));
        println!("  crate:  {}", String::from_utf8_lossy(&self.given));
    }
}
