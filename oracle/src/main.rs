//! The Rust as oracle: asks it, holds `replay` against it, and makes the questions.

#![feature(ptr_metadata)]

mod amiss;
mod answer;
#[cfg(feature = "archive")]
mod archive;
mod bluetooth;
mod capture_slips;
mod cases;
mod classes;
mod compare;
mod differences;
mod explain;
mod generate;
mod hex;
mod lines;
mod panics;
mod pcap;
mod reach;
mod record;
mod recorded;
mod rng;
mod rows;
mod rust;
mod scan;
mod scan_slips;
mod selftest;
mod short;
mod show;
mod slips;
mod table;
mod walk;
mod why;
mod writer;

/// The three Rust files, compiled where they lie (build.rs).
mod judged {
    include!(concat!(env!("OUT_DIR"), "/sources.rs"));
}

use std::io::{self, Write};
use std::process::ExitCode;

use answer::{Answerer, Outcome};

const USAGE: &str = "usage: oracle answer | compare INPUTS OURS | classes [INPUTS] | \
                     generate N SEED | short | record | selftest, \
                     and with the feature archive: archive N SEED";

fn main() -> ExitCode {
    rust::keep_panics_quiet();
    let words: Vec<String> = std::env::args().skip(1).collect();
    let words: Vec<&str> = words.iter().map(String::as_str).collect();
    match run(&words) {
        Ok(true) => ExitCode::SUCCESS,
        Ok(false) => ExitCode::from(1),
        Err(message) => {
            eprintln!("oracle: {message}");
            ExitCode::from(2)
        }
    }
}

/// Ok(false) is a finding (a difference, a fault); Err is a wrong use of this program.
fn run(words: &[&str]) -> Result<bool, String> {
    match words {
        ["answer"] => answer_all(),
        ["compare", inputs, ours] => compare::compare(inputs, ours),
        ["classes"] => classes::count(None).map(|_| true),
        ["classes", inputs] => classes::count(Some(inputs)).map(|_| true),
        ["generate", count, seed] => generate_all(number(count)?, number(seed)?),
        ["short"] => short_all(),
        ["record"] => {
            let mut output = Output::default();
            recorded::lines(&mut output.pending)?;
            output.end()
        }
        ["selftest"] => selftest::run(),
        #[cfg(feature = "archive")]
        ["archive", count, seed] => archive::compare(number(count)?, number(seed)?),
        _ => Err(USAGE.to_string()),
    }
}

fn number(word: &str) -> Result<u64, String> {
    word.parse().map_err(|_| format!("{word} is no number"))
}

fn generate_all(count: u64, seed: u64) -> Result<bool, String> {
    let mut maker = generate::Maker::new(seed);
    let mut output = Output::default();
    for _ in 0..count {
        maker.line(&mut output.pending);
        output.pass_on()?;
    }
    output.end()
}

fn short_all() -> Result<bool, String> {
    let mut output = Output::default();
    for set in short::SETS {
        set.lines(&mut output.pending);
        output.pass_on()?;
    }
    output.end()
}

fn answer_all() -> Result<bool, String> {
    let mut answerer = Answerer::default();
    let mut output = Output::default();
    let mut lines = lines::of_standard_input();
    let (mut count, mut faults) = (0u64, 0u64);
    while let Some(line) = lines.next()? {
        count += 1;
        match answerer.answer(line, &mut output.pending) {
            Outcome::Answered => {}
            Outcome::Fault => faults += 1,
            Outcome::NoRecord => {
                output.end()?;
                return Err(format!("line {count} is no record"));
            }
        }
        output.pending.push(b'\n');
        output.pass_on()?;
    }
    output.end()?;
    if faults > 0 {
        eprintln!("oracle: {faults} faults among {count} lines");
    }
    Ok(faults == 0)
}

/// Standard output, written in large pieces.
#[derive(Default)]
struct Output {
    pending: Vec<u8>,
}

impl Output {
    const PIECE: usize = 1 << 18;

    fn pass_on(&mut self) -> Result<(), String> {
        if self.pending.len() >= Output::PIECE {
            self.write()?;
        }
        Ok(())
    }

    fn end(mut self) -> Result<bool, String> {
        self.write().map(|_| true)
    }

    fn write(&mut self) -> Result<(), String> {
        let written = io::stdout().lock().write_all(&self.pending);
        self.pending.clear();
        written.map_err(|error| format!("cannot write: {error}"))
    }
}
