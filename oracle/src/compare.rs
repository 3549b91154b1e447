//! Holds the answers of `replay` against those of the Rust, line by line.

use std::io::BufRead;

use crate::answer::{Answerer, Outcome};
use crate::lines::{self, Lines};
use crate::rust;

/// More differences than this are only counted.
const SHOWN: u64 = 20;

/// True if every line agrees and both files have the same number of lines.
pub fn compare(inputs: &str, ours: &str) -> Result<bool, String> {
    let mut inputs = lines::of_file(inputs)?;
    let mut ours = lines::of_file(ours)?;
    let mut answerer = Answerer::default();
    let mut expected = Vec::new();
    let (mut count, mut differences) = (0, 0);
    while let Some(input) = inputs.next()? {
        count += 1;
        expected.clear();
        let outcome = answerer.answer(input, &mut expected);
        if outcome == Outcome::NoRecord {
            return Err(format!("input {count} is no record: {}", lossy(input)));
        }
        let given = ours.next()?;
        if outcome == Outcome::Fault || given != Some(&expected) {
            differences += 1;
            if differences <= SHOWN {
                show(count, input, &expected, given);
            }
        }
    }
    let further = remaining(&mut ours)?;
    if further > 0 {
        println!("{further} answers have no input");
    }
    println!(
        "{count} inputs, {differences} differences; the Rust panicked {} times",
        rust::panics()
    );
    Ok(differences == 0 && further == 0)
}

fn show(number: u64, input: &[u8], expected: &[u8], given: Option<&[u8]>) {
    println!("difference at line {number}: {}", lossy(input));
    println!("  Rust:   {}", lossy(expected));
    println!("  ours:   {}", given.map_or("(no line)".into(), lossy));
    println!("  repeat: printf '%s\\n' '{}' | ./run replay", lossy(input));
}

fn remaining<R: BufRead>(lines: &mut Lines<R>) -> Result<u64, String> {
    let mut count = 0;
    while lines.next()?.is_some() {
        count += 1;
    }
    Ok(count)
}

fn lossy(line: &[u8]) -> String {
    String::from_utf8_lossy(line).into_owned()
}
