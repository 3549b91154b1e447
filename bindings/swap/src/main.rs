//! Runs one driver twice, over the three Rust files and over the crate that replaces them, on the same
//! inputs, and compares what it logs. Between the two stand the `use` lines of `before` and `after`.
//! Status: 0 no difference, 1 a difference, or a case that the inputs do not reach.

#![feature(ptr_metadata)]

mod inputs;

/// The three files, compiled where they lie (build.rs).
mod files {
    include!(concat!(env!("OUT_DIR"), "/sources.rs"));
}

mod before {
    use crate::files::w26x::{at_protocol as w26, edm_protocol as edm};
    use crate::files::w36x::at_protocol as w36;

    include!("../driver.rs");
    include!("../words.rs");
}

mod after {
    use mirvoncle::w26x::{at_protocol as w26, edm_protocol as edm};
    use mirvoncle::w36x::at_protocol as w36;

    include!("../driver.rs");
    include!("../words.rs");
}

use std::process::ExitCode;

fn main() -> ExitCode {
    let inputs = inputs::all();
    let from_files = before::Driver::default().run(&inputs);
    let from_crate = after::Driver::default().run(&inputs);
    let differences = differences(&from_files, &from_crate);
    let unreached: Vec<_> =
        inputs::REACHED.iter().filter(|word| !from_files.contains(*word)).collect();
    for line in &differences {
        println!("{line}");
    }
    for word in &unreached {
        println!("no input reaches {word}");
    }
    if !differences.is_empty() || !unreached.is_empty() {
        return ExitCode::FAILURE;
    }
    let lines = from_files.lines().count();
    println!("driver: {lines} lines, the same from the three files and from the crate");
    ExitCode::SUCCESS
}

/// The lines that differ, with what each side has.
fn differences(files: &str, ours: &str) -> Vec<String> {
    let count = files.lines().count().max(ours.lines().count());
    let mut files = files.lines();
    let mut ours = ours.lines();
    let mut found = Vec::new();
    for number in 1..=count {
        let (theirs, ours) = (files.next(), ours.next());
        if theirs != ours {
            found.push(format!("line {number}: the files {theirs:?}, the crate {ours:?}"));
        }
    }
    found
}
