//! Holds the cost of the archive's calls, and of the crate's that are made of them, against those of the
//! Rust. `bench/run` runs it under callgrind.

#![feature(ptr_metadata)]

mod agree;
mod calls;
mod gateway;
mod growth;
mod inputs;
mod items;
mod ours;
mod report;
mod rows;
mod rust;
mod times;

/// The three Rust files, compiled where they lie (build.rs).
mod judged {
    include!(concat!(env!("OUT_DIR"), "/sources.rs"));
}

use std::hint::black_box;
use std::process::ExitCode;

use calls::Side;

const USAGE: &str = "usage: bench list | rustc | once NAME rust|ours|crate COUNT | all COUNT | \
                     times | report COUNTS TIMES";

fn main() -> ExitCode {
    let words: Vec<String> = std::env::args().skip(1).collect();
    let words: Vec<&str> = words.iter().map(String::as_str).collect();
    match run(&words) {
        Ok(true) => ExitCode::SUCCESS,
        Ok(false) => ExitCode::from(1),
        Err(message) => {
            eprintln!("bench: {message}");
            ExitCode::from(2)
        }
    }
}

/// Ok(false) is a bar that was missed; Err is a difference between the sides or a wrong use.
fn run(words: &[&str]) -> Result<bool, String> {
    match words {
        ["list"] => list(),
        ["rustc"] => println!("{}", env!("BENCH_RUSTC")),
        ["once", name, side, count] => once(name, side, number(count)?)?,
        ["all", count] => all(number(count)?)?,
        ["times"] => times()?,
        ["report", counts, times] => return report::print(counts, times),
        _ => return Err(USAGE.to_string()),
    }
    Ok(true)
}

fn number(word: &str) -> Result<u64, String> {
    word.parse().map_err(|_| format!("{word} is no number"))
}

fn list() {
    for item in items::all() {
        println!("{} {}", item.name, item.input.bytes().len());
    }
}

fn once(name: &str, side: &str, count: u64) -> Result<(), String> {
    let item = items::named(name).ok_or(format!("there is no row {name}"))?;
    let side = Side::named(side).ok_or("a side is rust, ours or crate")?;
    item.check()?;
    item.run(side, &mut items::buffer(), count);
    Ok(())
}

/// Every item and side in turn. A call of `bench_done` ends each, where callgrind writes down what it
/// has counted so far and begins anew; the line that is printed says what that was.
fn all(count: u64) -> Result<(), String> {
    let items = items::all();
    items::check(&items)?;
    let mut buffer = items::buffer();
    for item in &items {
        for side in Side::ALL {
            item.run(side, &mut buffer, count);
            bench_done();
            println!("{} {} {count}", item.name, side.name());
        }
    }
    Ok(())
}

#[no_mangle]
#[inline(never)]
extern "C" fn bench_done() {
    black_box(());
}

fn times() -> Result<(), String> {
    let items = items::of_rows();
    items::check(&items)?;
    let mut buffer = items::buffer();
    for item in &items {
        let [rust, ours, through] = times::medians(item, &mut buffer);
        println!("{} {rust:.1} {ours:.1} {through:.1}", item.name);
    }
    Ok(())
}
