//! The tables, from what was counted and timed.

use std::collections::HashMap;
use std::fs;

use crate::calls::Side;
use crate::growth::{self, Series};
use crate::items::sized;
use crate::rows;

/// Instructions per call, by name: the Rust's, ours, the crate's.
type Counts = HashMap<String, [f64; 3]>;

/// A cost per byte below this is none: the input's length is then not looked at.
const FLAT: f64 = 0.005;

/// COUNTS has lines `NAME SIDE CALLS INSTRUCTIONS`, TIMES has lines `NAME RUST OURS CRATE`. True if
/// every bar was met.
pub fn print(counts: &str, times: &str) -> Result<bool, String> {
    let counts = counts_of(&read(counts)?)?;
    let times = times_of(&read(times)?)?;
    let met = print_rows(&counts, &times)?;
    println!();
    print_growth(&counts)?;
    Ok(met)
}

fn read(file: &str) -> Result<String, String> {
    fs::read_to_string(file).map_err(|error| format!("{file}: {error}"))
}

fn counts_of(text: &str) -> Result<Counts, String> {
    let mut counts = Counts::new();
    for line in text.lines() {
        let words: Vec<&str> = line.split_whitespace().collect();
        let [name, side, calls, total] = words[..] else {
            return Err(format!("not a count: {line}"));
        };
        let place = Side::ALL.iter().position(|known| known.name() == side);
        let place = place.ok_or(format!("not a side: {line}"))?;
        let entry = counts.entry(name.to_string()).or_insert([f64::NAN; 3]);
        entry[place] = number(total)? / number(calls)?;
    }
    Ok(counts)
}

fn times_of(text: &str) -> Result<Counts, String> {
    let mut times = Counts::new();
    for line in text.lines() {
        let words: Vec<&str> = line.split_whitespace().collect();
        let [name, rust, ours, through] = words[..] else {
            return Err(format!("not a time: {line}"));
        };
        times.insert(name.to_string(), [number(rust)?, number(ours)?, number(through)?]);
    }
    Ok(times)
}

fn number(word: &str) -> Result<f64, String> {
    word.parse().map_err(|_| format!("{word} is no number"))
}

fn get(counts: &Counts, name: &str) -> Result<[f64; 3], String> {
    match counts.get(name) {
        Some(all) if all.iter().all(|value| value.is_finite()) => Ok(*all),
        _ => Err(format!("{name} was not measured on all sides")),
    }
}

fn print_rows(counts: &Counts, times: &Counts) -> Result<bool, String> {
    println!(
        "| row | Rust, instructions | ours | ratio | bar | met | crate | ratio | Rust, ns | ours, ns \
         | crate, ns |"
    );
    println!("|---|---|---|---|---|---|---|---|---|---|---|");
    let mut all_met = true;
    for row in rows::all() {
        let [rust, ours, through] = get(counts, row.name)?;
        let [rust_time, ours_time, time_through] = get(times, row.name)?;
        let ratio = ours / rust;
        let met = ratio <= row.bar;
        all_met &= met;
        println!(
            "| {} | {rust} | {ours} | {ratio:.3} | {:.1} | {} | {through} | {:.3} | {rust_time:.1} \
             | {ours_time:.1} | {time_through:.1} |",
            row.what,
            row.bar,
            if met { "yes" } else { "NO" },
            through / rust,
        );
    }
    Ok(all_met)
}

fn print_growth(counts: &Counts) -> Result<(), String> {
    println!("| growth | bytes | side | instructions | per byte, size to size | greatest rise |");
    println!("|---|---|---|---|---|---|");
    for series in growth::ALL {
        for (place, side) in Side::ALL.into_iter().enumerate() {
            print_series(counts, series, place, side)?;
        }
    }
    Ok(())
}

fn print_series(counts: &Counts, series: &Series, place: usize, side: Side) -> Result<(), String> {
    let mut points = Vec::new();
    for &size in series.sizes {
        points.push((size as f64, get(counts, &sized(series.name, size))?[place]));
    }
    let slopes: Vec<f64> = points.windows(2).map(|two| slope(two[0], two[1])).collect();
    println!(
        "| {} | {} | {} | {} | {} | {} |",
        series.what,
        listed(series.sizes, |size| size.to_string()),
        side.name(),
        listed(&points, |point| point.1.to_string()),
        listed(&slopes, |slope| format!("{slope:.3}")),
        rise(&slopes),
    );
    Ok(())
}

fn listed<T>(items: &[T], show: impl Fn(&T) -> String) -> String {
    items.iter().map(show).collect::<Vec<String>>().join(", ")
}

fn slope(from: (f64, f64), to: (f64, f64)) -> f64 {
    (to.1 - from.1) / (to.0 - from.0)
}

/// The greatest ratio of a cost per byte to the one before it. It stays near 1 where cost is linear,
/// and is about 4 where it is quadratic, since each size is four times the one before.
fn rise(slopes: &[f64]) -> String {
    if slopes.iter().all(|slope| slope.abs() < FLAT) {
        return "flat".to_string();
    }
    let rises = slopes.windows(2).map(|two| two[1].max(FLAT) / two[0].max(FLAT));
    format!("{:.2}", rises.fold(0.0, f64::max))
}
