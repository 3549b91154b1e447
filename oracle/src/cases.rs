//! The cases of the folder `cases`: questions with the answers that the documents give, typed by hand.
//!
//! A line is `QUESTION => ANSWER`, with the question as in a record but its bytes written readably:
//! `~` is CR LF, `{41 C3}` are bytes, `{30*40}` is one byte forty times, any other character stands for
//! itself, and a lone `-` is empty. In an answer, `<..>` is the hex of what it encloses.

use crate::hex;

/// The files that are also the first part of the recorded list.
pub const RECORDED: [&str; 9] = [
    include_str!("../cases/examples.txt"),
    include_str!("../cases/rules.txt"),
    include_str!("../cases/corners.txt"),
    include_str!("../cases/walks.txt"),
    include_str!("../cases/bluetooth.txt"),
    include_str!("../cases/why.txt"),
    include_str!("../cases/explain.txt"),
    include_str!("../cases/captures.txt"),
    include_str!("../cases/dumps.txt"),
];
/// Inputs too long for a list that is kept.
pub const LONG: &str = include_str!("../cases/long.txt");

pub enum Entry {
    Heading(&'static str),
    Case { question: Vec<u8>, answer: Vec<u8> },
}

/// Err holds the first line that has not the form of a case.
pub fn entries(text: &'static str) -> Result<Vec<Entry>, String> {
    let lines = text.lines().filter(|line| !line.is_empty());
    lines.map(|line| entry(line).ok_or_else(|| format!("no case: {line}"))).collect()
}

fn entry(line: &'static str) -> Option<Entry> {
    if line.starts_with('#') {
        return Some(Entry::Heading(line));
    }
    let (asked, answered) = line.split_once(" => ")?;
    Some(Entry::Case { question: question(asked)?, answer: answer(answered)? })
}

fn question(text: &str) -> Option<Vec<u8>> {
    // The words before the bytes: the kind and its numbers.
    let words = match text.split(' ').next()? {
        "resend" => return Some(text.into()),
        "data" => 3,
        "request" | "again26" | "again36" | "explain" => 2,
        _ => 1,
    };
    let at = text.match_indices(' ').nth(words - 1)?.0 + 1;
    let mut line = text.as_bytes()[..at].to_vec();
    hex::push(&mut line, &bytes(&text[at..])?);
    Some(line)
}

fn answer(text: &str) -> Option<Vec<u8>> {
    let mut line = Vec::new();
    let mut rest = text;
    while let Some((before, after)) = rest.split_once('<') {
        let (inside, left) = after.split_once('>')?;
        line.extend_from_slice(before.as_bytes());
        hex::push(&mut line, &bytes(inside)?);
        rest = left;
    }
    line.extend_from_slice(rest.as_bytes());
    Some(line)
}

/// The bytes of a readable text.
pub fn bytes(text: &str) -> Option<Vec<u8>> {
    let mut out = Vec::new();
    let mut rest = if text == "-" { "" } else { text };
    while let Some(first) = rest.chars().next() {
        let after = &rest[first.len_utf8()..];
        rest = match first {
            '~' => {
                out.extend_from_slice(b"\r\n");
                after
            }
            '{' => {
                let (inside, left) = after.split_once('}')?;
                inside.split(' ').try_for_each(|word| push_repeated(word, &mut out))?;
                left
            }
            _ => {
                out.extend_from_slice(&rest.as_bytes()[..first.len_utf8()]);
                after
            }
        };
    }
    Some(out)
}

fn push_repeated(word: &str, out: &mut Vec<u8>) -> Option<()> {
    let (byte, count) = word.split_once('*').unwrap_or((word, "1"));
    let byte = u8::from_str_radix(byte, 16).ok()?;
    out.resize(out.len() + count.parse::<usize>().ok()?, byte);
    Some(())
}
