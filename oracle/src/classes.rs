//! Counts answers by their class: the name of what was read or written, without its fields, or the
//! whole refusal.

use std::collections::BTreeMap;

use crate::{explain, hex, lines, pcap, record, scan, walk};

/// The words that name the answer: a wrapper has what it wraps after it, and `refused` the refusal,
/// which may have the field and the reason.
fn class(answer: &str) -> String {
    if let Some(class) = walk::class(answer) {
        return class;
    }
    let words = match answer.split(' ').next() {
        Some("refused") => return answer.to_string(),
        Some("ATEvent" | "ATResponse") => 2,
        _ => 1,
    };
    let end = answer.match_indices(' ').nth(words - 1).map_or(answer.len(), |(at, _)| at);
    answer[..end].to_string()
}

/// The class of an answer after the kind of its question, since the radios share some names.
pub fn label(question: &[u8], answer: &[u8]) -> String {
    let question = String::from_utf8_lossy(question);
    let answer = String::from_utf8_lossy(answer);
    let mut words = question.split(' ');
    match (words.next(), words.next()) {
        (Some("explain"), Some(kind)) => format!("explain {kind} {}", explain::class(&answer)),
        (Some("pcap"), Some(digits)) => {
            let mut bytes = Vec::new();
            hex::read(digits.as_bytes(), &mut bytes);
            format!("pcap {}", pcap::class(&bytes, &answer))
        }
        (Some("scan"), _) => format!("scan {}", scan::class(&answer)),
        (kind, _) => format!("{} {}", kind.unwrap_or_default(), class(&answer)),
    }
}

#[derive(Default)]
pub struct Counts(BTreeMap<String, u64>);

impl Counts {
    pub fn add(&mut self, label: String) {
        *self.0.entry(label).or_default() += 1;
    }

    pub fn of(&self, label: &str) -> u64 {
        self.0.get(label).copied().unwrap_or(0)
    }

    fn print(&self) {
        for (label, count) in &self.0 {
            println!("{count:>9}  {label}");
        }
    }
}

/// Counts the answers on standard input, by kind of question as well if their file is given.
pub fn count(inputs: Option<&str>) -> Result<(), String> {
    let mut questions = inputs.map(lines::of_file).transpose()?;
    let mut answers = lines::of_standard_input();
    let mut counts = Counts::default();
    while let Some(answer) = answers.next()? {
        let question = match &mut questions {
            Some(questions) => Some(questions.next()?.ok_or("fewer inputs than answers")?),
            None => None,
        };
        if record::is_question(answer) {
            counts.add(match question {
                Some(question) => label(question, answer),
                None => class(&String::from_utf8_lossy(answer)),
            });
        }
    }
    counts.print();
    Ok(())
}
