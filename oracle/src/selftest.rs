//! Holds the answerer against the documents, and the questions against every class of answer.

use crate::answer::{self, Answerer, Outcome};
use crate::classes::{self, Counts};
use crate::judged::w26x::at_protocol::AtPacketError;
use crate::judged::w26x::edm_protocol::{EdmPacket, EdmPacketError, EDM_PACKET_WIRE_OVERHEAD};
use crate::{
    capture_slips, cases, differences, generate, reach, record, recorded, rust, scan_slips, slips,
};

/// Enough draws for every class, and quick.
const DRAWN: usize = 600_000;

/// True if nothing is amiss. What is amiss is printed.
pub fn run() -> Result<bool, String> {
    let mut amiss = other_facts() + slips::silent();
    for text in cases::RECORDED.into_iter().chain([cases::LONG]) {
        amiss += wrong_answers(text)?;
    }
    let short = typed(&cases::RECORDED)?;
    amiss += slips::not_noticed("the cases", &short);
    amiss += capture_slips::not_noticed("the cases", &short);
    amiss += scan_slips::not_noticed("the cases", &short) + scan_slips::silent(&short);
    amiss += scan_slips::limit_not_noticed("the cases", &typed(&[cases::LONG])?);
    let mut list = Vec::new();
    recorded::lines(&mut list)?;
    amiss += not_covered("the recorded list", &list);
    let mut maker = generate::Maker::new(1);
    let mut drawn = Vec::new();
    (0..DRAWN).for_each(|_| maker.line(&mut drawn));
    amiss += not_covered("the generator", &drawn);
    amiss += scan_slips::limit_not_noticed("the generator", &drawn);
    println!("selftest: {amiss} amiss");
    Ok(amiss == 0)
}

/// Under such a heading the Rust must have panicked, beside the answer being the document's.
const PANIC_HEADING: &str = "# OPEN-POINTS, where the Rust panics";

fn wrong_answers(text: &'static str) -> Result<usize, String> {
    let mut answerer = Answerer::default();
    let (mut count, mut wrong, mut must_panic) = (0, 0, false);
    for entry in cases::entries(text)? {
        let (question, answer) = match entry {
            cases::Entry::Heading(heading) => {
                must_panic = heading.starts_with(PANIC_HEADING);
                continue;
            }
            cases::Entry::Case { question, answer } => (question, answer),
        };
        let (mut given, before) = (Vec::new(), rust::panics());
        let outcome = answerer.answer(&question, &mut given);
        let as_said = !must_panic || rust::panics() > before;
        count += 1;
        if outcome != Outcome::Answered || given != answer || !as_said {
            wrong += 1;
            println!("asked    {}", String::from_utf8_lossy(&question));
            println!("document {}", String::from_utf8_lossy(&answer));
            println!("answerer {}", String::from_utf8_lossy(&given));
            println!("panicked as the document says: {as_said}");
        }
    }
    let first = text.lines().next().unwrap_or_default().trim_start_matches("# ");
    println!("{count} cases, {wrong} wrong, beginning with {first}");
    Ok(wrong)
}

/// The questions of these cases alone.
fn typed(texts: &[&'static str]) -> Result<Vec<u8>, String> {
    let mut questions = Vec::new();
    for text in texts {
        for entry in cases::entries(text)? {
            if let cases::Entry::Case { question, .. } = entry {
                questions.extend_from_slice(&question);
                questions.push(b'\n');
            }
        }
    }
    Ok(questions)
}

/// What the documents say of the Rust that no record line can ask.
fn other_facts() -> usize {
    let refused = rust::write(&EdmPacket::StartEvent, answer::odd_place(&mut Vec::new(), 16));
    let refused = refused == Some(Err(EdmPacketError::PacketEncodeTypeUnknown));
    let bare = rust::event26(b"\r\nUUNERR:0,1\r\n");
    let plus = rust::event26(b"\r\n+UUNERR:0,1\r\n");
    let mut bluetooth = differences::BLUETOOTH_NAMES.iter();
    let peer = rust::event26(b"\r\n+UUDPC:3,1,0,a,1\r\n");
    let facts = [
        ("a packet that is no command is refused with 9", refused),
        ("the Rust reads UUNERR", matches!(bare, Some(Ok(_)))),
        (
            "the Rust refuses +UUNERR with 16",
            matches!(plus, Some(Err(AtPacketError::EventUnknown))),
        ),
        ("the Rust refuses each name of Bluetooth with 16", bluetooth.all(|name| is_unknown(name))),
        (
            "the Rust refuses +UUDPC with type 1 with 13",
            matches!(peer, Some(Err(AtPacketError::TypeDecodeUnsupported))),
        ),
        ("the Rust's EDM_PACKET_WIRE_OVERHEAD is 8", EDM_PACKET_WIRE_OVERHEAD == 8),
    ];
    let wrong = facts.iter().filter(|(_, holds)| !holds);
    wrong.inspect(|(fact, _)| println!("does not hold: {fact}")).count()
}

/// The Rust refuses the name in a line whose fields every event of that name has.
fn is_unknown(name: &str) -> bool {
    let line = format!("\r\n{name}:0,0,a,0\r\n");
    matches!(rust::event26(line.as_bytes()), Some(Err(AtPacketError::EventUnknown)))
}

/// A list of questions must reach every class of answer, and ask for every flaw and show every slip in
/// what a refusal for a field carries, and every slip with captures and with dumps.
fn not_covered(what: &str, lines: &[u8]) -> usize {
    not_reached(what, lines)
        + slips::not_asked(what, lines)
        + slips::not_noticed(what, lines)
        + capture_slips::not_noticed(what, lines)
        + scan_slips::not_noticed(what, lines)
}

fn not_reached(what: &str, lines: &[u8]) -> usize {
    let mut answerer = Answerer::default();
    let mut counts = Counts::default();
    let (mut answer, mut faults) = (Vec::new(), 0);
    for line in lines.split(|&b| b == b'\n').filter(|line| record::is_question(line)) {
        answer.clear();
        if answerer.answer(line, &mut answer) != Outcome::Answered {
            faults += 1;
            println!("fault: {}", String::from_utf8_lossy(line));
        }
        counts.add(classes::label(line, &answer));
    }
    let labels = reach::labels();
    let missing: Vec<_> = labels.iter().filter(|label| counts.of(label) == 0).collect();
    println!("{what}: {} of {} classes reached", labels.len() - missing.len(), labels.len());
    missing.iter().for_each(|label| println!("not reached by {what}: {label}"));
    missing.len() + faults
}
