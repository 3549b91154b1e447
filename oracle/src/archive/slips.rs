//! The self test of the comparison: the crate is asked amiss on purpose, and each kind of question must
//! show it.

use super::{writes, Comparison, Put};
use crate::answer::BYTE_CHANGED;
use crate::generate::Maker;
use crate::record::Call;

/// Enough draws for every word, and quick.
const DRAWN: usize = 20_000;

/// Each with the words that must show it.
const SLIPS: [(&str, &str, Put); 4] = [
    (
        "the last byte is left out",
        "frame w26 w36 binary whyframe why26 why36 whybinary walk36 response data request again26 again36",
        |call, bytes| {
            bytes.pop();
            call
        },
    ),
    ("the buffer has one byte less", "data request resend again26 again36", |call, _| {
        with_size(call, |size| size.saturating_sub(1))
    }),
    (
        "the field and the reason are left out",
        "whyframe why26 why36 whybinary",
        |call, _| match call {
            Call::Why(reader) => Call::Read(reader),
            call => call,
        },
    ),
    ("the channel is another one", "data", |call, _| match call {
        Call::Data { size, channel } => Call::Data { size, channel: !channel },
        call => call,
    }),
];

fn with_size(call: Call, change: fn(usize) -> usize) -> Call {
    match call {
        Call::Data { size, channel } => Call::Data { size: change(size), channel },
        Call::Request { size } => Call::Request { size: change(size) },
        Call::Resend { size } => Call::Resend { size: change(size) },
        Call::Again26 { size } => Call::Again26 { size: change(size) },
        Call::Again36 { size } => Call::Again36 { size: change(size) },
        call => call,
    }
}

/// True if nothing passes that should not.
pub fn noticed() -> Result<bool, String> {
    let (mut words, mut missed) = (0, unseen_writes());
    for (slip, shown_by, put) in SLIPS {
        let found = differing(put)?;
        for word in shown_by.split(' ') {
            words += 1;
            if !found.contains(&word) {
                missed += 1;
                println!("not noticed by {word}: {slip}");
            }
        }
    }
    println!("asked amiss on purpose: {missed} not noticed of {words}");
    Ok(missed == 0)
}

/// The words with a difference, if the crate is asked in this way.
fn differing(put: Put) -> Result<Vec<&'static str>, String> {
    let mut maker = Maker::for_crate(1);
    let mut comparison = Comparison::default();
    let mut line = Vec::new();
    for _ in 0..DRAWN {
        line.clear();
        maker.line(&mut line);
        comparison.ask(line.trim_ascii_end(), put)?;
    }
    let differing = comparison.words.into_iter().filter(|(_, tally)| tally.differ > 0);
    Ok(differing.map(|(word, _)| word).collect())
}

type Write = fn(&mut [u8]) -> Result<usize, ()>;

/// How many writes of a byte too many pass.
fn unseen_writes() -> usize {
    let writes: [(&str, Write); 3] = [
        ("a refused write changes a byte", |buffer| {
            buffer[0] = 0;
            Err(())
        }),
        ("a write changes the byte after its frame", |buffer| {
            buffer[..4].fill(0);
            Ok(3)
        }),
        ("a write says more bytes than there are", |buffer| Ok(buffer.len() + 1)),
    ];
    let (mut bed, mut out) = (Vec::new(), Vec::new());
    let unseen = writes.iter().filter(|(_, call)| {
        writes::write(6, &mut bed, &mut out, call, |_, ()| {}) != Err(BYTE_CHANGED)
    });
    unseen.inspect(|(what, _)| println!("not noticed: {what}")).count()
}
