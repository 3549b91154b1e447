//! The record lines: what is asked of the Rust, and of `replay`.

use crate::hex;

/// What reads one input.
#[derive(Clone, Copy, PartialEq)]
pub enum Reader {
    Frame,
    W26,
    W36,
    Binary,
}

impl Reader {
    pub const ALL: [Reader; 4] = [Reader::Frame, Reader::W26, Reader::W36, Reader::Binary];

    /// The word that asks for the answer.
    pub fn word(self) -> &'static str {
        match self {
            Reader::Frame => "frame",
            Reader::W26 => "w26",
            Reader::W36 => "w36",
            Reader::Binary => "binary",
        }
    }

    /// The word that asks for the field and the reason as well.
    pub fn why_word(self) -> &'static str {
        match self {
            Reader::Frame => "whyframe",
            Reader::W26 => "why26",
            Reader::W36 => "why36",
            Reader::Binary => "whybinary",
        }
    }
}

/// What is explained: what a reader reads, or a response.
#[derive(Clone, Copy, PartialEq)]
pub enum Explained {
    Read(Reader),
    Response,
}

impl Explained {
    pub const ALL: [Explained; 5] = [
        Explained::Read(Reader::Frame),
        Explained::Read(Reader::W26),
        Explained::Read(Reader::W36),
        Explained::Read(Reader::Binary),
        Explained::Response,
    ];

    /// The second word of the question.
    pub fn word(self) -> &'static str {
        match self {
            Explained::Read(reader) => reader.word(),
            Explained::Response => "response",
        }
    }
}

/// One question. The bytes that it is about stand beside it. Why is Read with the field and the reason
/// of a refusal (02, request 5), Explain has the check that refused or the bytes of each field (02,
/// request 6), Pcap is about a whole capture file (02, request 7), and Scan about a dump (02, request 8).
#[derive(Clone, Copy)]
pub enum Call {
    Read(Reader),
    Why(Reader),
    Explain(Explained),
    Walk36,
    Pcap,
    Scan,
    Response,
    Data { size: usize, channel: u8 },
    Request { size: usize },
    Resend { size: usize },
    Again26 { size: usize },
    Again36 { size: usize },
}

impl Call {
    /// What is explained of the same bytes. None for a walk, a capture, a dump and what is written.
    pub fn explained(self) -> Option<Explained> {
        match self {
            Call::Read(reader) | Call::Why(reader) => Some(Explained::Read(reader)),
            Call::Response => Some(Explained::Response),
            _ => None,
        }
    }

    pub fn word(self) -> &'static str {
        match self {
            Call::Read(reader) => reader.word(),
            Call::Why(reader) => reader.why_word(),
            Call::Explain(_) => "explain",
            Call::Walk36 => "walk36",
            Call::Pcap => "pcap",
            Call::Scan => "scan",
            Call::Response => "response",
            Call::Data { .. } => "data",
            Call::Request { .. } => "request",
            Call::Resend { .. } => "resend",
            Call::Again26 { .. } => "again26",
            Call::Again36 { .. } => "again36",
        }
    }
}

/// No write needs more than this; a line that asks for more is a slip.
const LARGEST_SIZE: usize = 1 << 20;

/// Blank lines and headings are no questions. They are handed on as they are.
pub fn is_question(line: &[u8]) -> bool {
    !line.is_empty() && line[0] != b'#'
}

/// Takes a line apart and puts its bytes into `bytes`; None if the line has not the form of a record.
pub fn parse(line: &[u8], bytes: &mut Vec<u8>) -> Option<Call> {
    let mut words = line.split(|&b| b == b' ');
    let kind = words.next()?;
    let call = match kind {
        b"explain" => Call::Explain(explained(words.next()?)?),
        b"walk36" => Call::Walk36,
        b"pcap" => Call::Pcap,
        b"scan" => Call::Scan,
        b"response" => Call::Response,
        b"data" => Call::Data {
            size: size(words.next()?)?,
            channel: number(words.next()?)?.try_into().ok()?,
        },
        b"request" => Call::Request { size: size(words.next()?)? },
        b"resend" => Call::Resend { size: size(words.next()?)? },
        b"again26" => Call::Again26 { size: size(words.next()?)? },
        b"again36" => Call::Again36 { size: size(words.next()?)? },
        word => read(word)?,
    };
    let whole = match call {
        Call::Resend { .. } => hex::read(b"-", bytes),
        _ => hex::read(words.next()?, bytes),
    };
    (whole && words.next().is_none()).then_some(call)
}

fn read(word: &[u8]) -> Option<Call> {
    let word = std::str::from_utf8(word).ok()?;
    let plain = Reader::ALL.iter().find(|reader| reader.word() == word);
    let why = Reader::ALL.iter().find(|reader| reader.why_word() == word);
    plain.map(|&reader| Call::Read(reader)).or(why.map(|&reader| Call::Why(reader)))
}

fn explained(word: &[u8]) -> Option<Explained> {
    Explained::ALL.into_iter().find(|kind| kind.word().as_bytes() == word)
}

fn size(word: &[u8]) -> Option<usize> {
    number(word).filter(|&n| n <= LARGEST_SIZE)
}

fn number(word: &[u8]) -> Option<usize> {
    std::str::from_utf8(word).ok()?.parse().ok()
}

/// Writes the line of a question.
pub fn push(out: &mut Vec<u8>, call: Call, bytes: &[u8]) {
    out.extend_from_slice(call.word().as_bytes());
    match call {
        Call::Read(_) | Call::Why(_) | Call::Walk36 | Call::Pcap | Call::Scan | Call::Response => {}
        Call::Explain(kind) => {
            out.push(b' ');
            out.extend_from_slice(kind.word().as_bytes());
        }
        Call::Data { size, channel } => push_numbers(out, &[size, channel as usize]),
        Call::Request { size }
        | Call::Resend { size }
        | Call::Again26 { size }
        | Call::Again36 { size } => push_numbers(out, &[size]),
    }
    if !matches!(call, Call::Resend { .. }) {
        out.push(b' ');
        hex::push(out, bytes);
    }
    out.push(b'\n');
}

fn push_numbers(out: &mut Vec<u8>, numbers: &[usize]) {
    for &n in numbers {
        out.push(b' ');
        push_decimal(out, n);
    }
}

pub fn push_decimal(out: &mut Vec<u8>, n: usize) {
    if n > 9 {
        push_decimal(out, n / 10);
    }
    out.push(b'0' + (n % 10) as u8);
}
