//! Every string up to some length over a few symbols, bare and after the beginnings of events and of
//! captures. What a reader reads is asked about with both of its words, and explained, as responses are.

use crate::record::{self, Call, Reader};

const W26: Call = Call::Read(Reader::W26);
const W36: Call = Call::Read(Reader::W36);
const BINARY: Call = Call::Read(Reader::Binary);

/// The bytes that the readers look for, digits, a letter, and the halves of a two-byte character.
const MARKS: &[&[u8]] =
    &[b"\r", b"\n", b":", b",", b"+", b"0", b"2", b"A", b"\x01", b"\xC3", b"\xA9"];

/// For what follows the colon of a binary event.
const INLINE: &[&[u8]] = &[b"2", b",", b"+", b"a", b"\x00", b"\x01", b"\xC3"];

/// Inside a field: digits at the edges of the codes and of their neighbours in ASCII.
const DIGITS: &[&[u8]] = &[b"0", b"1", b"2", b"3", b"5", b"6", b"9", b"+", b"-", b" ", b"/", b","];

/// The two names of one event, whole, and pieces of a line that has them.
const PLUS: &[&[u8]] = &[b"+", b"UUNERR", b"U", b":", b",", b"7"];

/// For the fields of a Bluetooth line: what ends one, what spells a number and what does not.
const FIELDS: &[&[u8]] = &[b"0", b"1", b",", b"a", b"+"];

/// For a line of four fields: so few that the strings may be long enough to spell it.
const FEW: &[&[u8]] = &[b"0", b",", b"a"];

/// All but the last digit of the largest number of 32 bits, and what may stand around it.
const WIDEST: &[&[u8]] = &[b"429496729", b"0", b"4", b"5", b"6", b"+", b","];

/// The same for 16 bits, with a byte that is not allowed.
const WIDE: &[&[u8]] = &[b"6553", b"0", b"5", b"6", b"+", b",", b"x"];

/// Whole fields, each with its comma: in some list or in none, no number, and empty.
const WHOLE: &[&[u8]] = &[b",1", b",2", b",9", b",x", b","];

/// What the Bluetooth names have after `+UUBT`.
const NAMES: &[&[u8]] = &[b"G", b"I", b"C", b"N", b"R", b"W", b"U", b"P", b"D", b"E", b"B", b"ACL"];

/// Whole events of a W36 read, and pieces of them.
const EVENTS: &[&[u8]] = &[
    b"\r\n+UESOC:1\r\n",
    b"\r\n+UEWSNU\r\n",
    b"\r\n+UESOC:x\r\n",
    b"\r\n+UESODB:2\x01\x00\x01\xFF",
    b"\r\n+UESODBF:2,a,3\x01\x00\x02\r\n",
    b"\r\n",
    b"\n",
    b"\xFF",
];

/// Whole words, since a response turns on them.
const WORDS: &[&[u8]] = &[b"\r", b"\n", b"\r\n", b"OK", b"ERROR", b"a", b"\xC3", b"\xA9"];

/// The header of a capture in each byte order.
const LITTLE: &[u8; 24] = b"\xD4\xC3\xB2\xA1\x02\0\x04\0\0\0\0\0\0\0\0\0\x03\x10\0\0\x93\0\0\0";
const BIG: &[u8; 24] = b"\xA1\xB2\xC3\xD4\0\x02\0\x04\0\0\0\0\0\0\0\0\0\0\x10\x03\0\0\0\x93";

/// The bytes of the magics of microseconds and nanoseconds.
const MAGIC: &[&[u8]] = &[b"\xA1", b"\xB2", b"\xC3", b"\xD4", b"\x3C", b"\x4D"];

/// For the two parts of a version, and for a link type.
const VERSION: &[&[u8]] = &[b"\0", b"\x02", b"\x03", b"\x04"];
const LINK_TYPE: &[&[u8]] = &[b"\0", b"\x93", b"\x92", b"\x01", b"\x10"];

/// Whole numbers before a frame, 0, 1 and around the largest of the microseconds, and a byte of a frame.
const LITTLE_NUMBERS: &[&[u8]] =
    &[b"\0\0\0\0", b"\x01\0\0\0", b"\x3F\x42\x0F\0", b"\x40\x42\x0F\0", b"A"];
const BIG_NUMBERS: &[&[u8]] =
    &[b"\0\0\0\0", b"\0\0\0\x01", b"\0\x0F\x42\x3F", b"\0\x0F\x42\x40", b"A"];

/// The ends of a frame, and bytes of the smallest lengths.
const DUMP: &[&[u8]] = &[b"\xAA", b"\x55", b"\0", b"\x01", b"\x02"];

/// Whole frames, one of them with top bits in its length and the ends of frames inside, and pieces.
const DUMPED: &[&[u8]] = &[
    b"\xAA\0\x02\0\x71\x55",
    b"\xAA\xF0\x04\xAA\x55\xAA\x55\x55",
    b"\xAA",
    b"\xAA\0\x03",
    b"\0\x41",
    b"\x55",
];

pub struct Set {
    call: Call,
    before: &'static [u8],
    symbols: &'static [&'static [u8]],
    longest: usize,
    after: &'static [u8],
}

const fn set(
    call: Call,
    before: &'static [u8],
    symbols: &'static [&'static [u8]],
    longest: usize,
    after: &'static [u8],
) -> Set {
    Set { call, before, symbols, longest, after }
}

pub const SETS: [Set; 52] = [
    set(W26, b"", MARKS, 4, b""),
    set(W26, b"\r\n", MARKS, 4, b"\r\n"),
    set(W26, b"\r\n+UUDPD", MARKS, 4, b""),
    set(W26, b"\r\n+UUDPD", MARKS, 4, b"\r\n"),
    set(W26, b"\r\n+UUDPD:", WIDE, 4, b"\r\n"),
    set(W26, b"\r\n+UUETHLU", MARKS, 3, b"\r\n"),
    set(W26, b"\r\n+UUDPC:1", WHOLE, 6, b"\r\n"),
    set(W26, b"\r\n+UUDPC:", DIGITS, 3, b",1,a,2,b,3\r\n"),
    set(W26, b"\r\n+UUDPC:1,3,", DIGITS, 3, b",,7,,8\r\n"),
    set(W26, b"\r\n+UUWLD:1,", DIGITS, 3, b"\r\n"),
    set(W26, b"\r\n", PLUS, 6, b"\r\n"),
    set(W26, b"\r\n+UUBT", NAMES, 3, b"\r\n"),
    // Every name with this beginning reads these fields.
    set(W26, b"\r\n+UUBT", NAMES, 3, b":0,0,a,0\r\n"),
    set(W26, b"\r\n+UUBTACLD", MARKS, 3, b"\r\n"),
    set(W26, b"\r\n+UUBTACLD:", FIELDS, 5, b"\r\n"),
    set(W26, b"\r\n+UUBTACLC:", FIELDS, 5, b"\r\n"),
    set(W26, b"\r\n+UUBTB:", FIELDS, 5, b"\r\n"),
    set(W26, b"\r\n+UUBTB:,", DIGITS, 3, b"\r\n"),
    set(W26, b"\r\n+UUBTUC:a,", WIDEST, 4, b"\r\n"),
    set(W26, b"\r\n+UUBTGRW:", FEW, 7, b"\r\n"),
    set(W26, b"\r\n+UUDPC:3,1", FIELDS, 6, b"\r\n"),
    set(Call::Again26 { size: 21 }, b"\r\n+UUBTGRW:1,2,", MARKS, 3, b",+03\r\n"),
    set(W36, b"", MARKS, 4, b""),
    set(W36, b"\r\n", MARKS, 4, b"\r\n"),
    set(W36, b"\r\n+UESOC", MARKS, 4, b""),
    set(W36, b"\r\n+UESOC", MARKS, 4, b"\r\n"),
    set(W36, b"\r\n+UEWAPSA", MARKS, 4, b"\r\n"),
    set(W36, b"\r\n+UESOCL:", DIGITS, 4, b"\r\n"),
    set(W36, b"\r\n+UEWLU:", FEW, 5, b"\r\n"),
    set(W36, b"\r\n+UEWAPU", MARKS, 3, b"\r\n"),
    set(BINARY, b"", MARKS, 3, b""),
    set(BINARY, b"\r\n+UESODB", MARKS, 4, b""),
    set(BINARY, b"\r\n+UESODB:", INLINE, 5, b""),
    set(BINARY, b"\r\n+UESODBF:", INLINE, 5, b"\x01\x00\x01\xFF"),
    set(BINARY, b"\r\n+UESODBF:1,a", INLINE, 5, b""),
    set(BINARY, b"\r\n+UESODBF:1,a,", WIDE, 4, b"\x01\x00\x00"),
    set(Call::Walk36, b"", EVENTS, 5, b""),
    set(Call::Walk36, b"\r\n+UESOC:1\r\n", MARKS, 4, b"\r\n"),
    set(Call::Walk36, b"\r\n+UESODB:2\x01\x00\x02", MARKS, 4, b""),
    set(Call::Pcap, b"", MAGIC, 4, LITTLE.split_at(4).1),
    set(Call::Pcap, b"", MAGIC, 4, BIG.split_at(4).1),
    set(Call::Pcap, LITTLE.split_at(4).0, VERSION, 5, LITTLE.split_at(8).1),
    set(Call::Pcap, BIG.split_at(4).0, VERSION, 5, BIG.split_at(8).1),
    set(Call::Pcap, LITTLE.split_at(20).0, LINK_TYPE, 5, b""),
    set(Call::Pcap, BIG.split_at(20).0, LINK_TYPE, 5, b""),
    set(Call::Pcap, LITTLE, LITTLE_NUMBERS, 6, b""),
    set(Call::Pcap, BIG, BIG_NUMBERS, 6, b""),
    set(Call::Scan, b"", DUMP, 7, b""),
    set(Call::Scan, b"", DUMPED, 6, b""),
    set(Call::Response, b"", MARKS, 4, b""),
    set(Call::Response, b"", WORDS, 5, b""),
    set(Call::Response, b"\r\n", WORDS, 4, b"\r\n"),
];

impl Set {
    pub fn lines(&self, out: &mut Vec<u8>) {
        for length in 0..=self.longest {
            let count = self.symbols.len().pow(length as u32);
            for number in 0..count {
                let string = self.string(length, number);
                record::push(out, self.call, &string);
                if let Call::Read(reader) = self.call {
                    record::push(out, Call::Why(reader), &string);
                }
                if let Some(kind) = self.call.explained() {
                    record::push(out, Call::Explain(kind), &string);
                }
            }
        }
    }

    /// The string whose symbols are the digits of `number` in the base of the symbols' count.
    fn string(&self, length: usize, number: usize) -> Vec<u8> {
        let mut bytes = self.before.to_vec();
        let mut rest = number;
        for _ in 0..length {
            bytes.extend_from_slice(self.symbols[rest % self.symbols.len()]);
            rest /= self.symbols.len();
        }
        bytes.extend_from_slice(self.after);
        bytes
    }
}
