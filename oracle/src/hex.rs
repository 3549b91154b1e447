//! Bytes as lower-case hex, the empty row as `-`.

const DIGITS: &[u8; 16] = b"0123456789abcdef";

pub fn push(out: &mut Vec<u8>, bytes: &[u8]) {
    if bytes.is_empty() {
        out.push(b'-');
    }
    out.extend(bytes.iter().flat_map(|&b| [DIGITS[(b >> 4) as usize], DIGITS[(b & 15) as usize]]));
}

/// Puts the bytes that `text` spells into `bytes`; false if it spells none.
pub fn read(text: &[u8], bytes: &mut Vec<u8>) -> bool {
    bytes.clear();
    if text == b"-" {
        return true;
    }
    if text.is_empty() || !text.len().is_multiple_of(2) {
        return false;
    }
    for pair in text.chunks_exact(2) {
        let (high, low) = (digit(pair[0]), digit(pair[1]));
        if high > 15 || low > 15 {
            return false;
        }
        bytes.push(high << 4 | low);
    }
    true
}

/// The value of a hex digit, or 255 for any other byte.
fn digit(b: u8) -> u8 {
    match b {
        b'0'..=b'9' => b - b'0',
        b'a'..=b'f' => b - b'a' + 10,
        _ => 255,
    }
}
