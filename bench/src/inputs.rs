//! Where inputs lie, and how they are made.

/// Sixty-four bytes from an address that is a multiple of 64.
#[derive(Clone, Copy)]
#[repr(C, align(64))]
struct Line([u8; 64]);

/// Bytes at an address that does not change from run to run but for multiples of 64. Counts of
/// instructions depend on it, since both memcpy and the Rust's UTF-8 check look at it.
pub struct Place {
    lines: Vec<Line>,
    shift: usize,
    len: usize,
}

impl Place {
    /// Frames begin at an odd address, so that the 16-bit numbers from byte 1 on, which the Rust
    /// reads through a reference, lie where such a reference may point.
    pub fn of_frame(bytes: &[u8]) -> Place {
        Place::new(bytes, 1)
    }

    pub fn of_text(bytes: &[u8]) -> Place {
        Place::new(bytes, 0)
    }

    fn new(bytes: &[u8], shift: usize) -> Place {
        let lines = vec![Line([0; 64]); (shift + bytes.len()).div_ceil(64).max(1)];
        let mut place = Place { lines, shift, len: bytes.len() };
        place.bytes_mut().copy_from_slice(bytes);
        place
    }

    pub fn bytes(&self) -> &[u8] {
        let all = self.lines.as_ptr().cast::<u8>();
        // SAFETY: `lines` holds at least shift + len bytes, all of them initialised.
        unsafe { std::slice::from_raw_parts(all.add(self.shift), self.len) }
    }

    pub fn bytes_mut(&mut self) -> &mut [u8] {
        let all = self.lines.as_mut_ptr().cast::<u8>();
        // SAFETY: as above, and `self` is borrowed for as long as the slice lives.
        unsafe { std::slice::from_raw_parts_mut(all.add(self.shift), self.len) }
    }
}

/// One sentence in five scripts, with characters of one, two, three and four bytes.
pub const MIXED: &str =
    "Débit à 12 °C, Ωμέγα ροή στον σωλήνα, скорость потока в трубе, 流量計の測定値は安定, pump 🌊🔧 ok. ";

/// `head`, then `filling` over and over, then `tail`: `len` bytes in all.
pub fn filled(head: &[u8], filling: &[u8], tail: &[u8], len: usize) -> Vec<u8> {
    let gap = len.checked_sub(head.len() + tail.len()).expect("the ends fit into the length");
    let mut bytes = head.to_vec();
    bytes.extend(filling.iter().cycle().take(gap));
    bytes.extend_from_slice(tail);
    bytes
}

/// The sentence over and over, cut at the last character that fits into `len` bytes.
pub fn mixed(len: usize) -> Vec<u8> {
    let bytes = filled(b"", MIXED.as_bytes(), b"", len);
    let whole = bytes.utf8_chunks().next().map_or(0, |chunk| chunk.valid().len());
    bytes[..whole].to_vec()
}

pub fn frame(identifier: u16, payload: &[u8]) -> Vec<u8> {
    let length = u16::try_from(payload.len() + 2).expect("a frame's length has 16 bits");
    let mut bytes = vec![0xAA];
    bytes.extend_from_slice(&length.to_be_bytes());
    bytes.extend_from_slice(&identifier.to_be_bytes());
    bytes.extend_from_slice(payload);
    bytes.push(0x55);
    bytes
}

/// A binary event of `len` bytes in all, with as much data as that leaves.
pub fn binary(head: &[u8], len: usize) -> Vec<u8> {
    let data = len - head.len() - 3;
    let length = u16::try_from(data).expect("the data's length has 16 bits");
    let mut bytes = head.to_vec();
    bytes.push(1);
    bytes.extend_from_slice(&length.to_be_bytes());
    bytes.extend(any_bytes(data));
    bytes
}

/// Bytes of every value, as data of a probe may be.
pub fn any_bytes(len: usize) -> Vec<u8> {
    (0..len).map(|i| (i * 167 + 13) as u8).collect()
}
