//! The archive's calls, and the rows of numbers that they fill. This is the one module with `unsafe`.
//!
//! Each call is a proved function of `crates/abi`. Its contract says what it answers for every slice;
//! that it returns, reads and writes only inside the slices it is lent and keeps no pointer is proved
//! with it. What is left to this module is to pass slices as they are, and to make texts only where
//! a row holds texts (`layout`). Both can be judged here: the fields of these types are private, so
//! no other module can name a call or make an answer.

use core::str;

mod layout;

use layout::Texts;

/// As many numbers as the longest row needs.
pub(crate) const ROW: usize = 17;

/// What a call hands over: numbers, among them places in the slice that was read.
pub(crate) type Row = [u64; ROW];

/// `mirvoncle_read_w36_binary`: the bytes are no binary event at all.
pub(crate) const NOT_BINARY: u8 = 255;
/// `mirvoncle_read_w36_step`: no byte is left.
pub(crate) const END: u8 = 252;

// A place and a length are a `u64` in a row and a `usize` in Rust.
const _: () = assert!(usize::BITS == u64::BITS, "libabi.a is for processors of 64 bits");

type Ask<T> = unsafe extern "C" fn(*const u8, usize) -> T;
type Fill = unsafe extern "C" fn(*const u8, usize, *mut u64, usize) -> u8;
type Put = unsafe extern "C" fn(*mut u8, usize, *const u8, usize, *const u64, usize) -> usize;

// A slice is passed as its pointer and its length.
extern "C" {
    fn mirvoncle_version_2() -> u32;
    fn mirvoncle_frame(s: *const u8, s_len: usize) -> u8;
    fn mirvoncle_w26(s: *const u8, s_len: usize) -> u8;
    fn mirvoncle_w36(s: *const u8, s_len: usize) -> u8;
    fn mirvoncle_w36_binary(s: *const u8, s_len: usize) -> u8;
    fn mirvoncle_response(s: *const u8, s_len: usize) -> u8;
    fn mirvoncle_frame_why(s: *const u8, s_len: usize) -> u32;
    fn mirvoncle_w26_why(s: *const u8, s_len: usize) -> u32;
    fn mirvoncle_w36_why(s: *const u8, s_len: usize) -> u32;
    fn mirvoncle_w36_binary_why(s: *const u8, s_len: usize) -> u32;
    fn mirvoncle_utf8_prefix(s: *const u8, s_len: usize) -> usize;
    fn mirvoncle_read_frame(s: *const u8, s_len: usize, row: *mut u64, row_len: usize) -> u8;
    fn mirvoncle_read_w26(s: *const u8, s_len: usize, row: *mut u64, row_len: usize) -> u8;
    fn mirvoncle_read_w36(s: *const u8, s_len: usize, row: *mut u64, row_len: usize) -> u8;
    fn mirvoncle_read_w36_binary(s: *const u8, s_len: usize, row: *mut u64, row_len: usize) -> u8;
    fn mirvoncle_read_response(s: *const u8, s_len: usize, row: *mut u64, row_len: usize) -> u8;
    fn mirvoncle_read_w36_step(
        s: *const u8,
        s_len: usize,
        at: usize,
        row: *mut u64,
        row_len: usize,
    ) -> u8;
    fn mirvoncle_write_w26(
        buf: *mut u8,
        buf_len: usize,
        src: *const u8,
        src_len: usize,
        row: *const u64,
        row_len: usize,
    ) -> usize;
    fn mirvoncle_write_w36(
        buf: *mut u8,
        buf_len: usize,
        src: *const u8,
        src_len: usize,
        row: *const u64,
        row_len: usize,
    ) -> usize;
    fn mirvoncle_write_packet(
        buf: *mut u8,
        buf_len: usize,
        src: *const u8,
        src_len: usize,
        row: *const u64,
        row_len: usize,
    ) -> usize;
    fn mirvoncle_write_data(
        buf: *mut u8,
        buf_len: usize,
        channel: u8,
        data: *const u8,
        data_len: usize,
    ) -> usize;
    fn mirvoncle_write_request(
        buf: *mut u8,
        buf_len: usize,
        text: *const u8,
        text_len: usize,
    ) -> usize;
    fn mirvoncle_write_resend(buf: *mut u8, buf_len: usize) -> usize;
}

/// A program with this crate asks the linker for this symbol, and an archive of another version has
/// none of that name. The extern block above is right for archives that have it.
#[used]
static VERSION: unsafe extern "C" fn() -> u32 = mirvoncle_version_2;

/// A call that answers with one number.
pub(crate) struct Question<T>(Ask<T>);

pub(crate) const FRAME: Question<u8> = Question(mirvoncle_frame);
pub(crate) const W26: Question<u8> = Question(mirvoncle_w26);
pub(crate) const W36: Question<u8> = Question(mirvoncle_w36);
pub(crate) const W36_BINARY: Question<u8> = Question(mirvoncle_w36_binary);
pub(crate) const RESPONSE: Question<u8> = Question(mirvoncle_response);
pub(crate) const FRAME_WHY: Question<u32> = Question(mirvoncle_frame_why);
pub(crate) const W26_WHY: Question<u32> = Question(mirvoncle_w26_why);
pub(crate) const W36_WHY: Question<u32> = Question(mirvoncle_w36_why);
pub(crate) const W36_BINARY_WHY: Question<u32> = Question(mirvoncle_w36_binary_why);
pub(crate) const UTF8_PREFIX: Question<usize> = Question(mirvoncle_utf8_prefix);

impl<T> Question<T> {
    pub(crate) fn about(&self, s: &[u8]) -> T {
        // SAFETY: `s` is borrowed for the whole call, so that its bytes can be read and nothing
        // changes them. The function is one of the ten above, each of which takes just this.
        unsafe { (self.0)(s.as_ptr(), s.len()) }
    }
}

/// A call that fills a row, and where that row holds texts.
pub(crate) struct Reader {
    fill: Fill,
    texts: fn(&Row) -> Texts,
}

pub(crate) const READ_FRAME: Reader = Reader { fill: mirvoncle_read_frame, texts: layout::frame };
pub(crate) const READ_W26: Reader = Reader { fill: mirvoncle_read_w26, texts: layout::w26 };
pub(crate) const READ_W36: Reader = Reader { fill: mirvoncle_read_w36, texts: layout::w36 };
pub(crate) const READ_W36_BINARY: Reader =
    Reader { fill: mirvoncle_read_w36_binary, texts: layout::w36 };
pub(crate) const READ_RESPONSE: Reader =
    Reader { fill: mirvoncle_read_response, texts: layout::response };

impl Reader {
    #[inline]
    pub(crate) fn read<'a, 'r>(&self, s: &'a [u8], row: &'r mut Row) -> Answer<'a, 'r> {
        // SAFETY: `s` as in `Question::about`; `row` is borrowed to be changed, so that it is apart
        // from `s`. The function is one of the five above, each of which takes just this.
        let code = unsafe { (self.fill)(s.as_ptr(), s.len(), row.as_mut_ptr(), row.len()) };
        Answer { s, code, row, at: 1, texts: self.texts }
    }
}

/// The event of one W36 read that begins at `at`, binary or text.
#[inline]
pub(crate) fn read_w36_step<'a, 'r>(s: &'a [u8], at: usize, row: &'r mut Row) -> Answer<'a, 'r> {
    let (to, room) = (row.as_mut_ptr(), row.len());
    // SAFETY: as in `Reader::read`. `at` may be any number.
    let code = unsafe { mirvoncle_read_w36_step(s.as_ptr(), s.len(), at, to, room) };
    Answer { s, code, row, at: 1, texts: layout::w36 }
}

/// The row that a read has filled, with the slice that it speaks of. Its numbers are taken from left
/// to right, beginning with number 1; after the last one each is 0.
///
/// The row is borrowed, and whether a number begins a text is looked up when one is taken. So where a
/// read is inlined down to the arm of its case, the compiler knows what the lookup gives, and copies
/// no row. On that way `inline(always)` stands where it would make a call by itself.
pub(crate) struct Answer<'a, 'r> {
    s: &'a [u8],
    code: u8,
    row: &'r Row,
    /// The next number.
    at: u32,
    texts: fn(&Row) -> Texts,
}

impl<'a> Answer<'a, '_> {
    /// 0 where the slice is accepted.
    #[inline]
    pub(crate) fn code(&self) -> u8 {
        self.code
    }

    #[inline]
    pub(crate) fn number(&mut self) -> u64 {
        let number = self.row.get(self.at as usize).copied().unwrap_or(0);
        self.at = self.at.wrapping_add(1);
        number
    }

    /// The part of the slice that the next two numbers name. The range is tested, which takes two
    /// comparisons, so that these numbers may be any.
    #[inline(always)]
    pub(crate) fn bytes(&mut self) -> &'a [u8] {
        let place = self.number() as usize;
        let length = self.number() as usize;
        self.s.get(place..).and_then(|rest| rest.get(..length)).unwrap_or_default()
    }

    /// Whether the next two numbers name a text. A refusal holds none.
    #[inline]
    fn at_text(&self) -> bool {
        let from_here = (self.texts)(self.row).checked_shr(self.at).unwrap_or(0);
        self.code == 0 && from_here & 1 == 1
    }

    /// The text that the next two numbers name; where the row holds no text there, an empty one.
    #[inline(always)]
    pub(crate) fn text(&mut self) -> &'a str {
        let is_text = self.at_text();
        let bytes = self.bytes();
        if is_text {
            // SAFETY: the archive has accepted `s` and filled the row for it, and this is a text of
            // the row. It is UTF-8 by the contract of the call that filled it: theorems
            // `frame-handed`, `w26-handed`, `w36-handed`, `binary-handed`, `response-handed` and
            // `step-handed` of `crates/abi/proofs/Handed.antt`. `s` is borrowed since before that
            // call and the row since just after it, so both are the same now. (An empty slice, for
            // a range outside `s`, which the same theorems exclude, is UTF-8 too.)
            unsafe { str::from_utf8_unchecked(bytes) }
        } else {
            ""
        }
    }
}

/// A call that writes what a row says.
pub(crate) struct Writer(Put);

pub(crate) const WRITE_W26: Writer = Writer(mirvoncle_write_w26);
pub(crate) const WRITE_W36: Writer = Writer(mirvoncle_write_w36);
pub(crate) const WRITE_PACKET: Writer = Writer(mirvoncle_write_packet);

impl Writer {
    #[inline]
    pub(crate) fn write(&self, buf: &mut [u8], source: &[u8], row: &Row) -> usize {
        let (to, from, row_len) = (buf.as_mut_ptr(), source.as_ptr(), row.len());
        // SAFETY: the three slices are borrowed for the whole call, and `buf` to be changed, so that
        // it is apart from the others. The row may hold any numbers: a place outside of `source` is
        // refused. The function is one of the three above, each of which takes just this.
        unsafe { (self.0)(to, buf.len(), from, source.len(), row.as_ptr(), row_len) }
    }
}

pub(crate) fn write_data(buf: &mut [u8], channel: u8, data: &[u8]) -> usize {
    let to = buf.as_mut_ptr();
    // SAFETY: as in `Writer::write`, without a row.
    unsafe { mirvoncle_write_data(to, buf.len(), channel, data.as_ptr(), data.len()) }
}

pub(crate) fn write_request(buf: &mut [u8], text: &str) -> usize {
    // SAFETY: as in `write_data`.
    unsafe { mirvoncle_write_request(buf.as_mut_ptr(), buf.len(), text.as_ptr(), text.len()) }
}

pub(crate) fn write_resend(buf: &mut [u8]) -> usize {
    // SAFETY: as in `write_data`.
    unsafe { mirvoncle_write_resend(buf.as_mut_ptr(), buf.len()) }
}
