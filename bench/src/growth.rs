//! How cost grows with length: each call on inputs of rising length, among them those that would be
//! slow if a search began anew at every byte.

use crate::calls::Kind;
use crate::inputs::{any_bytes, binary, filled, frame, mixed};

pub struct Series {
    pub name: &'static str,
    pub what: &'static str,
    pub kind: Kind,
    pub sizes: &'static [usize],
    pub make: fn(usize) -> Vec<u8>,
}

/// Bytes of the whole input.
const ANY: &[usize] = &[256, 1_024, 4_096, 16_384, 65_536];
/// Bytes of a frame's payload, of which a frame holds 4,093.
const READ: &[usize] = &[256, 1_024, 4_093];
/// Bytes of data or text; the channel or the CR is one more of payload.
const WRITTEN: &[usize] = &[256, 1_024, 4_092];

macro_rules! series {
    ($($name:literal $kind:ident $sizes:ident $what:literal $make:expr;)*) => {
        pub const ALL: &[Series] = &[$(Series {
            name: $name,
            what: $what,
            kind: Kind::$kind,
            sizes: $sizes,
            make: $make,
        }),*];
    };
}

series! {
    "frame-data" Frame READ "data frame"
        |n| frame(0x0031, &any_bytes(n));
    "frame-request" Frame READ "request frame"
        |n| frame(0x0044, &filled(b"AT", b"+UWSCA", b"\r", n));
    "frame-response" Frame READ "response frame, many lines"
        |n| frame(0x0045, &lines(n));
    "frame-event" Frame READ "0041 frame with a long field"
        |n| frame(0x0041, &filled(b"\r\n+UUWAPSTAC:0,", b"0012F398DD12", b"\r\n", n));
    "w26-field" W26 ANY "W26 line with a long field"
        |n| filled(b"\r\n+UUWAPSTAC:0,", b"0012F398DD12", b"\r\n", n);
    "w26-commas" W26 ANY "W26 line, many commas"
        |n| filled(b"\r\n+UUNU:1", b",", b"\r\n", n);
    "w26-zeros" W26 ANY "W26 number with many zeros"
        |n| filled(b"\r\n+UUNU:", b"0", b"7\r\n", n);
    "w26-name" W26 ANY "W26 line, late colon, name unknown"
        |n| filled(b"\r\n+UU", b"N", b":1\r\n", n);
    "w36-fields" W36 ANY "W36 line, many further fields"
        |n| filled(b"\r\n+UEWLU:0,0012F398DD12,6", b",12", b"\r\n", n);
    "w36-commas" W36 ANY "W36 line, many commas"
        |n| filled(b"\r\n+UESOC:1", b",", b"\r\n", n);
    "w36-after" W36 ANY "W36 line, long text after its end"
        |n| filled(b"\r\n+UESOC:1\r\n", b"\r\n+UEWSNU\r\n", b"\r\n", n);
    "w36-crs" W36 ANY "W36 field of bare CRs"
        |n| filled(b"\r\n+UEWAPSA:", b"\r", b"\r\n", n);
    "w36-zeros" W36 ANY "W36 number with many zeros"
        |n| filled(b"\r\n+UESOC:", b"0", b"1\r\n", n);
    "binary-data" Binary ANY "`+UESODB`, much data"
        |n| binary(b"\r\n+UESODB:2", n);
    "binary-marker" Binary ANY "`+UESODB`, far marker"
        |n| filled(b"\r\n+UESODB:", b"0", b"2\x01\x00\x01\xFF", n);
    "binary-none" Binary ANY "`+UESODB`, no marker"
        |n| filled(b"\r\n+UESODB:", b"2", b"", n);
    "binary-from" Binary ANY "`+UESODBF`, long address"
        |n| filled(b"\r\n+UESODBF:2,", b"192.168.", b",49152\x01\x00\x01\xFF", n);
    "response-lines" Response ANY "response, many lines" lines;
    "response-line" Response ANY "response, one line"
        |n| filled(b"\r\n", b"+UWSCAN 0012F398DD12 -64 ", b"\r\nOK\r\n", n);
    "response-crlfs" Response ANY "response of CR LFs"
        |n| filled(b"", b"\r\n", b"", n);
    "response-crs" Response ANY "response of bare CRs"
        |n| filled(b"\r\n", b"\r", b"\r\n", n);
    "response-lfs" Response ANY "response of LFs"
        |n| filled(b"\r\n", b"\n", b"\r\n", n);
    "response-echo" Response ANY "response, long echo of bare CRs"
        |n| filled(b"AT", b"\r", b"\r\nOK\r\n", n);
    "utf8-ascii" Utf8 ANY "UTF-8, ASCII"
        |n| filled(b"", b"The quick brown fox jumps over the lazy dog. ", b"", n);
    "utf8-mixed" Utf8 ANY "UTF-8, five scripts" mixed;
    "utf8-late" Utf8 ANY "UTF-8, ASCII, ill-formed at the end"
        |n| filled(b"", b"The quick brown fox jumps over the lazy dog. ", b"\xFF", n);
    "utf8-mixed-late" Utf8 ANY "UTF-8, five scripts, ill-formed at the end"
        |n| [mixed(n - 2), b"\xE2\x82".to_vec()].concat();
    "write-data" WriteData WRITTEN "write data" any_bytes;
    "write-request" WriteRequest WRITTEN "write a request"
        |n| filled(b"AT", b"+UWSCA", b"", n);
}

fn lines(len: usize) -> Vec<u8> {
    filled(b"\r\n", b"+UMLA:17\r\n", b"\r\nOK\r\n", len)
}
