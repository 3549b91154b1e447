//! Every call once or twice, on examples of document 01. read.stdout holds what it prints.

use mirvoncle::w26x::at_protocol as w26;
use mirvoncle::w26x::edm_protocol::EdmPacket;
use mirvoncle::w36x::at_protocol as w36;
use mirvoncle::{Binary, EventWriteError, Refusal, Why};

fn read_as(what: &str, outcome: Result<(), Refusal>) {
    match outcome {
        Ok(()) => println!("{what}: accepted"),
        Err(e) => println!("{what}: refused {} {e:?}", e.number()),
    }
}

fn written_as(what: &str, buf: &[u8], outcome: Result<usize, Refusal>) {
    match outcome {
        Ok(n) => {
            let bytes: Vec<String> = buf[..n].iter().map(|b| format!("{b:02X}")).collect();
            println!("{what}: {}", bytes.join(" "));
        }
        Err(e) => println!("{what}: refused {} {e:?}", e.number()),
    }
}

fn binary_as(what: &str, outcome: Result<Binary, Refusal>) {
    match outcome {
        Ok(Binary::Event) => println!("{what}: accepted"),
        Ok(Binary::NotBinary) => println!("{what}: not binary"),
        Err(e) => println!("{what}: refused {} {e:?}", e.number()),
    }
}

fn why_as<T>(what: &str, outcome: Result<T, Why>) {
    match outcome {
        Ok(_) => println!("{what}: accepted"),
        Err(why) => println!("{what}: {why}"),
    }
}

fn main() {
    codes();
    writes();
    contents();
    walk(b"\r\n+UESODB:2\x01\x00\x01\xFF\r\n+UEWSNU\r\n\r\n+UESOC:x\r\n");
    lines();
}

/// Whether bytes are accepted, and what is wrong with them.
fn codes() {
    read_as("start frame", mirvoncle::frame(b"\xAA\x00\x02\x00\x71\x55"));
    read_as("frame with a wrong length", mirvoncle::frame(b"\xAA\x00\x05\x00\x31\x01\x07\x55"));
    read_as("W26 +UUDPD:65535", mirvoncle::w26(b"\r\n+UUDPD:65535\r\n"));
    read_as("W26 +UUDPD:65536", mirvoncle::w26(b"\r\n+UUDPD:65536\r\n"));
    read_as("W36 +UEWSNU", mirvoncle::w36(b"\r\n+UEWSNU\r\n\r\n+UESOC:1\r\n"));
    read_as("W36 line without a name", mirvoncle::w36(b"\r\n\r\n"));
    binary_as("W36 binary +UESODB:2", mirvoncle::w36_binary(b"\r\n+UESODB:2\x01\x00\x01\xFF"));
    binary_as("W36 binary +UESODB:2 without data", mirvoncle::w36_binary(b"\r\n+UESODB:2"));
    binary_as("W36 binary +UEWSNU", mirvoncle::w36_binary(b"\r\n+UEWSNU\r\n"));
    read_as("response +A OK", mirvoncle::response(b"\r\n+A\r\nOK\r\n"));
    read_as("response without CR LF", mirvoncle::response(b"OK"));
    why_as("W26 protocol 9", mirvoncle::w26_why(b"\r\n+UUDPC:1,2,9,a,1,b,2\r\n"));
    why_as("W26 +UUDPD:65536", mirvoncle::w26_why(b"\r\n+UUDPD:65536\r\n"));
    why_as("W36 +UESODA:1", mirvoncle::w36_why(b"\r\n+UESODA:1\r\n"));
    why_as("W36 line without a name", mirvoncle::w36_why(b"\r\n\r\n"));
    why_as("W36 binary +UESODB:2,7", mirvoncle::w36_binary_why(b"\r\n+UESODB:2,7\x01\x00\x00"));
    let event = b"\xAA\x00\x0C\x00\x41\r\n+UUND:\r\n\x55";
    why_as("frame with +UUND:", mirvoncle::frame_why(event));
    println!("UTF-8 before a surrogate: {}", mirvoncle::utf8_prefix(b"A\xED\xA0\x80"));
}

fn writes() {
    let mut buf = [0; 16];
    let data = mirvoncle::write_data(&mut buf, 3, b"A");
    written_as("data on channel 3", &buf, data);
    let request = mirvoncle::write_request(&mut buf, "AT");
    written_as("request AT", &buf, request);
    let resend = mirvoncle::write_resend(&mut buf);
    written_as("resend", &buf, resend);
    let short = mirvoncle::write_resend(&mut buf[..5]);
    written_as("resend into 5 bytes", &buf, short);
}

/// What packets, events and responses hold.
fn contents() {
    println!("frame 36: {:?}", EdmPacket::new(b"\xAA\x00\x04\x00\x36\x03\x41\x55"));
    println!("frame +UUETHLU: {:?}", EdmPacket::new(b"\xAA\x00\x0E\x00\x41\r\n+UUETHLU\r\n\x55"));
    println!("W26 +UUDPC: {:?}", w26::ATEvent::new(b"\r\n+UUDPC:1,3,6,::1,80,::2,1883\r\n"));
    println!("W26 +UUBTACLC: {:?}", w26::ATEvent::read(b"\r\n+UUBTACLC:1,0,A0B1\r\n"));
    println!("W26 +UUNU:x: {:?}", w26::ATEvent::new(b"\r\n+UUNU:x\r\n"));
    println!("W36 binary: {:?}", w36::ATEvent::read_binary(b"\r\n+UESODBF:1,::1,53\x01\x00\x00"));
    println!("response: {:?}", w36::ATResponse::new(b"\r\n+A\r\nOK\r\n"));
}

/// Every event of one read.
fn walk(buf: &[u8]) {
    for item in w36::ATEvent::walk(buf) {
        match item {
            Ok(placed) => println!("walk: {:?}, past {}", placed.event, placed.past),
            Err(refused) => println!("walk: {refused}"),
        }
    }
}

fn line_as(what: &str, buf: &[u8], outcome: Result<usize, EventWriteError>) {
    match outcome {
        Ok(n) => println!("{what}: {}", buf[..n].escape_ascii()),
        Err(e) => println!("{what}: refused {e}"),
    }
}

/// An event written, and one that is read and written again.
fn lines() {
    let mut buf = [0; 32];
    let mac_addr = "A0B1C2";
    let event = w36::ATEvent::WifiAccessPointStationAssociated { mac_addr };
    let line = event.write_line(mac_addr.as_bytes(), &mut buf);
    line_as("line", &buf, line);
    let line = event.write_line(mac_addr.as_bytes(), &mut buf[..8]);
    line_as("line into 8 bytes", &buf, line);
    let line = event.write_line(b"another source", &mut buf);
    line_as("line from another source", &buf, line);
    let read = b"\r\n+UUWLE:+007,A0B1C2,06\r\n";
    if let Ok(event) = w26::ATEvent::new(read) {
        let line = event.write_line(read, &mut buf);
        line_as("line again", &buf, line);
    }
}
